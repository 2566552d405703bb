"""The folder that came with document 01 and is not part of this repository: whether it has what a comparison needs."""
import os


class NoFolder(Exception):
    """a folder that is not there, or lacks something"""


def needed(folder, parts):
    """the folder, if it has these parts"""
    if not os.path.isdir(folder):
        raise NoFolder("there is no folder %s" % folder)
    missing = [part for part in parts if not os.path.exists(os.path.join(folder, part))]
    if missing:
        raise NoFolder("the folder %s has no %s; it is to be the one that came with document 01" % (folder, " and no ".join(missing)))
    return folder
