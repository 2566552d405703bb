"""Rows events asked, and an answer to `rows` cut into its images."""
from typing import NamedTuple

from .values import unhex

# the codes that are read, and how many images stand together
TOGETHER = {23: 1, 24: 2, 25: 1, 30: 1, 31: 2, 32: 1}
WRITES, UPDATES, FIRST_EDITION = (23, 30), (24, 31), (23, 24, 25)


class Answered(NamedTuple):
    """flags, extra data and the sets; each image with its offset and values; and the words behind them: `end` or `refused`"""
    head: list
    sets: list
    images: list
    how: list


def answered(answer):
    words = answer.split(" ")
    if words[0] != "ok":
        return Answered([], [], [], words)
    last = next(at for at, word in enumerate(words) if word in ("end", "refused"))
    starts = [at for at, word in enumerate(words) if word == "image"]
    images = [(int(words[at + 1]), words[at + 2:behind]) for at, behind in zip(starts, starts[1:] + [last])]
    return Answered(words[1:4], [unhex(bits) for bits in words[3].split(",")], images, words[last:])


def table_id(body):
    """the table id of a map or a rows event, as the server wrote it"""
    return int.from_bytes(body[:6], "little")


def rows_line(code, record, of_map, body):
    """a rows event under the record of its map and the map's id"""
    return "rows %d %s %d %s" % (code, record.hex(), table_id(of_map), body.hex())


def check_line(server, of_map):
    return "check-as %s 8 %s 262144" % (server, of_map.hex())


# why the check turns down what the servers of the captures log, by the number of the refusal
REFUSED_MAPS = {
    "4": "with a compressed column, refused 4",
    "5": "with a DECIMAL of more than 30 digits behind the point, refused 5",
}


def why_refused(told, of_map, checked):
    """why a map is refused; a difference, if that is not listed"""
    why = REFUSED_MAPS.get(checked.split(" ")[1])
    if why is None:
        told.differ("map", of_map.hex(), checked, "ok")
    return why or "that should not be refused"
