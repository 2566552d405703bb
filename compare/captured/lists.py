"""The lists of maps and of single images, S.check.* and S.image.* for a server S, and S.image6.* for images of more than 255 columns."""
import os

from program import answers

from .told import lines
from .values import FEW_COLUMNS, columns_of, hex_word, judge_values, unhex

# what the servers of the captures log and document 01 turns down, by its answer
REFUSED_MAPS = {"refused 4 1 0": "a compressed column, refused 4", "refused 5 0 0": "a DECIMAL of more than 30 digits behind the point, refused 5"}


def with_part(answer):
    """an answer of the lists, which tell number and place of a refusal; no refusal of the check has a part"""
    return answer + " 0" if answer.startswith("refused ") else answer


def maps(folder, server, told):
    """every map, checked in the dialect of its server"""
    base = os.path.join(folder, server + ".check")
    asked = lines(base + ".cases")
    rights, written, names = lines(base + ".right"), lines(base + ".answers"), lines(base + ".names")
    cases = ["check-as %s %s" % (server, c.split(" ", 1)[1]) for c in asked]
    for case, got, right, as_written, name in zip(cases, answers(cases), rights, written, names):
        wanted = with_part(as_written if right == "=" else right)
        told["maps"] += 1
        if wanted in REFUSED_MAPS:
            told["maps with " + REFUSED_MAPS[wanted]] += 1
        told["maps of more than 255 columns"] += int(name.split("\t")[1]) > FEW_COLUMNS
        if got != wanted:
            told.differ("map " + name.split("\t")[0], case, got, wanted)


def judge_image(told, case, got, true):
    """every value of an image; whether all of it was read"""
    _, record, presence, _ = case.split(" ")
    words, trues = got.split(" "), true.split(" ")
    last = next(at for at, word in enumerate(words) if word in ("end", "refused"))
    if not judge_values(told, case, unhex(record), unhex(presence), words[:last], words[last:], trues):
        return False
    if words[last:] != trues[-2:]:
        told.differ("bytes used", case, got, true)
        return False
    return True


def row_of(told, case, got):
    """the line that writes what was read, and the bytes that it must give: the image with its spare null bits set"""
    _, record, presence, image = case.split(" ")
    values = got.split(" ")[:-2]
    image = bytearray(unhex(image))
    nulls = (len(values) + 7) // 8
    head = hex_word(image[:nulls])
    if len(values) % 8:
        filled = image[nulls - 1] | 0xFF << len(values) % 8 & 0xFF
        told["rows written again whose spare null bits the server left clear"] += filled != image[nulls - 1]
        image[nulls - 1] = filled
    line = " ".join(["row", record, presence, head, str(len(image))] + values)
    return line, "ok " + hex_word(image)


def listed_images(folder, server):
    """the lines of all images, and what the server told of each"""
    for name in (server + ".image", server + ".image6"):
        base = os.path.join(folder, name)
        yield from zip(lines(base + ".cases"), lines(base + ".truth"))


def images(folder, server, told):
    """every image: read, and written again"""
    cases, trues = zip(*listed_images(folder, server))
    rows, wanted = [], []
    for case, got, true in zip(cases, answers(cases), trues):
        told["images"] += 1
        told["images of more than 255 columns"] += columns_of(unhex(case.split(" ")[1])) > FEW_COLUMNS
        if judge_image(told, case, got, true):
            line, image = row_of(told, case, got)
            rows.append(line)
            wanted.append(image)
    for line, got, image in zip(rows, answers(rows), wanted):
        told["rows written again"] += 1
        if got != image:
            told.differ("row written again", line, got, image)
