"""Rows events: the list S.rows.*, and all that the folder of a server has, phase by phase."""
import os
import re

from program import answers

from .answered import FIRST_EDITION, TOGETHER, answered, check_line, rows_line, why_refused
from .lists import listed_images
from .texts import hexed, true_word
from .told import lines
from .values import FEW_COLUMNS, columns_of, entry_of, hex_word, judge_values, present, unhex

# bodies that hold no images as they stand
UNREAD = {39: "rows events of code 39, partial updates, refused 16"}
UNREAD.update((code, "rows events of codes 166 to 168, compressed, refused 16") for code in (166, 167, 168))
OTHER_CODE = "refused 16 0 0"
WIDE = "rows events of more than 255 columns"
FRACTIONS = "rows events of old temporals with a fraction, which no map tells, left out"


# ---- the list
def parts_told(true):
    """extra data, sets, offsets of images and the end, by a line of S.rows.truth"""
    _, extra, _, sets, _, count, _, offsets = true.split(" ")
    return extra, sets, [] if offsets == "-" else [int(at) for at in offsets.split(",")], ["end", count]


def known_images(folder, server):
    """what the server told of an image, by its record, presence and bytes"""
    return {tuple(case.split(" ")[1:]): true.split(" ")[:-2] for case, true in listed_images(folder, server)}


def judge_listed(told, line, got, true, known):
    _, code, record, _, body = line.split(" ")
    extra, sets, offsets, how = parts_told(true)
    if int(code) in FIRST_EDITION:
        extra = "none"
    if (got.head[1:], [at for at, _ in got.images], got.how) != ([extra, sets], offsets, how):
        told.differ("parts of a rows event", line, got, true)
        return
    told["rows events, with the parts and offsets that are told of them"] += 1
    body = unhex(body)
    for rank, ((at, values), end) in enumerate(zip(got.images, offsets[1:] + [len(body)])):
        bits = got.sets[rank % len(got.sets)]
        trues = known.get((record, hex_word(bits), hex_word(body[at:end])))
        told["images that the list of single images does not have" if trues is None else "images that were cut by hand"] += 1
        if trues is not None:
            judge_values(told, line, unhex(record), bits, values, got.how, trues)


def listed(folder, server, told):
    """S.rows.*: every event under the record of its map"""
    base = os.path.join(folder, server)
    maps = [bytes.fromhex(case.split(" ")[2]) for case in lines(base + ".check.cases")]
    records = answers([check_line(server, of_map) for of_map in maps])
    asked, trues = [], []
    for case, name, true in zip(lines(base + ".rows.cases"), lines(base + ".rows.names"), lines(base + ".rows.truth")):
        _, code, body = case.split(" ")
        at = int(name.split("\t")[2]) - 1
        if records[at].startswith("refused"):
            told["rows events of maps " + why_refused(told, maps[at], records[at])] += 1
        else:
            record = bytes.fromhex(records[at][3:])
            told[WIDE] += columns_of(record) > FEW_COLUMNS
            asked.append(rows_line(int(code), record, maps[at], bytes.fromhex(body)))
            trues.append(true)
    known = known_images(folder, server)
    for line, got, true in zip(asked, answers(asked), trues):
        judge_listed(told, line, answered(got), true, known)


# ---- all events, phase by phase
class Phase:
    """the maps of a phase, and the images and values of each statement, in order"""

    def __init__(self, folder, name):
        base = os.path.join(folder, name)
        self.maps = {case: bytes.fromhex(body) for _, case, body in (line.split(" ") for line in lines(base + ".maps.txt"))}
        self.events = [line.split(" ")[1:] for line in lines(base + ".rows.txt")]
        if os.path.exists(base + ".rows_plain.txt"):
            self.events += [line.split(" ")[1:] for line in lines(base + ".rows_plain.txt")]
        self.images, self.trues = {}, {}
        for line in lines(base + ".images.txt"):
            _, case, _, _, presence, image = line.split(" ")
            self.images.setdefault(case, []).append((unhex(presence), unhex(image)))
        for line in lines(base + ".truth.txt"):
            _, case, _, _, *fields = line.split("\t")
            self.trues.setdefault(case, []).append([None if field == "\\N" else field.encode() for field in fields])
        old = os.path.join(folder, "old.columns.tsv") if name.startswith("old") else None
        self.fractions = {line.split("\t")[0] for line in lines(old) if re.search(r"\(\d\).*mariadb-5.3", line)} if old else ()

    def next_images(self, case, size, together):
        """those of the images cut by hand that so many bytes hold, each with what the server told of its row"""
        found, images, trues = [], self.images.get(case, []), self.trues.get(case, [])
        while sum(len(image) for _, image, _ in found) < size and images:
            found += [(*images.pop(0), trues.pop(0)) for _ in range(min(together, len(images)))]
        return found


def map_of(case):
    return re.sub(r"\.s\d+", "", case, count=1)


def trues_of(record, presence, fields):
    """what the server told of the present columns; it has hidden ones behind those that it names"""
    return [true_word(entry_of(record, place), fields[place], hexed) if place < len(fields) else "hidden" for place in present(record, presence)]


def judge_event(told, phase, case, line, got):
    """the images of an event, and every value in them"""
    _, code, record, _, body = line.split(" ")
    record, body = unhex(record), unhex(body)
    if not got.head:
        told.differ("rows event " + case, line, " ".join(got.how), "ok")
        return
    at = got.images[0][0] if got.images else len(body)
    by_hand = phase.next_images(case, len(body) - at, TOGETHER[int(code)])
    for rank, (presence, image, fields) in enumerate(by_hand):
        if rank >= len(got.images) or got.images[rank][0] != at or got.sets[rank % len(got.sets)] != presence:
            told.differ("image %d of %s" % (rank, case), line, got.images[rank:rank + 1], (at, presence.hex()))
            return
        told["images, each where it was cut by hand"] += 1
        if not judge_values(told, line, record, presence, got.images[rank][1], got.how, trues_of(record, presence, fields)):
            return
        at += len(image)
    if (at, got.how) != (len(body), ["end", str(len(by_hand))]):
        told.differ("end of " + case, line, " ".join(got.how), "end %d" % len(by_hand))
        return
    told["rows events read to their end"] += 1
    told["rows events without an image"] += not got.images


def phase_events(folder, server, name, told):
    phase = Phase(folder, name)
    cases = sorted(phase.maps)
    records = dict(zip(cases, answers([check_line(server, phase.maps[case]) for case in cases])))
    asked = []
    for case, code, body in phase.events:
        own = map_of(case)
        told["rows events"] += 1
        if records[own].startswith("refused"):
            told["rows events of maps " + why_refused(told, phase.maps[own], records[own])] += 1
        elif own.partition(".")[2] in phase.fractions:
            told[FRACTIONS] += 1
        else:
            record = bytes.fromhex(records[own][3:])
            told[WIDE] += columns_of(record) > FEW_COLUMNS
            asked.append((case, rows_line(int(code), record, phase.maps[own], bytes.fromhex(body))))
    for (case, line), got in zip(asked, answers([line for _, line in asked])):
        code = int(line.split(" ")[1])
        if code in TOGETHER:
            judge_event(told, phase, case, line, answered(got))
        elif got == OTHER_CODE:
            told[UNREAD[code]] += 1
        else:
            told.differ("code %d" % code, line, got, OTHER_CODE)
    for case in {case for case, _ in asked}:
        if phase.images.get(case):
            told.differ("images that no event gave", case, 0, len(phase.images[case]))


def phases(folder, server, told):
    folder = os.path.join(folder, server)
    for name in sorted(name[:-len(".maps.txt")] for name in os.listdir(folder) if name.endswith(".maps.txt")):
        phase_events(folder, server, name, told)
