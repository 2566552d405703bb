"""Lines of the program `cases`: words, values, and an answer for each kind of case (docs/CASES.md)."""
import re

from .blocks import Arriving
from .check import check
from .columns import DIALECTS, Column
from .event import read_event, written_event
from .fields import counts, names_field, reader
from .image import Head
from .lists import column_name, read_group, read_integer, read_pair, read_string, step, walk
from .packed import pack, read_packed
from .record import read_record
from .refusal import Refused, fits
from .rows import Image, read_rows, walk as walk_rows
from .values import NULL, read_lone, value_size, write_lone

LONGEST, MOST_ROOM = 262144, 262144
DIGITS = re.compile("[0-9]{1,20}").fullmatch
SIGNED_DIGITS = re.compile("-?[0-9]{1,19}").fullmatch
HEX_DIGITS = re.compile("(?:[0-9a-f]{2})+").fullmatch


class Bad(Exception):
    """a line that is malformed"""


def need(condition):
    if not condition:
        raise Bad


# ---- words
def NUMBER(word, bits=64):
    need(DIGITS(word) and int(word) < 2 ** bits)
    return int(word)


def BYTE(word):
    return NUMBER(word, 8)


def FLAGS(word):
    return NUMBER(word, 16)


def BIT(word):
    return NUMBER(word, 1)


def ROOM(word):
    room = NUMBER(word)
    need(room <= MOST_ROOM)
    return room


def HEX(word):
    if word == "-":
        return b""
    need(HEX_DIGITS(word))
    return bytes.fromhex(word)


def OP(word):
    return None if word == "end" else HEX(word)


def DIALECT(word):
    need(word in DIALECTS)
    return DIALECTS[word]


# how an item of each kind of list is read, and its word
KINDS = {
    "integers": (read_integer, str),
    "pairs": (read_pair, lambda pair: "%d:%d" % pair),
    "strings": (read_string, lambda string: string.hex() or "-"),
    "groups": (read_group, lambda group: "%d@%d" % group),
}


def KIND(word):
    need(word in KINDS or word == "charsets")
    return word


# ---- values: the bits of each part; int, bytes and the sign of a time have words of their own
PARTS = {
    "uint": (64,), "float": (32,), "double": (64,), "seconds": (32, 32), "year": (16,), "date": (16, 8, 8),
    "datetime": (16, 8, 8, 8, 8, 8, 32), "time": (16, 8, 8, 32),
}


def VALUE(word):
    kind, *parts = word.split(":")
    if word == "null":
        return NULL
    if kind == "bytes":
        need(len(parts) == 1)
        return kind, HEX(parts[0])
    if kind == "int":
        need(len(parts) == 1 and SIGNED_DIGITS(parts[0]) and -2 ** 63 <= int(parts[0]) < 2 ** 63)
        return kind, int(parts[0])
    need(kind in PARTS)
    sign = parts[:1] if kind == "time" else []
    need(sign in ([], ["+"], ["-"]))
    numbers = parts[len(sign):]
    need(len(numbers) == len(PARTS[kind]))
    return (kind, *sign, *map(NUMBER, numbers, PARTS[kind]))


def hexed(s):
    return s.hex() or "-"


def value_word(value):
    return ":".join(hexed(part) if isinstance(part, bytes) else str(part) for part in value)


def ok(*words):
    return " ".join(["ok", *(hexed(word) if isinstance(word, bytes) else str(word) for word in words)])


def walked(words):
    """the words of a walk, the last of which may be a refusal"""
    told = []
    try:
        for word in words:
            told.append(word)
    except Refused as refusal:
        told.append(str(refusal))
    return " ".join(told)


# ---- cases: the first word, the words behind it, and the answer
CASES = {}


def case(name, *words, rest=None):
    """a kind of case; any number of words that `rest` reads may stand behind the others"""
    def add(answer):
        CASES[name] = words, rest, answer
        return answer
    return add


@case("packed", HEX, NUMBER)
def packed_case(s, at):
    return ok(*read_packed(s, at))


@case("pack", NUMBER, ROOM)
def pack_case(value, room):
    return ok(fits(pack(value), room))


@case("value", BYTE, BYTE, BYTE, BIT, HEX)
def value_case(kind, m0, m1, unsigned, s):
    value, used = read_lone(Column(kind, m0, m1, unsigned), s)
    return ok(value_word(value), used)


@case("store", BYTE, BYTE, BYTE, BIT, VALUE, ROOM)
def store_case(kind, m0, m1, unsigned, value, room):
    return ok(fits(write_lone(Column(kind, m0, m1, unsigned), value), room))


@case("size", BYTE, BYTE, BYTE, BIT, VALUE)
def size_case(kind, m0, m1, unsigned, value):
    return size_at_case(kind, m0, m1, unsigned, value, 0)


@case("size-at", BYTE, BYTE, BYTE, BIT, VALUE, NUMBER)
def size_at_case(kind, m0, m1, unsigned, value, place):
    return ok(value_size(Column(kind, m0, m1, unsigned), value, place))


@case("event", NUMBER, HEX)
def event_case(post_header, s):
    return ok(*read_event(post_header, s)[:8])


@case("event-parts", NUMBER, HEX)
def event_parts_case(post_header, s):
    # "A call per part (names, types, metadata, bits, optional) returns the part, empty where reading the event is refused." (R7)
    try:
        return ok(*read_event(post_header, s)[2:8])
    except Refused:
        return ok(*[b""] * 6)


PARTS_OF_EVENT = (NUMBER, FLAGS, HEX, HEX, HEX, HEX, HEX, HEX)


@case("write-event", *PARTS_OF_EVENT, ROOM)
def write_event_case(*words):
    *parts, room = words
    return ok(fits(written_event(*parts), room))


@case("event-size", *PARTS_OF_EVENT)
def event_size_case(*parts):
    return ok(len(written_event(*parts)))


@case("fields-as", DIALECT, HEX, HEX)
def fields_as_case(dialect, types, s):
    def words():
        for field, _ in walk(reader(counts(dialect, types)), s):
            yield "%d@%d+%d" % (field.type, field.start, len(field.value))
        yield "end"
    return walked(words())


@case("fields", HEX, HEX)
def fields_case(types, s):
    return fields_as_case(DIALECTS["document"], types, s)


@case("field", DIALECT, HEX, HEX, NUMBER)
def field_case(dialect, types, s, at):
    found = step(reader(counts(dialect, types)), s, at)
    if found is None:
        return "end"
    field, behind = found
    return ok(field.type, field.start, len(field.value), behind)


@case("names", DIALECT, NUMBER, HEX)
def names_case(dialect, post_header, s):
    field = names_field(dialect, post_header, s)
    return ok(0, 0, 0) if field is None else ok(1, field.start, len(field.value))


@case("list", KIND, HEX)
def list_case(kind, s):
    def words():
        at = 0
        if kind == "charsets":  # "2 and 10 go on with pairs"
            default, at = read_packed(s, 0)
            yield "default:%d" % default
        read, word = KINDS["pairs" if kind == "charsets" else kind]
        for item, _ in walk(read, s, at):
            yield word(item)
        yield "end"
    return walked(words())


@case("item", KIND, HEX, NUMBER)
def item_case(kind, s, at):
    need(kind != "charsets")
    read, word = KINDS[kind]
    found = step(read, s, at)
    return "end" if found is None else ok(word(found[0]), found[1])


@case("check-as", DIALECT, NUMBER, HEX, ROOM)
def check_as_case(dialect, post_header, s, room):
    return ok(fits(check(dialect, post_header, s), room))


@case("check", NUMBER, HEX, ROOM)
def check_case(post_header, s, room):
    return check_as_case(DIALECTS["document"], post_header, s, room)


@case("record", HEX)
def record_case(s):
    return ok(len(read_record(s)))


@case("name", HEX, HEX, NUMBER)
def name_case(names, operator, column):
    return ok(column_name(names, operator, column))


@case("first", HEX, HEX)
def first_case(record, presence):
    return ok(*Head(record, presence).first())


@case("step", HEX, HEX, HEX, NUMBER, NUMBER)
def step_case(record, presence, image, column, offset):
    found = Head(record, presence).step(image, column, offset)
    if found is None:
        return "end %d" % offset
    place, value, *cursor = found
    return ok(place, value_word(value), *cursor)


@case("image", HEX, HEX, HEX)
def image_case(record, presence, image):
    def words():
        head = Head(record, presence)
        used = head.null_bytes
        for value, used in head.walk(image):
            yield value_word(value)
        yield "end %d" % used
    return walked(words())


@case("rows", NUMBER, HEX, NUMBER, HEX)
def rows_case(code, record, table_id, s):
    def words():
        rows = read_rows(code, record, table_id, s)
        yield ok(rows.flags, "none" if rows.extra is None else rows.extra, ",".join(map(hexed, rows.sets)))
        images = 0
        for found in walk_rows(record, rows, s):
            begins = isinstance(found, Image)
            images += begins
            yield "image %d" % found.offset if begins else value_word(found)
        yield "end %d" % images
    return walked(words())


@case("blocks", HEX, HEX, ROOM, OP, rest=OP)
def blocks_case(record, presence, carry, *ops):
    arriving = Arriving(record, presence, carry)
    told = []  # values, and words
    for op in ops:
        how = []
        try:
            if op is None:
                told.append("end %d %d" % (arriving.end(), len(arriving.taken)))
            else:
                is_whole = arriving.give(op, told)
                how = ["%s %d" % ("whole" if is_whole else "open", len(arriving.taken))]
        except Refused as refusal:
            told.append(str(refusal))
    return " ".join([*long_joined(told), *how])


def long_joined(told):
    """the words of what was told, the parts of a long value joined"""
    words = []
    for item in told:
        if isinstance(item, str):
            words.append(item)
        elif item[0] == "part":
            length, parts = words[-1].rsplit(":", 1)
            words[-1] = length + ":" + parts.replace("-", "") + item[1].hex()
        else:
            words.append(value_word(item + (b"",) if item[0] == "long" else item))
    return words


@case("room", HEX, HEX)
def room_case(record, presence):
    return ok(Head(record, presence).room())


@case("start", HEX, HEX, HEX, ROOM)
def start_case(record, presence, nulls, room):
    head = Head(record, presence)
    return ok(head.start(nulls, room), *head.first())


@case("put", HEX, HEX, HEX, VALUE, NUMBER, NUMBER, ROOM)
def put_case(record, presence, nulls, value, column, offset, room):
    stored, behind = Head(record, presence).put(nulls, value, column, offset, room)
    return ok(stored, behind, offset + len(stored))


@case("row", HEX, HEX, HEX, ROOM, rest=VALUE)
def row_case(record, presence, nulls, room, *values):
    head = Head(record, presence)
    need(len(values) == len(head.present))
    return ok(head.row(nulls, values, room))


def answer(line):
    """the answer to a line, given without its newline"""
    name, *given = line.split(" ")
    if len(line) > LONGEST or name not in CASES:
        return "bad"
    words, rest, case_answer = CASES[name]
    more = len(given) - len(words)
    if more < 0 or more > 0 and rest is None:
        return "bad"
    try:
        return case_answer(*(read(word) for read, word in zip(words + (rest,) * more, given)))
    except Bad:
        return "bad"
    except Refused as refusal:
        return str(refusal)
