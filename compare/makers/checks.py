"""The check of a map, and where its names stand."""
from document.bits import bytes_for
from document.columns import METADATA_BYTES
from document.packed import pack

from .columns import TURNS, TYPES, rule_columns
from .maps import (POST_HEADERS, RULED_METADATA, RULED_TYPES, Map, edge_events, event_of, event_rules, field_bytes, packs, ruled_classes, some_event,
                   some_spoilt_map)
from .some import DIALECTS, chance, damaged, line, maker, some_room
from .wide import check_as_lines, check_lines, names_lines


# ---- rules
def rule_contents(classed):
    """(field, contents): each rule of the check at its bound and one past it, for a table of these classes"""
    n = len(classed.all)
    for kind, size in ((1, bytes_for(len(classed.signed))), (12, bytes_for(n))):
        for length in (size, size + 1, size - 1):
            yield kind, b"\xa6" * length
    for kind, size in ((2, len(classed.charset)), (10, len(classed.enum_or_set))):
        for default in ((), (0,), (1,), (65535,), (65536,)):
            yield kind, packs(*default)
        for pairs in ((0,), (0, 9), (size - 1, 9), (size, 9), (0, 9, 0, 9), (0, 9, 1, 9), (1, 9, 0, 9), (0, 0), (0, 65535), (0, 65536)):
            yield kind, packs(8, *pairs)
    for kind, size in ((3, len(classed.charset)), (11, len(classed.enum_or_set))):
        for last in (0, 1, 65535, 65536):
            yield kind, packs(*[9] * (size - 1), last)
        yield kind, packs(*[9] * (size - 1))
        yield kind, packs(*[9] * (size + 1))
    for count in (n - 1, n, n + 1):
        yield 4, b"\x01\x61" * count
    yield 4, b"\x00" * n
    yield 4, b"\x00" * (n - 1) + b"\x02\x61"
    for kind in (5, 6):
        for contents in (b"", b"\x00", b"\x02\x00\x01\x61", b"\x00\x00", b"\x02\x00", b"\xfe" + b"\xff" * 8, b"\x01\x01"):
            yield kind, contents
    for numbers in ((), (0,), (7,), (8,), (256,), (1, 1)):
        yield 7, packs(*numbers)
    for numbers in ((), (0,), (2 ** 64 - 1,), (1, 1)):
        yield 13, packs(*numbers)
    for keys in ((), (0,), (n - 1,), (n,), (2 ** 64 - 1,), (0, 1, 2), (1, 2, 2, 1), (1, 2, 1, 2), (0, 0), (n, n)):
        yield 8, packs(*keys)
        yield 9, b"".join(packs(key, at * 300) for at, key in enumerate(keys))
    yield 9, packs(1)
    yield 8, b"\xfb"
    yield 3, b"\xff"
    for kind in (0, 14, 255):
        yield kind, b"\x00"


def one_field(classed):
    """each field alone, its contents at the bound of a rule and one past it"""
    for field in rule_contents(classed):
        yield event_of(RULED_TYPES, RULED_METADATA, field_bytes(*field))


def more_fields(classed):
    """fields that are good alone: a type twice, each two rivals, and all that may stand together"""
    good = {
        1: b"\x80", 2: packs(8), 3: packs(*[9] * len(classed.charset)), 4: b"\x01\x61" * 9, 5: b"\x00", 6: b"\x00", 7: b"\x01", 8: b"\x00", 9: b"\x00\x00",
        10: packs(8), 11: packs(*[9] * len(classed.enum_or_set)), 12: b"\xff\xff", 13: b"\x01",
    }
    two = [(kind, kind) for kind in good] + [(2, 3), (3, 2), (8, 9), (9, 8), (10, 11), (11, 10)]
    for kinds in (*two, (1, 2, 4, 5, 6, 7, 8, 10, 12, 13), (1, 3, 4, 5, 6, 7, 9, 11, 12, 13)):
        yield event_of(RULED_TYPES, RULED_METADATA, b"".join(field_bytes(kind, good[kind]) for kind in kinds))


def two_faults():
    """which of two faults is told: among the columns, then the fields, then a repeated key; too many columns come first"""
    columns = ((b"\x06", b""), (b"\x10", b"\x00\x00"), (b"\x13", b""), (b"\x03", b"\x07"))
    fields = (b"\x08\x02\x00\x00", b"\x0e\x00", b"\x01\x05", b"\x0c\x00", b"\x04\xfb", b"\x0c\x01\xff")
    for first in (*columns, (b"", b"")):
        for then in columns:
            yield event_of(b"\x03" + first[0] + then[0], first[1] + then[1], fields[0])
    for first in fields:
        for then in fields:
            yield event_of(b"\x03\x03", b"", first + then)
    for n in (0, 254, 255, 256, 257):
        yield event_of(b"\x03" * n, b"")
        yield event_of(b"\x03" * (n - 1) + b"\x06" if n else b"", b"", b"\x0e\x00")


def rule_checks(dialect):
    classed = ruled_classes(dialect)
    yield from one_field(classed)
    yield from more_fields(classed)
    yield from two_faults()


def rule_metadata():
    """an event of one column, its metadata at each bound and one past it, short, and left over"""
    for kind, m0, m1, _ in rule_columns():
        yield event_of(bytes([kind]), bytes([m0, m1])[:METADATA_BYTES.get(kind, 0)])
    for kind in TYPES:
        yield event_of(bytes([kind]), b"\x04\x01"[:METADATA_BYTES[kind] - 1 if METADATA_BYTES[kind] else 1])


# ---- edges: (dialect, post-header length, event, columns)
def edge_columns():
    """all 256 types, with as many bytes of metadata as any type has, and the metadata of each type around its bounds"""
    for kind in range(256):
        for size in range(3):
            yield event_of(bytes([kind]), b"\x04\x01"[:size]), 1
    for kind in TYPES:
        for m0 in TURNS:
            for m1 in (0, 1, 2, 3, 4, 5, 8, 9, 30, 31, 65):
                yield event_of(bytes([kind, 3]), bytes([m0, m1])[:METADATA_BYTES[kind]]), 2


def edge_sizes():
    """around so many columns as fill a byte of bits, and as are taken"""
    for n in (0, 1, 8, 9, 254, 255, 256, 257, 4095, 4096, 4097):
        bits = b"\xa5" * bytes_for(n)
        for optional in (b"", field_bytes(12, bits), field_bytes(1, bits)):
            yield event_of(b"\x03" * n, b"", optional), n


def edge_keys():
    """keys that repeat, near and far, and a fault behind them"""
    for keys in ((0,), (0, 0), (1, 2, 2, 1), (1, 2, 1, 2), (3, 2, 1, 0, 3), (0, 1, 2, 3, 3, 0), (4,), (0, 4), (0, 0, 4), (2, 2, 2)):
        prefixed = b"".join(bytes([252, key, 0]) + pack(300 * at) for at, key in enumerate(keys))
        for field in (field_bytes(8, packs(*keys)), field_bytes(9, prefixed)):
            for behind in (b"", b"\x0e\x00", b"\x0c\x01\xff", b"\x0c\x00", b"\x08\x00", b"\x04"):
                yield event_of(b"\x03" * 4, b"", field + behind), 4


def edge_contents(rng, dialect):
    """each field alone with contents that break a rule, and twice with good ones"""
    for kind in range(1, 14):
        for n in (0, 1, 3, 9):
            found = Map(rng, dialect, n)
            for _ in range(6):
                found.fields = [(kind, found.bad_contents(kind))]
                yield found.event(), n
            found.fields = [(kind, found.contents(kind))] * 2
            yield found.event(), n


def edge_checks(rng):
    for dialect, post_header, s in edge_events(rng):
        yield dialect, post_header, s, 7
    for s, n in (*edge_columns(), *edge_sizes(), *edge_keys()):
        yield "document", 8, s, n
    for dialect in DIALECTS:
        for s, n in edge_contents(rng, dialect):
            yield dialect, 8, s, n


# ---- makers
def check_as_edges(rng):
    for dialect, post_header, s, n in edge_checks(rng):
        yield line("check-as", dialect, post_header, s, rng.choice((6 + 6 * n, 1536)))
    for n in (0, 1, 5, 255, 256):
        for room in (0, 5, 6, 6 + 6 * n - 1, 6 + 6 * n, 6 + 6 * n + 1, 262144):
            yield line("check-as", "mysql", 8, event_of(b"\x03" * n, b""), room)


def check_as_rules(rng):
    for dialect in DIALECTS:
        for s in rule_checks(dialect):
            yield line("check-as", dialect, 8, s, rng.choice((1548, 1548, 1548, 6)))
    yield from check_as_lines()


@maker("check-as", check_as_edges, check_as_rules)
def check_as(rng):
    dialect = rng.choice(DIALECTS)
    post_header, s, n = some_event(rng, dialect if rng.random() < 0.8 else None)
    return line("check-as", dialect, post_header, s, room_for(rng, n))


def room_for(rng, n):
    """a room for a record of so many columns, most often enough"""
    return 6 + 6 * n if rng.random() < 0.6 else some_room(rng, 6 + 6 * n)


def check_edges(rng):
    for _, post_header, s, n in edge_checks(rng):
        yield line("check", post_header, s, rng.choice((6 + 6 * n, 1536)))


def check_rules(rng):
    for post_header, s in event_rules():
        yield line("check", post_header, s, 24)
    for s in (*rule_checks("document"), *rule_metadata()):
        yield line("check", 8, s, 1548)
    yield from check_lines()


@maker("check", check_edges, check_rules)
def check(rng):
    post_header, s, n = some_event(rng, "document" if rng.random() < 0.8 else None)
    return line("check", post_header, s, room_for(rng, n))


def names_edges(rng):
    for dialect, post_header, s in edge_events(rng):
        yield line("names", dialect, post_header, s)


def three_answers():
    """optional bytes of a map with a YEAR, which has a signedness bit on a server and none by the letter: names with and without bytes, none, a refusal before
    the names, and one behind them"""
    named, empty, unknown = field_bytes(4, b"\x01\x61"), field_bytes(4, b""), field_bytes(14, b"")
    for signs in (b"", field_bytes(1, b"\x80"), field_bytes(1, b"")):
        for names in (b"", named, empty, named + empty, empty + named):
            for fault in (unknown, b"\x0c", b"\x0c\x02\xff", b"\x0c\xfb", field_bytes(12, b""), field_bytes(2, b"")):
                yield from (signs + names, signs + fault + names, signs + names + fault)


def names_rules(rng):
    for dialect in DIALECTS:
        for optional in three_answers():
            yield line("names", dialect, 8, event_of(b"\x0d", b"", optional))
        for s in rule_checks(dialect):
            yield line("names", dialect, 8, s + b"\x04\x02\x01\x61")
    for post_header, s in event_rules():
        yield line("names", "document", post_header, s)
    yield from names_lines()


@maker("names", names_edges, names_rules)
def names(rng):
    dialect = rng.choice(DIALECTS)
    found = some_spoilt_map(rng, dialect if rng.random() < 0.8 else None)
    if rng.random() < 0.5:
        found.fields.insert(rng.randrange(len(found.fields) + 1), (4, found.contents(4)))
    post_header = rng.choice(POST_HEADERS)
    s = found.event(post_header)
    return line("names", dialect, post_header, damaged(rng, s) if chance(rng, 6) else s)
