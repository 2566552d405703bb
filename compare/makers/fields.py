"""Optional fields: the walk and its steps."""
from document.columns import DIALECTS as BY_NAME
from document.fields import counts, cut_field, reader
from document.lists import walk
from document.refusal import Refused

from .maps import RULED_TYPES, field_bytes, small_maps, some_spoilt_map
from .some import DIALECTS, NUMBERS, changes, cuts, damaged, line, longer, maker, near, some_bytes


def edge_fields(rng):
    """(dialect, types, optional bytes)"""
    for found in small_maps(rng):
        s = found.optional()
        for dialect in DIALECTS:
            yield dialect, found.types, s
        for cut in cuts(s):
            yield found.dialect, found.types, cut
        if len(s) < 60:
            for changed in changes(s):
                yield found.dialect, found.types, changed
    for dialect in DIALECTS:
        for kind in range(256):
            yield dialect, bytes([kind]), b"\x01\x00"
            yield dialect, bytes([kind]), b"\x01\x01\x80"
            yield dialect, b"\x03", bytes([kind, 0])
            yield dialect, b"\x03", bytes([kind, 1, 128])
        for n in (0, 1, 7, 8, 9, 16, 17):
            for size in (0, 1, 2, 3):
                for kind in (1, 12):
                    yield dialect, b"\x03" * n, bytes([kind, size]) + bytes(size)
        for number in NUMBERS:
            for form in longer(number):
                yield dialect, b"\x03", b"\x04" + form + b"\x01\x61"
                yield dialect, b"\x03", b"\x02" + bytes([len(form)]) + form
    for first in (251, 252, 253, 254, 255):
        yield "document", b"\x03", bytes([2, 1, first])
        yield "document", b"\x03", bytes([10, 2, first, 1])


def some_fields(rng):
    dialect = rng.choice(DIALECTS)
    found = some_spoilt_map(rng, dialect if rng.random() < 0.7 else None)
    s = found.optional()
    how = rng.randrange(6)
    if how == 0:
        s = damaged(rng, s)
    elif how == 1:
        s += bytes([rng.choice((1, 2, 4, 10, 12, 14, 255))]) + rng.choice(list(longer(rng.choice(NUMBERS)))) + some_bytes(rng, rng.randrange(4))
    return dialect, found.types, s


def fields_as_edges(rng):
    for given in edge_fields(rng):
        yield line("fields-as", *given)


def fields_rules():
    """(types, optional bytes): what the walk asks of a field, for any dialect"""
    for types in (b"", b"\x0d", b"\x03" * 8 + b"\x0d", RULED_TYPES):
        for kind in (0, 1, 2, 10, 12, 13, 14):
            for contents in (b"", b"\x08", b"\x08\x00", b"\xfb", b"\xfc\x01"):
                yield types, field_bytes(kind, contents) + b"\x04\x00"
    for first in range(250, 256):
        yield b"\x03", bytes([4, first])
        yield b"\x03", bytes([0, first])
    yield b"\x03", b"\x04"


def fields_as_rules(rng):
    for types, s in fields_rules():
        for dialect in DIALECTS:
            yield line("fields-as", dialect, types, s)


@maker("fields-as", fields_as_edges, fields_as_rules)
def fields_as(rng):
    return line("fields-as", *some_fields(rng))


def fields_edges(rng):
    for _, types, s in edge_fields(rng):
        yield line("fields", types, s)


def plain_fields_rules(rng):
    for given in fields_rules():
        yield line("fields", *given)


@maker("fields", fields_edges, plain_fields_rules)
def fields(rng):
    return line("fields", *some_fields(rng)[1:])


def field_places(dialect, types, s):
    """where the fields start, as far as they are good, and behind the last"""
    at, found = 0, [0]
    try:
        for _, at in walk(reader(counts(BY_NAME[dialect], types)), s):
            found.append(at)
        found.append(len(s))
        _, at = cut_field(s, at)
        found.append(at)
    except (Refused, IndexError):
        pass
    return found


def field_edges(rng):
    for found in small_maps(rng):
        s = found.optional()
        for at in (*range(len(s) + 3), *NUMBERS):
            yield line("field", found.dialect, found.types, s, at)
    for given in edge_fields(rng):
        yield line("field", *given, 0)


@maker("field", field_edges)
def field(rng):
    given = some_fields(rng)
    return line("field", *given, near(rng, rng.choice(field_places(*given))))
