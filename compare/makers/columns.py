"""Columns of all types with their metadata, and values in and around their domains."""
from functools import lru_cache
from itertools import product

from document import temporal, values
from document.columns import ACCEPTED, METADATA_BYTES, Column, real_type

from .some import HOSTILE, NUMBERS, chance, some_bytes

# bytes at which some rule for metadata turns
TURNS = (0, 1, 2, 3, 4, 5, 6, 7, 8, 9, 10, 18, 29, 30, 31, 64, 65, 66, 199, 200, 206, 215, 222, 231, 238, 247, 248, 254, 255)
TYPES = sorted(ACCEPTED)
REAL_TYPES = [kind for kind in TYPES if kind != 10]


@lru_cache(None)
def all_metadata(kind):
    """every accepted metadata of a type of maps"""
    firsts = range(256) if METADATA_BYTES[kind] else (0,)
    seconds = range(256) if METADATA_BYTES[kind] == 2 else (0,)
    return [(m0, m1) for m0 in firsts for m1 in seconds if ACCEPTED[kind](m0, m1)]


@lru_cache(None)
def edge_metadata(kind):
    return [pair for pair in all_metadata(kind) if set(pair) <= set(TURNS)]


def some_metadata(rng, kind):
    m0, m1 = rng.choice(edge_metadata(kind) if rng.random() < 0.7 else all_metadata(kind))
    # short declared lengths are the common ones, and those around 256 the telling ones
    if kind in (15, 253) and rng.random() < 0.7:
        m0, m1 = rng.choice(((0, 0), (1, 0), (10, 0), (254, 0), (255, 0), (0, 1), (1, 1), (rng.randrange(256), 0)))
    return m0, m1


def some_column(rng):
    """a real type with accepted metadata"""
    kind = rng.choice(REAL_TYPES)
    m0, m1 = some_metadata(rng, kind)
    while real_type(kind, m0) != kind:
        m0, m1 = some_metadata(rng, kind)
    return Column(kind, m0, m1, rng.randrange(2))


def some_bad_column(rng):
    """most often refused: metadata around what is accepted, or a type that is not taken"""
    kind = rng.choice(TYPES) if rng.random() < 0.8 else rng.randrange(256)
    m0, m1 = rng.choice(TURNS), rng.choice(TURNS)
    return Column(kind, rng.choice((m0, 0)), rng.choice((m1, 0)), rng.randrange(2))


def turning_columns():
    """all 256 types, and the metadata of each type around its bounds"""
    for kind in range(256):
        for m0, m1 in ((0, 0), (1, 0), (0, 1), (4, 0), (254, 1)):
            yield Column(kind, m0, m1, 0)
    for kind in TYPES:
        size = METADATA_BYTES[kind]
        for m0 in TURNS if size else (0, 1, 255):
            for m1 in (TURNS if kind in (16, 246) else (0, 1, 2, 3, 4, 5, 7, 8, 9)) if size == 2 else (0, 1):
                yield Column(kind, m0, m1, 0)


def edge_columns():
    """each real type, with its metadata at the edges"""
    few = {15: (0, 1, 254, 255), 253: (0, 1, 255), 246: (0, 1, 9, 10, 18, 29, 30, 31, 64, 65), 247: (1, 2, 231, 247), 248: (1, 2, 3, 4, 8, 200),
           254: (0, 1, 206, 222, 238, 254, 255)}
    for kind in REAL_TYPES:
        for m0, m1 in all_metadata(kind):
            if real_type(kind, m0) == kind and {m0, m1} <= set(few.get(kind, range(256))):
                yield Column(kind, m0, m1, 0)
                if kind in values.INTEGERS:
                    yield Column(kind, m0, m1, 1)


# ---- values
def edge_parts(most):
    """parts of a temporal: all least, all greatest, and each greatest and each one past it alone"""
    yield (0,) * len(most)
    yield most
    for i in range(len(most)):
        for part in (1, most[i] - 1, most[i], most[i] + 1):
            yield tuple(part if j == i else 0 for j in range(len(most)))
            yield tuple(part if j == i else m for j, m in enumerate(most))


def edge_temporals(kind, m0):
    """values of a temporal column at the edges of its domain and one past them"""
    name = temporal.KINDS[kind]
    signs = (("+",), ("-",)) if name == "time" else ((),)
    k = temporal.fraction_bytes(kind, m0)
    unit = temporal.UNITS[k] if k else 10 ** 6
    for sign in signs:
        for parts in edge_parts(temporal.MOST[name]):
            if name == "date":
                yield (name, *parts)
            else:
                for micros in {parts[-1], parts[-1] // unit * unit, 10 ** 6 - unit, unit, 10 ** 6}:
                    yield (name, *sign, *parts[:-1], micros)


def bound_temporals(kind, m0):
    """each part at its bound and one past it, the others zero; fractions around their unit"""
    name = temporal.KINDS[kind]
    most = temporal.MOST[name]
    k = temporal.fraction_bytes(kind, m0)
    unit = temporal.UNITS[k] if k else 10 ** 6
    for sign in (("+",), ("-",)) if name == "time" else ((),):
        yield (name, *sign, *[0] * len(most))
        for i, bound in enumerate(most):
            at_bound = (bound, bound + 1) if name == "date" or i + 1 < len(most) else (10 ** 6 - unit, 10 ** 6, unit, unit // 2, 1)
            for part in at_bound:
                yield (name, *sign, *[part if j == i else 0 for j in range(len(most))])


def edge_numbers(size, signed):
    most = 256 ** size // (2 if signed else 1)
    least = -most if signed else 0
    return {least - 1, least, least + 1, -1, 0, 1, most - 2, most - 1, most}


# one of each kind, which most columns do not take
OTHERS = (
    ("null",), ("int", 0), ("int", -1), ("uint", 0), ("uint", 1), ("float", 0), ("double", 0), ("seconds", 0, 0), ("year", 1901), ("date", 0, 0, 0),
    ("datetime", 0, 0, 0, 0, 0, 0, 0), ("time", "+", 0, 0, 0, 0), ("time", "-", 0, 0, 0, 0), ("bytes", b""), ("bytes", b"\0"),
)


def edge_values(column):
    """values at the edges of the column's domain and one past them"""
    kind = column.type
    if kind in temporal.SIZES:
        yield from edge_temporals(kind, column.m0)
        return
    k = values.length_bytes(column)
    if k is not None:
        for size in (0, 1, 2, 254, 255, 256, 257):
            yield "bytes", b"\x61" * size
        return
    size = values.fixed_size(column)
    if kind in values.FIXED_BYTES:
        for length in (size, size - 1, size + 1, 0):
            for byte in (0, 1, 128, 255):
                yield "bytes", bytes([byte]) * length
    elif kind == values.YEAR:
        for year in (0, 1, 255, 1899, 1900, 1901, 2155, 2156, 65535):
            yield "year", year
    else:
        signed = kind in values.INTEGERS and not column.unsigned
        name = values.FLOATS[kind][0] if kind in values.FLOATS else "int" if signed else "uint"
        bits = {"float": 32}.get(name, 64)
        for number in edge_numbers(size, signed):
            if -2 ** 63 <= number < 2 ** 63 if name == "int" else 0 <= number < 2 ** bits:
                yield name, number


# columns that together have every rule of a domain
RULED = [
    *(Column(kind, 0, 0, unsigned) for kind in values.INTEGERS for unsigned in (0, 1)),
    Column(4, 4, 0), Column(5, 8, 0), Column(13, 0, 0), Column(247, 247, 1), Column(247, 0, 2), Column(248, 248, 1), Column(248, 0, 8),
    Column(16, 1, 0), Column(16, 0, 8), Column(16, 7, 1), Column(246, 65, 30), Column(246, 19, 9),
    *(Column(246, digits, scale) for digits in range(1, 10) for scale in (0, digits)),
    *(Column(252, m0, 0) for m0 in (1, 2, 3, 4)), Column(242, 1, 0), Column(245, 4, 0), Column(255, 4, 0),
    *(Column(kind, m0, m1) for kind in (15, 253) for m0, m1 in ((255, 0), (0, 1))),
    Column(254, 254, 255), Column(254, 238, 0), Column(254, 206, 255),
    *(Column(kind, 0, 0) for kind in (7, 11, 12, 14)),
    *(Column(kind, m0, 0) for kind in (17, 18, 19) for m0 in range(7)),
]


def rule_values():
    """columns with values at each bound of their domain and one past it"""
    for column in RULED:
        for value in bound_temporals(column.type, column.m0) if column.type in temporal.SIZES else edge_values(column):
            if column.type in values.FIXED_BYTES and value[1][:1] not in (b"", b"\x80"):
                continue
            yield column, value
    for size in (65535, 65536):
        yield Column(15, 255, 255), ("bytes", b"a" * size)


# types with metadata at each bound and one past it, and bytes of metadata that a type does not have
BOUNDS = (
    ((0, 6, 10, 20, 21, 241, 243, 244), ((0, 0), (4, 0), (1, 1))),
    ((1, 3, 7, 9, 11, 12, 13, 14), ((0, 0), (1, 0), (0, 1))),
    ((4,), ((3, 0), (4, 0), (5, 0), (4, 1))),
    ((5,), ((7, 0), (8, 0), (9, 0), (8, 1))),
    ((17, 18, 19), ((0, 0), (6, 0), (7, 0), (0, 1))),
    ((242, 249, 250, 251, 252, 255), ((0, 0), (1, 0), (4, 0), (5, 0), (1, 1))),
    ((245,), ((3, 0), (4, 0), (5, 0), (4, 1))),
    ((15, 253), ((0, 0), (255, 0), (0, 1), (255, 255))),
    ((16,), ((0, 0), (1, 0), (7, 0), (8, 0), (0, 1), (7, 7), (0, 8), (1, 8), (8, 7), (0, 9))),
    ((246,), ((0, 0), (1, 0), (1, 1), (1, 2), (30, 30), (31, 30), (31, 31), (65, 0), (65, 30), (65, 31), (66, 0), (5, 6))),
    ((247,), ((0, 0), (247, 1), (247, 2), (247, 3), (8, 1))),
    ((248,), tuple((248, m1) for m1 in range(10))),
    ((254,), tuple((m0, 1) for m0 in (0, 199, 200, 205, 206, 207, 222, 223, 238, 247, 248, 253, 254, 255))),
)


def rule_columns():
    return [Column(kind, m0, m1) for kinds, pairs in BOUNDS for kind in kinds for m0, m1 in pairs]


@lru_cache(2000)
def edge_values_of(column):
    """the edges that are in the domain, and all of them"""
    edges = list(edge_values(column))
    return [value for value in edges if values.takes(column, value)], edges


def some_temporal(rng, kind, m0):
    name = temporal.KINDS[kind]
    parts = [rng.choice((0, 1, most - 1, most, rng.randrange(most + 1), rng.randrange(most + 1))) for most in temporal.MOST[name]]
    if name != "date":
        k = temporal.fraction_bytes(kind, m0)
        parts[-1] = parts[-1] // temporal.UNITS[k] * temporal.UNITS[k] if k else 0
    if name == "time":
        parts = [rng.choice("+-") if kind == temporal.TIME2 else "+", *parts]
    value = (name, *parts)
    return value if temporal.takes(kind, m0, value) else ("time", "+", *parts[1:])


def some_value(rng, column):
    """a value of the column's domain"""
    if rng.random() < 0.5:
        return rng.choice(edge_values_of(column)[0])
    kind = column.type
    if kind in temporal.SIZES:
        return some_temporal(rng, kind, column.m0)
    if values.length_bytes(column) is not None:
        return "bytes", some_bytes(rng, rng.choice((0, 1, 2, 3, 8, 20)))
    return values.read_fixed(column, some_bytes(rng, values.fixed_size(column)))


def some_bad_value(rng, column):
    """most often not in the domain: one past its edges, of another kind, or with a part changed"""
    how = rng.randrange(3)
    if how == 0:
        return rng.choice(edge_values_of(column)[1])
    value = list(some_value(rng, column))
    numbers = [i for i, part in enumerate(value) if i and isinstance(part, int)]
    if how == 1 and numbers:
        i = rng.choice(numbers)
        value[i] = rng.choice((value[i] + 1, value[i] - 1 if value[i] else 0, rng.choice(HOSTILE), rng.choice(NUMBERS[:20])))
        return tuple(value)
    return rng.choice(OTHERS)


def loosely(column, value):
    """bytes of a value that may be out of range; a part that its bits do not hold runs into the next"""
    try:
        return temporal.write(column.type, column.m0, value)
    except OverflowError:
        return b"\xff" * temporal.size(column.type, column.m0)


@lru_cache(2000)
def loose_stored(column):
    return [loosely(column, value) for value in edge_values_of(column)[1]]


# ---- parts out of range
# for each part of a type the least and the greatest that its bytes hold out of range, none if they hold none; of fractions these go by their bytes
OUTSIDE = {
    temporal.TIME: ((839, 1676), (60, 99), (60, 99), ()),
    temporal.DATETIME: ((10000, 1844674406), (13, 99), (32, 99), (24, 99), (60, 99), (60, 99), ()),
    temporal.DATE: ((10000, 32767), (13, 15), ()),
    temporal.TIMESTAMP2: ((), ()),
    temporal.DATETIME2: ((10000, 10081), (), (), (24, 31), (60, 63), (60, 63), ()),
    temporal.TIME2: ((839, 2047), (60, 63), (60, 63), ()),
}


def choices(kind, m0):
    """for each part of a temporal its bound, and then what it may be out of range"""
    bounds, outside = list(temporal.MOST[temporal.KINDS[kind]]), list(OUTSIDE[kind])
    k = temporal.fraction_bytes(kind, m0)
    if k:
        bounds[-1], outside[-1] = 10 ** 6 - temporal.UNITS[k], (10 ** 6, temporal.UNITS[k] * (256 ** k - 1))
    elif kind != temporal.DATE:
        bounds[-1] = 0
    return [(bound, *some) for bound, some in zip(bounds, outside)]


def below_zero(stored):
    """a DATETIME2 of the same parts, but below zero, and one whose sign bit alone is another"""
    whole = int.from_bytes(stored[:5], "big")
    for negative in (2 ** 40 - whole, whole - 2 ** 39):
        yield negative.to_bytes(5, "big") + stored[5:]


def signed(kind, m0, parts):
    """the bytes of parts, with each sign that the type has"""
    name = temporal.KINDS[kind]
    for sign in (("+",), ("-",)) if kind == temporal.TIME2 else (("+",),) if name == "time" else ((),):
        stored = temporal.write(kind, m0, (name, *sign, *parts))
        yield stored
        if kind == temporal.DATETIME2:
            yield from below_zero(stored)


def parted(digits=range(7), least=0, most=7):
    """(column, bytes): each set of parts that a type can have out of range, all others at their bound; from `least` to `most` parts in a set"""
    for kind in OUTSIDE:
        for m0 in digits if kind >= temporal.TIMESTAMP2 else (0,):
            for parts in product(*(some[:2] for some in choices(kind, m0))):
                if least <= sum(part != some[0] for part, some in zip(parts, choices(kind, m0))) <= most:
                    yield from ((Column(kind, m0, 0), stored) for stored in signed(kind, m0, parts))


def some_parted(rng, column):
    """bytes of a temporal with any of its parts out of range"""
    parts = [rng.choice((0, *some, some[0], some[-1])) for some in choices(column.type, column.m0)]
    return rng.choice(list(signed(column.type, column.m0, parts)))


def some_stored(rng, column):
    """bytes of a value, in a temporal with parts that may be out of range"""
    if column.type not in temporal.SIZES or rng.random() < 0.4:
        return values.stored_value(column, some_value(rng, column), 0)
    if column.type in OUTSIDE and chance(rng, 3):
        return some_parted(rng, column)
    stored = rng.choice(loose_stored(column))
    k = temporal.fraction_bytes(column.type, column.m0)
    if k and chance(rng, 3):
        fraction = rng.choice((0, 1, 99, 100, 156, 157, 9999, 10000, 55536, 55537, 999999, 10 ** 6, rng.randrange(256 ** k)))
        stored = stored[:-k] + fraction.to_bytes(4, "big")[-k:]
    return stored
