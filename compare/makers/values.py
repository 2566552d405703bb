"""Lone values: read, stored, and their sizes."""
from document import temporal, values
from document.columns import Column
from document.refusal import Refused

from .columns import (OTHERS, OUTSIDE, edge_columns, edge_values_of, loose_stored, loosely, parted, rule_columns, rule_values, some_bad_column,
                      some_bad_value, some_column, some_parted, some_stored, some_value, turning_columns)
from .some import NUMBERS, TWO64, chance, cuts, damaged, line, maker, some_bytes, some_number, some_room


def value_rules(rng):
    for column, given in rule_values():
        if column.type in temporal.SIZES:
            yield line("value", *column, loosely(column, given))
        elif values.takes(column, given):
            yield line("value", *column, values.stored_value(column, given, 0))
    # which part is told, and that bytes that are missing come before it
    for column, stored in parted():
        yield line("value", *column, stored)
    for column, stored in parted((6,), 1, 1):
        yield line("value", *column, stored[:-1])
    for column in rule_columns():
        yield line("value", *column, bytes(40))
        yield line("value", *column, b"")


def value_edges(rng):
    for column in edge_columns():
        inside, _ = edge_values_of(column)
        stored = [values.stored_value(column, value, 0) for value in inside]
        if column.type in temporal.SIZES:
            stored += loose_stored(column) + [some_stored(rng, column) for _ in range(40)]
        if column.type in OUTSIDE:
            stored += [some_parted(rng, column) for _ in range(80)]
        for s in dict.fromkeys(stored):
            yield line("value", *column, s)
        longest = max(stored, key=len)[:12]
        for cut in cuts(longest):
            yield line("value", *column, cut)
        yield line("value", *column, longest + b"\xff")
        k = values.length_bytes(column) or 0
        for length in (0, 1, 255, 256, 256 ** k - 1) if k else ():
            yield line("value", *column, (length % 256 ** k).to_bytes(k, "little") + b"\x61" * 300)
    for column in turning_columns():
        yield line("value", *column, bytes(40))


@maker("value", value_edges, value_rules)
def value(rng):
    if chance(rng, 6):
        return line("value", *some_bad_column(rng), some_bytes(rng, 40))
    column = some_column(rng)
    stored = some_stored(rng, column)
    if chance(rng, 4):
        stored = damaged(rng, stored)
    if chance(rng, 6):
        stored = some_bytes(rng, rng.choice((1, 2, 3, 4, 5, 6, 8, 9, 40)))
    return line("value", *column, stored + some_bytes(rng, rng.choice((0, 0, 1, 3))))


def size_of(column, value):
    try:
        return values.value_size(column, value, 0)
    except Refused:
        return 8


def given_edges():
    """columns with values at the edges of their domains, and a value for columns that are refused"""
    for column in edge_columns():
        for value in edge_values_of(column)[1]:
            yield column, value
        for other in (("null",), ("int", 0), ("uint", 0), ("bytes", b""), ("time", "-", 0, 0, 0, 0), ("seconds", 0, 0)):
            yield column, other
    for column in turning_columns():
        yield column, ("null",)


def some_given(rng):
    """a column and a value for a writer"""
    if chance(rng, 8):
        return some_bad_column(rng), some_bad_value(rng, some_column(rng))
    column = some_column(rng)
    return column, some_bad_value(rng, column) if chance(rng, 3) else some_value(rng, column)


def given_rules():
    yield from rule_values()
    for column in rule_columns():
        yield column, ("null",)
    for other in OTHERS:
        for column in (Column(3, 0, 0), Column(3, 0, 0, 1), Column(252, 1, 0), Column(19, 2, 0)):
            yield column, other


def store_rules(rng):
    for column, given in given_rules():
        yield line("store", *column, given, size_of(column, given))
    # which fault is told: a type not taken, metadata not accepted, a value not taken, no room
    for column in (Column(6, 0, 0), Column(17, 7, 0), Column(1, 0, 0)):
        for given in (("int", 1), ("int", 128)):
            for room in (0, 1):
                yield line("store", *column, given, room)


def store_edges(rng):
    for column, value in given_edges():
        size = size_of(column, value)
        yield line("store", *column, value, size)
        yield line("store", *column, value, rng.choice((size - 1 if size else 0, 0, size + 1, size + 9)))


@maker("store", store_edges, store_rules)
def store(rng):
    column, value = some_given(rng)
    return line("store", *column, value, some_room(rng, size_of(column, value)))


def size_rules(rng):
    for column, given in given_rules():
        yield line("size", *column, given)


def size_edges(rng):
    for column, value in given_edges():
        yield line("size", *column, value)


@maker("size", size_edges, size_rules)
def size(rng):
    column, value = some_given(rng)
    return line("size", *column, value)


def size_at_rules(rng):
    for at, (column, given) in enumerate(given_rules()):
        yield line("size-at", *column, given, at % 300)


def size_at_edges(rng):
    for column, value in given_edges():
        yield line("size-at", *column, value, rng.choice(NUMBERS))
    for place in (*NUMBERS, TWO64):
        yield line("size-at", 1, 0, 0, 0, ("int", 128), place)


@maker("size-at", size_at_edges, size_at_rules)
def size_at(rng):
    column, value = some_given(rng)
    return line("size-at", *column, value, some_number(rng))
