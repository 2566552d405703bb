"""The check of a whole map, which writes the profile record. Its order is that of R11."""
from typing import NamedTuple

from .bits import high_first, low_first
from .columns import (ACCEPTED, CHARACTER, ENUM, ENUM_OR_SET, GEOMETRY, METADATA_BYTES, NUMERIC, SET, VECTOR, Column, real_type)
from .event import read_event
from .fields import (COLUMN_CHARSETS, DEFAULT_CHARSET, ENUM_SET_CHARSETS, ENUM_SET_DEFAULT, ENUM_STRINGS, GEOMETRY_TYPES, KEY_WITH_PREFIX, NAMES, SET_STRINGS,
                     SIGNEDNESS, SIMPLE_KEY, VECTOR_DIMENSIONS, VISIBILITY, counts, reader)
from .lists import read_group, read_integer, read_pair, read_string, walk
from .packed import read_packed
from .record import KNOWN, MOST_COLUMNS, NULLABLE, UNSIGNED, VISIBLE, record
from .refusal import Refused

RIVALS = {2: 3, 3: 2, 10: 11, 11: 10, 8: 9, 9: 8}


def read_columns(types, metadata):
    # "each column's type then metadata; no metadata left over"
    columns, at = [], 0
    for place, kind in enumerate(types):
        if kind not in ACCEPTED:
            raise Refused(4, place)
        own = metadata[at:at + METADATA_BYTES[kind]]
        at += METADATA_BYTES[kind]
        if at > len(metadata):
            raise Refused(5, place)
        m0, m1 = (*own, 0, 0)[:2]
        if not ACCEPTED[kind](m0, m1):
            raise Refused(5, place)
        columns.append(Column(real_type(kind, m0), m0, m1))
    if at < len(metadata):
        raise Refused(5, len(types))
    return columns


class Classes(NamedTuple):
    """the columns of each class, in table order"""
    all: list
    signed: list
    charset: list
    enum_or_set: list
    enum: list
    set: list
    geometry: list
    vector: list


def classes(dialect, types, columns):
    def of(kinds):
        return [place for place, column in enumerate(columns) if column.type in kinds]
    signed = [place for place, kind in enumerate(types) if kind in dialect.signed]
    return Classes(list(range(len(columns))), signed, of(dialect.charset), of(ENUM_OR_SET), of({ENUM}), of({SET}), of({GEOMETRY}), of({VECTOR}))


def is_charset(number):
    # "Charsets 1..65,535."
    return 1 <= number <= 65535


def default_holds(value, size):
    # "2, 10: ranks rise and lie below the class's size."
    default, at = read_packed(value, 0)
    pairs = [pair for pair, _ in walk(read_pair, value, at)]
    ranks = [rank for rank, _ in pairs]
    rising = all(left < right for left, right in zip(ranks, ranks[1:]))
    return is_charset(default) and rising and all(rank < size and is_charset(charset) for rank, charset in pairs)


def items(read, value):
    return [item for item, _ in walk(read, value)]


# the list of a field, and the class that has an item for each of its columns
LISTS = {
    COLUMN_CHARSETS: (read_integer, "charset"),
    NAMES: (read_string, "all"),
    SET_STRINGS: (read_group, "set"),
    ENUM_STRINGS: (read_group, "enum"),
    GEOMETRY_TYPES: (read_integer, "geometry"),
    ENUM_SET_CHARSETS: (read_integer, "enum_or_set"),
    VECTOR_DIMENSIONS: (read_integer, "vector"),
}


def contents_hold(field, classed):
    """whether the contents of a field that the walk took break no rule; a list that ends early breaks one"""
    if field.type in (SIGNEDNESS, VISIBILITY):
        return True
    if field.type in (DEFAULT_CHARSET, ENUM_SET_DEFAULT):
        return default_holds(field.value, len(classed.charset if field.type == DEFAULT_CHARSET else classed.enum_or_set))
    if field.type in (SIMPLE_KEY, KEY_WITH_PREFIX):
        return all(key < len(classed.all) for key, _ in keys(field))
    read, name = LISTS[field.type]
    listed = items(read, field.value)
    if field.type in (COLUMN_CHARSETS, ENUM_SET_CHARSETS) and not all(is_charset(number) for number in listed):
        return False
    if field.type == GEOMETRY_TYPES and any(number > 7 for number in listed):
        return False
    return len(listed) == len(getattr(classed, name))


def keys(field):
    """the column of each key, and its offset in the value"""
    if field.type == SIMPLE_KEY:
        yield from walk(read_integer, field.value)
    else:
        yield from ((column, at) for (column, _), at in walk(read_pair, field.value))


def stands_given(field, classed, kept):
    """whether a field breaks no rule, given those already kept"""
    # "a type stands at most once; not both 2 and 3, 10 and 11, 8 and 9"
    if field.type in kept or RIVALS.get(field.type) in kept:
        return False
    try:
        return contents_hold(field, classed)
    except Refused:
        return False


def read_fields(s, at, counted, classed):
    # "optional fields one by one, contents in full"
    kept = {}
    for field, place in walk(reader(counted), s, at):
        if not stands_given(field, classed, kept):
            raise Refused(7, place)
        kept[field.type] = field
    return kept


def judge_keys(kept):
    # "A key repeated is 7, placed at the earliest item that repeats one."
    for kind in (SIMPLE_KEY, KEY_WITH_PREFIX):
        seen = set()
        for key, at in keys(kept[kind]) if kind in kept else ():
            if key in seen:
                raise Refused(7, kept[kind].start + at)
            seen.add(key)


def charsets(members, default, listed):
    """the charset of each column of a class"""
    # "charset (pair, list or default), little-endian, 0 if none given"
    if listed:
        return dict(zip(members, items(read_integer, listed.value)))
    if not default:
        return {}
    charset, at = read_packed(default.value, 0)
    pairs = dict(pair for pair, _ in walk(read_pair, default.value, at))
    return {place: pairs.get(rank, charset) for rank, place in enumerate(members)}


def flags_of(place, event, kept, classed):
    flags = NULLABLE if low_first(event.bits, place) else 0
    if VISIBILITY not in kept or high_first(kept[VISIBILITY].value, place):
        flags |= VISIBLE
    # "1 and 4 only on numeric columns, 1 only with 4"
    if SIGNEDNESS in kept and event.types[place] in NUMERIC:
        flags |= KNOWN
        if high_first(kept[SIGNEDNESS].value, classed.signed.index(place)):
            flags |= UNSIGNED
    return flags


def check(dialect, post_header, s):
    """the record of a map"""
    event = read_event(post_header, s)
    # "refusal 3 now begins at 4,097", "before any column is looked at" (Q6.3)
    if len(event.types) > MOST_COLUMNS:
        raise Refused(3, 0)
    columns = read_columns(event.types, event.metadata)
    classed = classes(dialect, event.types, columns)
    kept = read_fields(s, event.optional_at, counts(dialect, event.types), classed)
    judge_keys(kept)
    given = charsets(classed.charset, kept.get(DEFAULT_CHARSET), kept.get(COLUMN_CHARSETS))
    # a charset of a column that 01 gives none is counted over and not recorded (R24)
    given = {place: charset for place, charset in given.items() if columns[place].type in CHARACTER}
    given.update(charsets(classed.enum_or_set, kept.get(ENUM_SET_DEFAULT), kept.get(ENUM_SET_CHARSETS)))
    return record((column, flags_of(place, event, kept, classed), given.get(place, 0)) for place, column in enumerate(columns))
