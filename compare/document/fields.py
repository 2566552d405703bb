"""Optional fields, as the walk judges them."""
from typing import NamedTuple

from .bits import bytes_for
from .event import read_event
from .lists import walk
from .packed import read_packed
from .refusal import Refused

SIGNEDNESS, DEFAULT_CHARSET, COLUMN_CHARSETS, NAMES, SET_STRINGS, ENUM_STRINGS, GEOMETRY_TYPES = range(1, 8)
SIMPLE_KEY, KEY_WITH_PREFIX, ENUM_SET_DEFAULT, ENUM_SET_CHARSETS, VISIBILITY, VECTOR_DIMENSIONS = range(8, 14)


class Field(NamedTuple):
    type: int
    start: int
    value: bytes


class Counts(NamedTuple):
    """how many columns there are, and how many have a signedness bit"""
    columns: int
    signed: int


def counts(dialect, types):
    # "Numeric goes by the type byte" (R9)
    return Counts(len(types), sum(kind in dialect.signed for kind in types))


def cut_field(s, at):
    """the field at an offset, and the offset behind it (R8)"""
    # "Type byte, packed length, value." "Length or value cut short: 1 at the length's first byte"
    length, start = read_packed(s, at + 1)
    if length > len(s) - start:
        raise Refused(1, at + 1)
    return Field(s[at], start, s[start:start + length]), start + length


def holds(field, counted):
    # "The walk judges contents only so: 1 holds ceil(numeric/8) bytes and 12 ceil(n/8), no more; 2 and 10 start with a packed integer."
    if field.type == SIGNEDNESS:
        return len(field.value) == bytes_for(counted.signed)
    if field.type == VISIBILITY:
        return len(field.value) == bytes_for(counted.columns)
    if field.type in (DEFAULT_CHARSET, ENUM_SET_DEFAULT):
        try:
            read_packed(field.value, 0)
        except Refused:
            return False
    return True


def reader(counted):
    """the reader of fields, for `lists.step` and `lists.walk`"""
    def read_field(s, at):
        # "The value is cut out first, then type, then contents judged."
        field, behind = cut_field(s, at)
        if not 1 <= field.type <= 13:
            raise Refused(6, at)
        if not holds(field, counted):
            raise Refused(7, at)
        return field, behind
    return read_field


def names_field(dialect, post_header, s):
    """the first field 4 that the walk over an event's fields meets, or None if it comes to its end; what stands behind the field is not looked at"""
    event = read_event(post_header, s)
    for field, _ in walk(reader(counts(dialect, event.types)), s, event.optional_at):
        if field.type == NAMES:
            return field
    return None
