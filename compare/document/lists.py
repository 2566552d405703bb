"""Lists in the values of optional fields, and the names of columns. A reader answers an item and the offset behind it (R3)."""
from .packed import read_packed
from .refusal import Refused

read_integer = read_packed


def read_pair(s, at):
    # "A pair is two list integers; each has its own place."
    left, at = read_packed(s, at)
    right, at = read_packed(s, at)
    return (left, right), at


def read_string(s, at):
    # "A list string is a packed length and that many bytes; either cut short is 1 at the length's first byte."
    length, start = read_packed(s, at)
    if length > len(s) - start:
        raise Refused(1, at)
    return s[start:start + length], start + length


def read_group(s, at):
    """the count of a group and where its first string starts"""
    # "A group is a packed count and that many strings: a step over groups reads the whole group"
    count, start = read_packed(s, at)
    end = start
    for _ in range(count):
        _, end = read_string(s, end)
    return (count, start), end


def step(read, s, at):
    """the item at a cursor and the next cursor, or None at the end (R2)"""
    # "Offset = length: the end. Offset past the length: 1 at that offset."
    if at > len(s):
        raise Refused(1, at)
    return read(s, at) if at < len(s) else None


def walk(read, s, at=0):
    """every item from a cursor on, with its offset"""
    while (found := step(read, s, at)) is not None:
        item, behind = found
        yield item, at
        at = behind


def column_name(names, operator, column):
    # "from the map's names field if that is not empty, else from the operator's list lent beside it, in the same layout, read no further; 14 if it ends first"
    for at, (name, _) in enumerate(walk(read_string, names or operator)):
        if at == column:
            return name
    raise Refused(14, column)
