"""Column values. A value is its kind and its parts, as docs/CASES.md writes them: ("int", -2), ("bytes", b"ab"), ("null",)."""
from . import temporal
from .bits import bytes_for
from .columns import judge
from .refusal import Refused

# "types 1, 2, 9, 3, 8 are 1, 2, 3, 4, 8 bytes"
INTEGERS = {1: 1, 2: 2, 9: 3, 3: 4, 8: 8}
FLOAT, DOUBLE, YEAR, BIT, JSON, DECIMAL, ENUM, SET, CHAR = 4, 5, 13, 16, 245, 246, 247, 248, 254
FLOATS = {FLOAT: ("float", 4), DOUBLE: ("double", 8)}
BLOBS = {242, 249, 250, 251, 252, 255}
VARCHARS = {15, 253}
FIXED_BYTES = {BIT, DECIMAL, SET}
# "leftover digits 0 to 8 take 0, 1, 1, 2, 2, 3, 3, 4, 4 bytes"
LEFTOVER = (0, 1, 1, 2, 2, 3, 3, 4, 4)
NULL = ("null",)


def digits_bytes(digits):
    return digits // 9 * 4 + LEFTOVER[digits % 9]


def declared_length(column):
    # "15, 253: declared length m0+256·m1; 254: m1 + 16·((m0 and 0x30) xor 0x30)."
    if column.type == CHAR:
        return column.m1 + 16 * (column.m0 & 0x30 ^ 0x30)
    return column.m0 + 256 * column.m1


def length_bytes(column):
    """how many bytes tell the length, or None if the column has a fixed size"""
    if column.type in BLOBS or column.type == JSON:
        return column.m0
    if column.type in VARCHARS or column.type == CHAR:
        # "Declared below 256: one length byte, else two."
        return 1 if declared_length(column) < 256 else 2
    return None


def fixed_size(column):
    kind, m0, m1, _ = column
    if kind in INTEGERS:
        return INTEGERS[kind]
    if kind in FLOATS:
        return FLOATS[kind][1]
    if kind == YEAR:
        return 1
    if kind in (ENUM, SET):
        return m1
    if kind == BIT:
        return bytes_for(8 * m1 + m0)
    if kind == DECIMAL:
        return digits_bytes(m0 - m1) + digits_bytes(m1)
    return temporal.size(kind, m0)


def most_size(column):
    """how many bytes a value takes at most"""
    # "each present column's largest stored size, length bytes included": "its width, or k + 256^k - 1 for counted bytes with k length bytes" (Q8.1)
    k = length_bytes(column)
    return fixed_size(column) if k is None else k + 256 ** k - 1


def cut(s, at, size, place):
    """so many bytes from an offset on"""
    if size > len(s) - at:
        raise Refused(9, place)
    return s[at:at + size]


def read_value(column, s, at, place):
    """the value of a good column at an offset, and the offset behind it"""
    k = length_bytes(column)
    if k is not None:
        length = int.from_bytes(cut(s, at, k, place), "little")
        return ("bytes", cut(s, at + k, length, place)), at + k + length
    stored = cut(s, at, fixed_size(column), place)
    value = read_fixed(column, stored)
    # "a value's bytes before its range"; "Each temporal reader shall name the first offending part"
    part = temporal.offending(value) if column.type in temporal.SIZES else 0
    if part:
        raise Refused(10, place, part)
    return value, at + len(stored)


def read_fixed(column, stored):
    number = int.from_bytes(stored, "little")
    if column.type in INTEGERS:
        return ("uint", number) if column.unsigned else ("int", int.from_bytes(stored, "little", signed=True))
    if column.type in FLOATS:
        return FLOATS[column.type][0], number
    if column.type == YEAR:
        # "byte 0 the value 0000 and bytes 1 to 255 the years 1901 to 2155" (request 2)
        return "year", 1900 + number if number else 0
    if column.type == ENUM:
        return "uint", number
    if column.type in FIXED_BYTES:
        return "bytes", stored
    return temporal.read(column.type, column.m0, stored)


def takes(column, value):
    """whether the value is in the column's domain"""
    # "what these rules can yield, written as ranges, units and lengths, without the reader"
    kind, *parts = value
    if kind == "null":
        return False
    if column.type in temporal.SIZES:
        return temporal.takes(column.type, column.m0, value)
    k = length_bytes(column)
    if k is not None:
        return kind == "bytes" and len(parts[0]) < 256 ** k
    size = fixed_size(column)
    if column.type in FIXED_BYTES:
        return kind == "bytes" and len(parts[0]) == size
    if column.type in INTEGERS and not column.unsigned:
        return kind == "int" and -256 ** size // 2 <= parts[0] < 256 ** size // 2
    if column.type == YEAR:
        return kind == "year" and (parts[0] == 0 or 1901 <= parts[0] <= 2155)
    named = FLOATS[column.type][0] if column.type in FLOATS else "uint"
    return kind == named and parts[0] < 256 ** size


def stored_value(column, value, place):
    """the bytes of a value, if a good column takes it"""
    if not takes(column, value):
        raise Refused(13, place)
    if column.type in temporal.SIZES:
        return temporal.write(column.type, column.m0, value)
    k = length_bytes(column)
    if k is not None:
        return len(value[1]).to_bytes(k, "little") + value[1]
    if column.type in FIXED_BYTES:
        return value[1]
    number = value[1] - 1900 if column.type == YEAR and value[1] else value[1]
    return number.to_bytes(fixed_size(column), "little", signed=number < 0)


def value_size(column, value, place):
    """how many bytes a value takes, a refusal telling the place"""
    judge(column, place)
    return len(stored_value(column, value, place))


def read_lone(column, s):
    # "A lone value's call takes real types and tests 4, 5, then 9, 10 or 13, 8; place 0."
    judge(column, 0)
    return read_value(column, s, 0, 0)


def write_lone(column, value):
    judge(column, 0)
    return stored_value(column, value, 0)
