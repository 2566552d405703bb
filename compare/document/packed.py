"""Packed integers."""
from .refusal import Refused

# "252, 253, 254 precede 2, 3, 8 little-endian bytes"
BEHIND = {252: 2, 253: 3, 254: 8}


def read_packed(s, at):
    """the integer at any offset, and the offset behind it (R1)"""
    if at >= len(s):
        raise Refused(1, at)
    first = s[at]
    if first <= 250:
        return first, at + 1
    if first not in BEHIND:
        raise Refused(2, at)
    end = at + 1 + BEHIND[first]
    if end > len(s):
        raise Refused(1, at)
    return int.from_bytes(s[at + 1:end], "little"), end


def pack(value):
    # "Longer forms than needed are read; the shortest is written."
    if value <= 250:
        return bytes([value])
    first, size = next((first, size) for first, size in BEHIND.items() if value < 256 ** size)
    return bytes([first]) + value.to_bytes(size, "little")
