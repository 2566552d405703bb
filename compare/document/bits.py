"""Bits in bytes."""


def bytes_for(bits):
    """ceil(bits / 8)"""
    return (bits + 7) // 8


def low_first(s, i):
    """a bit of those that run lowest first: nullable, presence and null bits"""
    return s[i // 8] >> i % 8 & 1 == 1


def high_first(s, i):
    """a bit of those that "run from the highest down": fields 1 and 12"""
    return s[i // 8] >> 7 - i % 8 & 1 == 1
