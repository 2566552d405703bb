"""The server's own texts as words, by the column's entry in the record. A field is bytes, or None for NULL."""
import re
import struct

from document.columns import Column
from document.temporal import DATE, KINDS
from document.values import BIT, DECIMAL, DOUBLE, ENUM, FLOAT, INTEGERS, JSON, SET, YEAR, digits_bytes, fixed_size

from .values import hex_word

UNSIGNED = 1


def plain(field):
    """bytes that stand as they are"""
    return field


def hexed(field):
    """bytes in hexadecimal, and behind a colon perhaps what they mean"""
    return bytes.fromhex(field.partition(b":")[0].decode())


def decimal_bytes(precision, scale, text):
    """a DECIMAL as servers store it: groups of nine digits, the first bit flipped, all of them if below zero"""
    whole, _, fraction = text.lstrip("-").partition(".")
    digits = whole.lstrip("0").rjust(precision - scale, "0") + fraction
    sizes = [(precision - scale) % 9] + [9] * ((precision - scale) // 9) + [9] * (scale // 9) + [scale % 9]
    stored, at = b"", 0
    for size in sizes:
        stored += int(digits[at:at + size] or "0").to_bytes(digits_bytes(size), "big")
        at += size
    flipped = bytes([stored[0] ^ 128]) + stored[1:]
    return bytes(byte ^ 255 for byte in flipped) if text.startswith("-") else flipped


def temporal_word(kind, text):
    name = KINDS[kind]
    sign, text = ("-" if text.startswith("-") else "+"), text.lstrip("-")
    whole, _, fraction = text.partition(".")
    parts = [int(part) for part in re.split("[-: ]", whole)]
    if kind != DATE:
        parts.append(int(fraction.ljust(6, "0")))
    return ":".join([name] + ([sign] if name == "time" else []) + [str(part) for part in parts])


def true_word(entry, field, bytes_of):
    """the word of what the server told; `bytes_of` says how it tells bytes"""
    if field is None:
        return "null"
    kind, flags, m0, m1 = entry[:4]
    column = Column(kind, m0, m1)
    if kind == JSON:
        return "json:" + (field.decode() if bytes_of is hexed else "")
    if kind in INTEGERS:
        return ("uint:%d" if flags & UNSIGNED else "int:%d") % int(field)
    if kind == YEAR:
        return "year:%d" % int(field)
    if kind == FLOAT:
        return "float:%d" % struct.unpack("<I", struct.pack("<f", float(field)))
    if kind == DOUBLE:
        return "double:%d" % struct.unpack("<Q", struct.pack("<d", float(field)))
    if kind in KINDS:
        return temporal_word(kind, field.decode())
    if kind == ENUM:
        return "uint:%d" % int(field.partition(b":")[0])
    if kind == DECIMAL:
        stored = decimal_bytes(m0, m1, field.decode())
    elif kind in (BIT, SET):
        stored = int(field.partition(b":")[0]).to_bytes(fixed_size(column), "big" if kind == BIT else "little")
    else:
        stored = bytes_of(field)
    return "bytes:" + hex_word(stored)
