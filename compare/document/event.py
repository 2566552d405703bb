"""The table map event."""
from typing import NamedTuple

from .bits import bytes_for
from .packed import pack, read_packed
from .refusal import Refused


class Event(NamedTuple):
    """the event's parts, and where the optional metadata starts"""
    id: int
    flags: int
    database: bytes
    table: bytes
    types: bytes
    metadata: bytes
    bits: bytes
    optional: bytes
    optional_at: int


def cut(s, at, size, place):
    """a part of so many bytes, and the offset behind it"""
    if size > len(s) - at:
        raise Refused(1, place)
    return s[at:at + size], at + size


def read_name(s, at):
    # "length byte, bytes, one skipped byte"; "A skipped byte is a part of its own." (R5)
    length, start = cut(s, at, 1, at)
    name, end = cut(s, start, length[0], at)
    _, behind = cut(s, end, 1, end)
    return name, behind


def read_event(post_header, s):
    # "Table id: 4 bytes if the post-header length is 6, else 6 bytes. Flags 2."
    table_id, at = cut(s, 0, 4 if post_header == 6 else 6, 0)
    flags, at = cut(s, at, 2, at)
    database, at = read_name(s, at)
    table, at = read_name(s, at)
    # "Packed column count n; n type bytes; packed length and the metadata; ceil(n/8) bytes of nullable bits, lowest first; the rest is optional metadata."
    n, at = read_packed(s, at)
    types, at = cut(s, at, n, at)
    length, start = read_packed(s, at)
    metadata, at = cut(s, start, length, at)
    bits, at = cut(s, at, bytes_for(n), at)
    return Event(int.from_bytes(table_id, "little"), int.from_bytes(flags, "little"), database, table, types, metadata, bits, s[at:], at)


def written_event(table_id, flags, database, table, types, metadata, bits, optional):
    # "The writer uses a 6-byte id, zero skipped bytes, and takes ids below 2^48, names to 255 bytes, exactly ceil(n/8) bytes of bits."
    if table_id >= 2 ** 48 or len(database) > 255 or len(table) > 255 or len(bits) != bytes_for(len(types)):
        raise Refused(13, 0)
    names = b"".join(bytes([len(name)]) + name + b"\0" for name in (database, table))
    counted = pack(len(types)) + types + pack(len(metadata)) + metadata
    return table_id.to_bytes(6, "little") + flags.to_bytes(2, "little") + names + counted + bits + optional
