"""Rows events: the first request of document 02, with the readings Q1.1 to Q1.8."""
from typing import NamedTuple, Optional

from .bits import bytes_for
from .event import cut
from .image import Head
from .packed import read_packed
from .record import read_record
from .refusal import Refused


class Form(NamedTuple):
    """what the code of an event says of its parts"""
    extra: bool
    second: bool


# "codes 23, 24, 25 (write, update, delete) and 30, 31, 32"; "in the second edition .. extra data", "for updates a second set"
FORMS = {
    23: Form(extra=False, second=False), 24: Form(extra=False, second=True), 25: Form(extra=False, second=False),
    30: Form(extra=True, second=False), 31: Form(extra=True, second=True), 32: Form(extra=True, second=False),
}


class Rows(NamedTuple):
    """the event's parts, and where its images begin; the extra data is None in the first edition"""
    flags: int
    extra: Optional[bytes]
    sets: list
    images_at: int


class Image(NamedTuple):
    """an image begins"""
    offset: int


def read_extra(s, at):
    # "a two-byte length that counts itself and then extra data"; "1, 2 and 15, an extra length below 2, as met"
    stored, _ = cut(s, at, 2, at)
    length = int.from_bytes(stored, "little")
    if length < 2:
        raise Refused(15, at)
    # "A part cut short is 1 at its first byte, one that carries its length at the length" (Q1.2)
    whole, behind = cut(s, at, length, at)
    return whole[2:], behind


def read_rows(code, record, table_id, s):
    # "Refusals: 11, then 16 for another code"
    columns = read_record(record)
    if code not in FORMS:
        raise Refused(16, 0)
    form = FORMS[code]
    # "Six-byte table id, two flag bytes, .. packed column count, presence bits, for updates a second set, then images to the end."
    own_id, at = cut(s, 0, 6, 0)
    flags, at = cut(s, at, 2, at)
    extra, count_at = read_extra(s, at) if form.extra else (None, at)
    n, at = read_packed(s, count_at)
    sets = []
    for _ in range(2 if form.second else 1):
        bits, at = cut(s, at, bytes_for(n), at)
        sets.append(bits)
    # "16 for a table id unlike the map's, then a column count unlike the record's": "all parts are read first, then both compared" (Q1.3)
    if int.from_bytes(own_id, "little") != table_id:
        raise Refused(16, 0)
    if n != len(columns):
        raise Refused(16, count_at)
    return Rows(int.from_bytes(flags, "little"), extra, sets, at)


def walk(record, rows, s):
    """each image that begins, and the values of its columns"""
    heads = [Head(record, bits) for bits in rows.sets]
    at = rows.images_at
    # "Where no set has a column present an image takes no bytes, so any byte after the presence bits is then left over."
    if at < len(s) and not any(head.present for head in heads):
        raise Refused(9, 0)
    # "images to the end. Updates hold whole pairs, before then after."
    while at < len(s):
        for head in heads:
            yield Image(at)
            used = head.null_bytes
            for value, used in head.walk(s[at:]):
                yield value
            at += used
