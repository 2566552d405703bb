"""Columns: which types and metadata are taken, real types, and classes."""
from typing import NamedTuple

from .refusal import Refused


class Column(NamedTuple):
    """a column by its real type"""
    type: int
    m0: int
    m1: int
    unsigned: bool = False


def is_bit(m0, m1):
    return m0 <= 7 and 1 <= 8 * m1 + m0 <= 64


def is_decimal(precision, scale):
    return 1 <= precision <= 65 and scale <= 30 and scale <= precision


def is_char(m0, m1):
    # "m0 or-ed with 0x30 is the real type: 247, 248 as above, or 254"
    real = m0 | 0x30
    return real == 254 or real in (247, 248) and ACCEPTED[real](m0, m1)


# the table of the check: types, bytes of metadata, and which are accepted
TABLE = (
    ((1, 2, 3, 7, 8, 9, 10, 11, 12, 13, 14), 0, lambda m0, m1: True),
    ((4,), 1, lambda m0, m1: m0 == 4),
    ((5,), 1, lambda m0, m1: m0 == 8),
    ((17, 18, 19), 1, lambda m0, m1: m0 <= 6),
    ((242, 249, 250, 251, 252, 255), 1, lambda m0, m1: 1 <= m0 <= 4),
    ((245,), 1, lambda m0, m1: m0 == 4),
    ((15, 253), 2, lambda m0, m1: True),
    ((16,), 2, is_bit),
    ((246,), 2, is_decimal),
    ((247,), 2, lambda m0, m1: m1 in (1, 2)),
    ((248,), 2, lambda m0, m1: m1 in (1, 2, 3, 4, 8)),
    ((254,), 2, is_char),
)
METADATA_BYTES = {kind: size for kinds, size, _ in TABLE for kind in kinds}
ACCEPTED = {kind: rule for kinds, _, rule in TABLE for kind in kinds}


def real_type(kind, m0):
    # "Real type of 10 is 14."
    if kind == 10:
        return 14
    return m0 | 0x30 if kind == 254 else kind


def judge(column, place):
    """refuses what is no real type with its metadata (R15)"""
    # "metadata bytes that the type does not have are 0; type 10 is not a real type (4 for a lone value); 254 only with m0 or-ed with 0x30 = 254"
    kind, m0, m1, _ = column
    if kind not in ACCEPTED or kind == 10:
        raise Refused(4, place)
    lacked = (m0, m1)[METADATA_BYTES[kind]:]
    if any(lacked) or not ACCEPTED[kind](m0, m1) or real_type(kind, m0) != kind:
        raise Refused(5, place)


# "Numeric are types 1, 2, 3, 4, 5, 8, 9, 246." "Character columns have real type 15, 252, 253 or 254; types 10 and 11 rank ENUM and SET columns together."
NUMERIC = {1, 2, 3, 4, 5, 8, 9, 246}
CHARACTER = {15, 252, 253, 254}
ENUM, SET, GEOMETRY, VECTOR = 247, 248, 255, 242
ENUM_OR_SET = {ENUM, SET}


class Dialect(NamedTuple):
    """the types that have a signedness bit, and those that have a charset in fields 2 and 3 (R24)"""
    signed: set
    charset: set


DIALECTS = {
    "document": Dialect(NUMERIC, CHARACTER),
    "mysql": Dialect(NUMERIC | {13}, CHARACTER | {VECTOR}),
    "mariadb": Dialect(NUMERIC | {13}, CHARACTER | {GEOMETRY}),
}
