"""The profile record: document 01's kind 1, and kind 2, which request 6 adds (readings Q6.1 to Q6.3)."""
from .columns import CHARACTER, ENUM_OR_SET, NUMERIC, Column, judge
from .refusal import Refused

# "Raise the check to MySQL's 4,096."
MOST_COLUMNS, MOST_OF_KIND_1 = 4096, 255
# "Length of the whole record (2 bytes), kind 1 (2), both little-endian, n (1), zero (1), then 6 bytes a column"; "kind 2: length (2), kind 2 (2),
# count (2), entries as before"
HEAD, ENTRY = 6, 6
# "Flags: 1 unsigned, 2 nullable, 4 signedness known, 8 visible"
UNSIGNED, NULLABLE, KNOWN, VISIBLE = 1, 2, 4, 8


def head(n):
    """what stands before the entries of n columns"""
    # "Kind 1's count byte and zero byte are one two-byte count below 256" (Q6.1); "Up to 255 columns the check still writes kind 1 ..; above that kind 2."
    kind = 1 if n <= MOST_OF_KIND_1 else 2
    return b"".join(number.to_bytes(2, "little") for number in (HEAD + ENTRY * n, kind, n))


def record(entries):
    """the record of columns, each with its flags and charset"""
    # "6 bytes a column: real type; flags; m0; m1 (as in the map, else zero); charset .., little-endian"
    stored = b"".join(bytes([column.type, flags, column.m0, column.m1]) + charset.to_bytes(2, "little") for column, flags, charset in entries)
    return head(len(stored) // ENTRY) + stored


def entry_holds(kind, flags, m0, m1, charset):
    try:
        judge(Column(kind, m0, m1), 0)
    except Refused:
        return False
    if flags > 15 or flags & UNSIGNED and not flags & KNOWN:
        return False
    # "1 and 4 only on numeric columns", "charset 0 on other than character, ENUM and SET columns"
    return (kind in NUMERIC or not flags & KNOWN) and (kind in CHARACTER | ENUM_OR_SET or charset == 0)


def read_record(s):
    """the columns of a valid record; else 11"""
    n = int.from_bytes(s[4:HEAD], "little")
    # "A kind 2 record with 255 columns or fewer is not valid, so each map keeps one record": "nor above 4,096" (Q6.2)
    if n > MOST_COLUMNS or len(s) != HEAD + ENTRY * n or s[:HEAD] != head(n):
        raise Refused(11, 0)
    columns = []
    for at in range(HEAD, len(s), ENTRY):
        kind, flags, m0, m1 = s[at:at + 4]
        if not entry_holds(kind, flags, m0, m1, int.from_bytes(s[at + 4:at + 6], "little")):
            raise Refused(11, 0)
        columns.append(Column(kind, m0, m1, bool(flags & UNSIGNED)))
    return columns
