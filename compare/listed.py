"""Which differences between the port and the Rust docs/DIFFERENCES.md lists.

`judge(line, ours, rust)` says how our answer to a line of `cases` stands to the Rust's: EQUAL, BOTH_REFUSE, the number of an entry of docs/DIFFERENCES.md with a few words, or
None for a difference that is not listed. An entry is told by what the bytes say and by what the Rust answered, never by our own answer alone; where an entry says what document
01 asks instead, our answer must be that.
"""
from document.packed import pack as shortest

EQUAL = "equal"
BOTH_REFUSE = "refused by both"
STEPPED_OVER = "equal, but for decimals and JSON, which the comparison steps over"
YEAR_ZERO = "4d YEAR 0000"
ERROR, PANIC, ABORT = "error", "panic", "abort"
NOT_PACKED = (251, 255)

# ---- document 01: real types and their metadata, as far as an entry needs it
NO_METADATA = (1, 2, 3, 7, 8, 9, 11, 12, 13, 14)
BLOBS = (242, 249, 250, 251, 252, 255)
TEMPORALS = (7, 11, 12, 14, 17, 18, 19)
FRACTION_BYTES = (0, 1, 1, 2, 2, 3, 3)
UNITS = (1, 10000, 10000, 100, 100, 1, 1)


def is_taken(kind):
    return kind in NO_METADATA or kind in BLOBS or kind in (4, 5, 15, 16, 17, 18, 19, 245, 246, 247, 248, 253, 254)


def is_accepted(kind, m0, m1):
    if kind in NO_METADATA:
        return m0 == m1 == 0
    if kind in BLOBS:
        return 1 <= m0 <= 4 and m1 == 0
    if kind in (4, 5, 245):
        return m0 == {4: 4, 5: 8, 245: 4}[kind] and m1 == 0
    if kind in (17, 18, 19):
        return m0 <= 6 and m1 == 0
    if kind == 16:
        return m0 <= 7 and 1 <= 8 * m1 + m0 <= 64
    if kind == 246:
        return 1 <= m0 <= 65 and m1 <= 30 and m1 <= m0
    if kind == 247:
        return m1 in (1, 2)
    if kind == 248:
        return m1 in (1, 2, 3, 4, 8)
    if kind == 254:
        return m0 | 0x30 == 254
    return True


UNACCEPTED = {4: "4c", 5: "4c", 16: "4h", 17: "3k", 18: "3k", 19: "3k", 245: "4m", 248: "4i"}


def unhex(word):
    return b"" if word == "-" else bytes.fromhex(word)


def bytes_needed(kind, m0):
    return {7: 4, 11: 3, 12: 8, 14: 3, 17: 4, 18: 5, 19: 3}[kind] + (FRACTION_BYTES[m0] if kind >= 17 else 0)


# ---- temporals
# of each kind the parts in order: the number that request 4 gives to each, and the most that it may be
RANGES = {
    "seconds": ((0, 2 ** 32 - 1), (7, 999999)),
    "date": ((1, 9999), (2, 12), (3, 31)),
    "datetime": ((1, 9999), (2, 12), (3, 31), (4, 23), (5, 59), (6, 59), (7, 999999)),
    "time": ((4, 838), (5, 59), (6, 59), (7, 999999)),
}
YEAR, HOUR, FRACTION, NEGATIVE = 1, 4, 7, 8


def range_fault(parts):
    """the first part of a temporal, as `cases` writes it, that is out of its range; 0 if none is"""
    name, *rest = parts.split(":")
    numbers = [int(x) for x in (rest[1:] if name == "time" else rest)]
    return next((part for number, (part, most) in zip(numbers, RANGES[name]) if not 0 <= number <= most), 0)


def refused_for(part):
    return "refused 10 0 %d" % part


def in_range(told):
    """a temporal that is read, or its refusal"""
    part = range_fault(told)
    return refused_for(part) if part else told


def time_of(negative, whole, micros):
    """a time by document 01, of the whole part's bits; none is a negative zero"""
    return in_range("time:%s:%d:%d:%d:%d" % ("-" if negative else "+", whole // 4096, whole // 64 % 64, whole % 64, micros))


def datetime2(stored, micros):
    """a DATETIME2 that is not below zero, by document 01"""
    number = int.from_bytes(stored[:5], "big") - 2 ** 39
    months = number >> 22
    return "datetime:%d:%d:%d:%d:%d:%d:%d" % (months // 13, months % 13, number >> 17 & 31, number >> 12 & 31, number >> 6 & 63, number & 63, micros)


def time2(m0, stored):
    """the sign, whole part and microseconds of a TIME2 by document 01"""
    k = FRACTION_BYTES[m0]
    if k == 3:
        packed = int.from_bytes(stored, "big") - 2 ** 47
        return packed < 0, abs(packed) >> 24, abs(packed) % 2 ** 24
    whole = int.from_bytes(stored[:3], "big") - 2 ** 23
    fraction = int.from_bytes(stored[3:], "big")
    if whole < 0 and fraction:
        whole, fraction = whole + 1, fraction - 256 ** k
    return whole < 0 or fraction < 0, abs(whole), abs(fraction) * UNITS[m0]


def temporal_entry(kind, m0, stored, rust):
    """the entry for bytes of a temporal which the Rust reads otherwise, and what document 01 asks; None if there is none"""
    number = int.from_bytes(stored, "little")
    high = 17 <= kind and len(stored) > bytes_needed(kind, 0) and stored[bytes_needed(kind, 0)] >= 128
    if kind == 19:
        negative, whole, micros = time2(m0, stored)
        if FRACTION_BYTES[m0] == 1 and negative and stored[3]:
            return "3a TIME2 below zero with a fraction of one byte", time_of(negative, whole, micros)
        if whole // 4096 >= 1024:
            return "3b TIME2 of 1,024 hours or more", refused_for(HOUR)
    if kind == 18 and int.from_bytes(stored[:5], "big") < 2 ** 39:
        return "3i DATETIME2 below zero", refused_for(NEGATIVE)
    if kind in (17, 18) and high:
        # the fraction is out of range, whatever its unit; of a DATETIME2 other parts may be before it
        return "3h a fraction with its highest bit set", in_range(datetime2(stored, 10 ** 6)) if kind == 18 else refused_for(FRACTION)
    if kind == 17 and stored[0] >= 128 and rust not in (ERROR, PANIC):
        whole, micros = rust.split(" ")[1].split(":")[1:]
        return "3j TIMESTAMP2 from 2^31 seconds on", in_range("seconds:%d:%s" % (int(whole) + 2 ** 32, micros))
    if kind == 11 and number // 10000 > 255:
        return "3d TIME above 255 hours", in_range("time:+:%d:%d:%d:0" % (number // 10000, number // 100 % 100, number % 100))
    if kind == 12 and number // 10 ** 10 > 65535:
        return "3g DATETIME with a year over 65,535", refused_for(YEAR)
    if rust.startswith("ok ") and range_fault(rust.split(" ")[1]):
        return "3c parts out of range", in_range(rust.split(" ")[1])
    return None


# ---- one judge for each word
def judge_packed(words, ours, rust):
    s, at = unhex(words[1]), int(words[2])
    eaten, checked, read = rust.split(" | ")
    if at < len(s) and s[at] in NOT_PACKED:
        zero = "ok 0 %d" % (at + 1)
        listed = (eaten, checked, read) == (zero, zero, ERROR) and ours == "refused 2 %d 0" % at
        return "2a first byte 251 or 255" if listed else None
    if (eaten, checked, read) == (PANIC, ERROR, ERROR):
        return "2b missing bytes: refused, where one reader of three panics" if ours == "refused 1 %d 0" % at else None
    return EQUAL if eaten == checked == read == ours else None


def judge_pack(words, ours, rust):
    put, written, size = rust.split(" | ")
    if put != written or len(put) != 2 * int(size):
        return None
    if int(words[2]) < int(size):
        return "2f room" if ours == "refused 8 0 0" else None
    return EQUAL if ours == "ok " + put else None


def judge_refused_column(kind, m0, m1, ours, rust):
    if not is_taken(kind):
        if ours != "refused 4 0 0":
            return None
        return BOTH_REFUSE if rust == ERROR else "4o TYPED_ARRAY, which takes its type from the metadata" if kind == 20 else None
    if ours != "refused 5 0 0":
        return None
    if rust == ERROR:
        return BOTH_REFUSE
    if kind == 254:
        return "4f CHAR with m0 0" if m0 == 0 else "4g CHAR with an m0 that is no CHAR's"
    return UNACCEPTED[kind] + " metadata outside the table" if kind in UNACCEPTED else None


def judge_json(stored, ours, rust):
    size = int.from_bytes(stored[:4], "little")
    if len(stored) < 4 or len(stored) - 4 < size:
        return BOTH_REFUSE if rust == ERROR and ours == "refused 9 0 0" else None
    asked = "ok bytes:%s %d" % (stored[4:4 + size].hex() or "-", 4 + size)
    if ours != asked:
        return None
    return "4m JSON, whose contents the Rust reads" if rust in (ERROR, "ok json %d" % (4 + size)) else None


def judge_value(words, ours, rust):
    kind, m0, m1, unsigned = (int(x) for x in words[1:5])
    stored = unhex(words[5])
    if not is_taken(kind) or not is_accepted(kind, m0, m1):
        return judge_refused_column(kind, m0, m1, ours, rust)
    if kind == 245:
        return judge_json(stored, ours, rust)
    if kind in TEMPORALS and len(stored) >= bytes_needed(kind, m0):
        used = bytes_needed(kind, m0)
        if ours == rust:
            return EQUAL if not range_fault(rust.split(" ")[1]) else None
        entry = temporal_entry(kind, m0, stored[:used], rust)
        if entry is None:
            return None
        asked = entry[1] if entry[1].startswith("refused") else "ok %s %d" % (entry[1], used)
        return entry[0] if ours == asked else None
    if ours == rust:
        return EQUAL
    if kind == 9 and not unsigned and len(stored) >= 3 and stored[2] >= 128:
        number = int.from_bytes(stored[:3], "little")
        listed = rust == "ok int:%d 3" % number and ours == "ok int:%d 3" % (number - 2 ** 24)
        return "4a signed INT24 below zero, through a stand-in" if listed else None
    if kind == 13 and stored[:1] == b"\0":
        return YEAR_ZERO if (ours, rust) == ("ok year:0 1", "ok year:1900 1") else None
    return BOTH_REFUSE if rust == ERROR and ours == "refused 9 0 0" else None


# the words of a refusal: `refused`, number, place and part
REFUSAL = 4


def fault_of(ours):
    """number and place of a refusal without a part, or nothing"""
    words = ours.split(" ")[-REFUSAL:]
    return (int(words[1]), int(words[2])) if words[0] == "refused" and words[3:] == ["0"] else None


def judge_event(words, ours, rust):
    s = unhex(words[2])
    fault = fault_of(ours)
    if fault:
        if rust == ERROR:
            return BOTH_REFUSE if fault[0] in (1, 2) else None
        return "5c first byte 251 or 255 in an event" if fault[0] == 2 and s[fault[1]] in NOT_PACKED else None
    if rust == ERROR:
        return None
    parts, written, told = rust.split(" | ")
    n = len(unhex(parts.split(" ")[5]))
    size = len(unhex(written))
    if parts != ours or int(told) != size - (n + 7) // 8 + (n + 8) // 7:
        return None
    return EQUAL if int(told) == size else "5b equal, but for what `len` tells"


def packed_at(s, at):
    """a packed integer and the offset behind it"""
    size = {252: 2, 253: 3, 254: 8}.get(s[at])
    return (s[at], at + 1) if size is None else (int.from_bytes(s[at + 1:at + 1 + size], "little"), at + 1 + size)


def without_spare(value, bits):
    """bits from the highest down, the spare ones cleared"""
    number = int.from_bytes(value, "big") >> (8 * len(value) - bits) << (8 * len(value) - bits)
    return number.to_bytes(len(value), "big")


RUST_NUMERIC = (0, 1, 2, 3, 4, 5, 8, 9, 13, 246)


def contents(types, kind, value):
    """the contents of a field as the Rust writes them"""
    if kind == 1:
        return without_spare(value, sum(t in RUST_NUMERIC for t in types))
    if kind == 12:
        return without_spare(value, len(types))
    if kind in (2, 10):
        default, behind = packed_at(value, 0)
        return shortest(default) + value[behind:]
    return value


def judge_fields(words, ours, rust):
    types, optional = unhex(words[2]), unhex(words[3])
    mine, theirs = ours.split(" "), rust.split(" ")
    fault = fault_of(ours)
    fields = mine[:-REFUSAL] if fault else mine[:-1]
    for told, read in zip(fields, theirs):
        kind, _, place = told.partition("@")
        start, length = (int(x) for x in place.split("+"))
        if 0 in types and kind == "1":
            return "5g signedness with a column of type 0"
        if read != "%s:%s" % (kind, contents(types, int(kind), optional[start:start + length]).hex() or "-"):
            return "5g signedness with a column of type 0" if 0 in types and optional[start - 2] == 1 else None
    behind = theirs[len(fields):]
    if not fault:
        return EQUAL if behind == ["end"] else None
    if behind == [ERROR]:
        return BOTH_REFUSE
    kind = optional[fault[1]]
    if fault[0] == 7 and kind in (2, 10):
        _, start = packed_at(optional, fault[1] + 1)
        return "5c first byte 251 or 255 in an event" if optional[start] in NOT_PACKED else None
    return "5g signedness with a column of type 0" if fault[0] == 7 and kind == 1 and 0 in types else None


def strings_at(s, at, count):
    told = []
    for _ in range(count):
        size, at = packed_at(s, at)
        told.append("/" + (s[at:at + size].hex() or "-"))
        at += size
    return "".join(told)


def item_entry(kind, mine, theirs):
    """how one item of a list stands to the Rust's"""
    if mine == theirs:
        return EQUAL
    if kind in (3, 11) and int(mine) % 2 ** 16 == int(theirs):
        return "5h charsets above 16 bits"
    if kind in (2, 10):
        one, other = mine.split(":"), theirs.split(":")
        if one[0] == other[0] and int(one[1]) % 2 ** 16 == int(other[1]):
            return "5h charsets above 16 bits"
    if kind == 7 and int(mine) % 256 == int(theirs):
        return "5h geometry types above 8 bits"
    return None


LIST_FIELDS = {"integers": (8, 13, 3, 11, 7), "pairs": (9,), "charsets": (2, 10), "strings": (4,), "groups": (5, 6)}


def judge_list_of(kind, s, ours, rust):
    words, theirs = ours.split(" "), rust.split(" ")
    fault = fault_of(ours)
    items = words[:-REFUSAL] if fault else words[:-1]
    if kind in (5, 6):
        split = [x.split("@") for x in items]
        items = [count + strings_at(s, int(start), int(count)) for count, start in split]
    found = EQUAL
    for mine, read in zip(items, theirs):
        if kind == 7 and read == ERROR and int(mine) % 256 > 7:
            return "5h geometry types of no number the Rust knows"
        how = item_entry(kind, mine, read) if read not in (ERROR, "end") else None
        if how is None:
            return None
        found = how if how != EQUAL else found
    behind = theirs[len(items):]
    if not fault:
        return found if behind == ["end"] else None
    if behind == [ERROR]:
        return BOTH_REFUSE if found == EQUAL else found
    if fault[0] == 2 and s[fault[1]] in NOT_PACKED:
        return "5c first byte 251 or 255 in an event"
    return None


def is_hostile(s, ours):
    """whether the group that we refuse announces more strings than bytes are left"""
    at = 0
    for _ in ours.split(" ")[:-REFUSAL]:
        count, at = packed_at(s, at)
        for _ in range(count):
            size, at = packed_at(s, at)
            at += size
    return fault_of(ours) is not None and packed_at(s, at)[0] > len(s) - at


def judge_stopped(s, ours):
    """where the Rust panics or its process dies: at a count that is hostile, or behind a 251 or 255 that it took for 0"""
    fault = fault_of(ours)
    if fault and fault[0] == 2 and s[fault[1]] in NOT_PACKED:
        return "5c first byte 251 or 255 in an event"
    return "5d a hostile count of strings" if is_hostile(s, ours) else None


def judge_list(words, ours, rust):
    s = unhex(words[2])
    if rust == ABORT or PANIC in rust.split(" | "):
        return judge_stopped(s, ours) if words[1] == "groups" else None
    hows = [judge_list_of(kind, s, ours, told) for kind, told in zip(LIST_FIELDS[words[1]], rust.split(" | "))]
    if None in hows:
        return None
    listed = sorted(set(hows) - {EQUAL, BOTH_REFUSE})
    return listed[0] if listed else hows[0]


# the type to which a server gives a charset and the Rust does not
COUNTED_TOO = {"mysql": (242, "1c charsets with a VECTOR column"), "mariadb": (255, "1d charsets with a geometry column")}


def judge_check(words, ours, rust):
    if fault_of(ours):
        return "refused by the check, which the Rust has not"
    if ours == rust:
        return EQUAL
    mine, theirs = unhex(ours.split(" ")[1]), unhex(rust.split(" ")[-1]) if rust.startswith("ok ") else b""
    counted, entry = COUNTED_TOO[words[1]]
    if len(mine) != len(theirs) or counted not in mine[6::6]:
        return None
    other = [i for i in range(len(mine)) if mine[i] != theirs[i] and i % 6 not in (4, 5)]
    return entry if not other else None


def value_entry(kind, m0, one, other):
    """how a value of an image stands to the Rust's"""
    if one == other:
        return EQUAL
    if kind in (245, 246) and one.startswith("bytes:") and other in ("json", "decimal"):
        return STEPPED_OVER
    mine, theirs = one.split(":"), other.split(":")
    if kind == 9 and one == "int:%d" % (int(theirs[1]) - 2 ** 24):
        return "4a signed INT24 below zero, through a stand-in"
    if kind == 11 and mine[:2] == theirs[:2] and int(mine[2]) % 256 == int(theirs[2]) and mine[3:] == theirs[3:]:
        return "3d TIME above 255 hours"
    if kind == 13 and (one, other) == ("year:0", "year:1900"):
        return YEAR_ZERO
    if kind == 17 and mine[1:] == [str(int(theirs[1]) + 2 ** 32), theirs[2]]:
        return "3j TIMESTAMP2 from 2^31 seconds on"
    if kind == 19 and m0 in (1, 2) and mine[:2] == ["time", "-"] and mine[-1] != "0":
        return "3a TIME2 below zero with a fraction of one byte"
    return None


def judge_image(words, ours, rust):
    record, presence = unhex(words[1]), unhex(words[2])
    columns = [j for j in range(len(record) // 6 - 1) if presence[j // 8] >> j % 8 & 1]
    entries = [record[6 + 6 * j:12 + 6 * j] for j in columns]
    mine = ours.split(" ")
    if rust == PANIC:
        # a debug build gives no answer for the image where one value makes it panic
        hows = [value_entry(e[0], e[2], one, PANIC) for e, one in zip(entries, mine) if e[0] == 19]
        return next((how for how in hows if how), None)
    theirs = rust.split(" ")
    found = EQUAL
    for j, entry, one, other in zip(columns, entries, mine, theirs):
        if mine[-REFUSAL:] == ["refused", "10", str(j), str(HOUR)] and one == "refused" and entry[0] == 11 and other.startswith("time:"):
            return "3e TIME below zero"
        how = value_entry(entry[0], entry[2], one, other)
        if how is None:
            return None
        found = how if how != EQUAL else found
    return found if mine[len(columns):] == theirs[len(columns):] else None


JUDGES = {"packed": judge_packed, "pack": judge_pack, "value": judge_value, "event": judge_event, "fields-as": judge_fields, "list": judge_list, "check-as": judge_check,
          "image": judge_image}


def judge(line, ours, rust):
    words = line.split(" ")
    return JUDGES[words[0]](words, ours, rust)
