"""Lines of `cases` on which the port and the Rust are compared: short inputs exhaustively, random ones around each boundary, damaged copies of good ones, and captures of real logs with bytes changed."""
import os
import random
import re

from listed import BLOBS, FRACTION_BYTES, NO_METADATA, packed_at, shortest, unhex

HOSTILE = (0, 1, 5, 7, 8, 59, 60, 99, 100, 127, 128, 250, 251, 252, 253, 254, 255)
SERVERS = ("mysql", "mariadb")
# bytes of the longest record, of 4,096 columns
RECORD_MOST = 6 + 6 * 4096


def word(b):
    return bytes(b).hex() or "-"


def short_strings():
    """every byte string of at most two bytes"""
    yield b""
    for i in range(256):
        yield bytes([i])
    for i in range(65536):
        yield i.to_bytes(2, "big")


def some_bytes(rng, size):
    return bytes(rng.choice(HOSTILE) if rng.random() < 0.5 else rng.randrange(256) for _ in range(size))


def damaged(rng, good):
    """a copy with a byte changed, dropped or added, or cut short"""
    bad = bytearray(good)
    for _ in range(rng.choice((1, 1, 1, 2))):
        at = rng.randrange(len(bad) + 1)
        how = rng.randrange(4)
        if how == 0 and at < len(bad):
            bad[at] = rng.choice(HOSTILE)
        elif how == 1 and at < len(bad):
            bad[at] ^= 1 << rng.randrange(8)
        elif how == 2:
            bad[at:at] = some_bytes(rng, 1)
        else:
            del bad[at:at + rng.choice((1, 1, 2, len(bad)))]
    return bytes(bad)


# ---- packed integers
def packed(rng):
    for s in short_strings():
        yield "packed %s 0" % word(s)
    for _ in range(30000):
        s = bytes([rng.choice((0, 1, 249, 250, 251, 252, 253, 254, 255))]) + some_bytes(rng, rng.randrange(11))
        yield "packed %s %d" % (word(s), rng.choice((0, 0, 0, 0, 1, 2, len(s), len(s) + 1)))


def pack(rng):
    edges = [251, 65536, 2 ** 24, 2 ** 32, 2 ** 63, 2 ** 64]
    near = [e + d for e in edges for d in range(-300, 300) if 0 <= e + d < 2 ** 64]
    for value in list(range(600)) + near:
        yield "pack %d 9" % value
    for _ in range(20000):
        yield "pack %d %d" % (rng.randrange(2 ** rng.randrange(1, 65)), rng.choice((9, 9, 9, 10, 4, 3, 1, 0)))


# ---- single values
def columns():
    """each real type but 246, with accepted metadata, as type, m0, m1"""
    for kind in (1, 2, 3, 7, 8, 9, 11, 12, 13, 14):
        yield kind, 0, 0
    yield 4, 4, 0
    yield 5, 8, 0
    yield 245, 4, 0
    for kind in (17, 18, 19):
        for m0 in range(7):
            yield kind, m0, 0
    for kind in BLOBS:
        for m0 in range(1, 5):
            yield kind, m0, 0
    for m0, m1 in ((0, 0), (1, 0), (255, 0), (0, 1), (1, 1), (255, 255)):
        yield 15, m0, m1
        yield 253, m0, m1
    for m0, m1 in ((1, 0), (7, 0), (0, 1), (1, 1), (7, 7), (0, 8)):
        yield 16, m0, m1
    for m1 in (1, 2):
        yield 247, 247, m1
    for m1 in (1, 2, 3, 4, 8):
        yield 248, 248, m1
    for m0, m1 in ((254, 0), (254, 1), (254, 255), (238, 0), (238, 255), (222, 0), (206, 255)):
        yield 254, m0, m1


def time_bytes(rng, m0):
    """a TIME2 with parts around the edges of their ranges"""
    k = FRACTION_BYTES[m0]
    whole = rng.choice((0, 1, 255, 256, 837, 838, 839, 1023, 1024, 2047)) * 4096 + rng.choice((0, 1, 59, 60, 63)) * 64 + rng.choice((0, 1, 59, 60, 63))
    fraction = rng.choice((0, 1, 99, 100, 127, 128, 9999, 10000, 32768, 999999, 1000000, 2 ** 23, 2 ** 24 - 1)) % 256 ** k if k else 0
    number = (whole * 256 ** k + fraction) * rng.choice((1, -1))
    return ((number + 2 ** (23 + 8 * k)) % 2 ** (24 + 8 * k)).to_bytes(3 + k, "big")


def datetime_bytes(rng, m0):
    k = FRACTION_BYTES[m0]
    whole = rng.choice((0, 1, 1970, 2000, 9998, 9999, 10000, 10082)) * 13 + rng.choice((0, 1, 11, 12))
    for most, size in ((31, 32), (23, 32), (59, 64), (59, 64)):
        whole = whole * size + rng.choice((0, 1, most - 1, most, min(most + 1, size - 1), size - 1))
    fraction = rng.choice((0, 1, 99, 100, 127, 128, 9999, 10000, 32767, 32768, 999999, 1000000, 2 ** 23)) % 256 ** k if k else 0
    number = (whole + rng.choice((2 ** 39, 2 ** 39, 2 ** 39, 0))) % 2 ** 40
    return number.to_bytes(5, "big") + fraction.to_bytes(k, "big")


def old_temporal(rng, kind):
    clock = rng.choice((0, 1, 23, 24, 255, 256, 837, 838, 839, 1677)) * 10000 + rng.choice((0, 1, 59, 60, 99)) * 100 + rng.choice((0, 1, 59, 60, 99))
    if kind == 11:
        return (clock % 2 ** 24).to_bytes(3, "little")
    year = rng.choice((0, 1, 1970, 9999, 10000, 32767))
    month, day = rng.choice((0, 1, 12, 13, 15)), rng.choice((0, 1, 30, 31))
    if kind == 14:
        return (year * 512 + month * 32 + day).to_bytes(3, "little")
    year = rng.choice((year, 65535, 65536, 67536, 99999))
    return ((year * 10000 + month * 100 + day) * 1000000 + clock % 1000000).to_bytes(8, "little")


def stored_value(rng, kind, m0):
    if kind == 19:
        return time_bytes(rng, m0)
    if kind == 18:
        return datetime_bytes(rng, m0)
    if kind in (11, 12, 14):
        return old_temporal(rng, kind)
    if (kind == 245 or kind in BLOBS) and rng.random() < 0.7:
        size = rng.choice((0, 1, 2, 5, 20))
        return size.to_bytes(m0, "little") + some_bytes(rng, size)
    return some_bytes(rng, rng.choice((0, 1, 2, 3, 4, 5, 8, 9, 12, 40)))


def value(rng):
    for b in range(256):
        for kind, m1 in ((1, 0), (13, 0), (247, 1)):
            yield "value %d 0 %d 0 %02x" % (kind, m1, b)
            yield "value %d 0 %d 1 %02x" % (kind, m1, b)
    for b in range(65536):
        yield "value 2 0 0 %d %04x" % (b & 1, b)
        yield "value 247 247 2 0 %04x" % b
        # every minute and second, and every fraction of one byte with both signs
        yield "value 19 0 0 0 80%04x" % b
        yield "value 19 2 0 0 %s%04x" % (("7fff", "8000")[b >> 15], b)
        yield "value 14 0 0 0 %04x%02x" % (b, rng.choice((0, 0x1f, 0x4e, 0xff)))
    for kind in range(256):
        # decimals are not compared; 6 and 243, which are types of no column, stand in the stored list
        if kind in (246, 243, 6):
            continue
        for _ in range(60):
            if kind in (1, 2, 3, 7, 8, 9, 10, 11, 12, 13, 14):
                m0, m1 = 0, 0
            elif kind in (4, 5, 17, 18, 19, 245) or kind in BLOBS:
                m0, m1 = rng.randrange(12), 0
            else:
                m0, m1 = rng.choice((rng.randrange(256), rng.randrange(10))), rng.choice((rng.randrange(256), rng.randrange(10)))
            yield "value %d %d %d %d %s" % (kind, m0, m1, rng.randrange(2), word(some_bytes(rng, 40)))
    for kind in (15, 16, 247, 248, 253, 254):
        for m0 in range(256):
            for m1 in (0, 1, 2, 3, 4, 5, 7, 8, 9, 20, 255):
                yield "value %d %d %d 0 0200616263646566676869" % (kind, m0, m1)
    for kind, m0, m1 in columns():
        for _ in range(1500):
            s = stored_value(rng, kind, m0)
            if rng.random() < 0.1:
                s = s[:rng.randrange(len(s) + 1)]
            yield "value %d %d %d %d %s" % (kind, m0, m1, rng.randrange(2), word(s + some_bytes(rng, rng.choice((0, 0, 1)))))


# ---- events, fields and lists
def captured(folder, server, what):
    path = os.path.join(folder, "captures", "cases", "%s.%s.cases" % (server, what))
    with open(path) as f:
        return f.read().split("\n")[:-1]


def captured_maps(folder, servers=SERVERS):
    return [unhex(line.split(" ")[2]) for server in servers for line in captured(folder, server, "check")]


def event(rng, folder):
    for s in short_strings():
        yield "event 8 %s" % word(bytes(12) + s)
    maps = captured_maps(folder)
    for m in maps:
        yield "event 8 %s" % word(m)
        if len(m) < 120:
            for cut in range(len(m)):
                yield "event %d %s" % (rng.choice((6, 8)), word(m[:cut]))
    for n in range(60):
        yield "event 8 %s" % word(bytes(12) + bytes([n]) + bytes([3] * n) + b"\0" + bytes((n + 7) // 8))
    for m in maps:
        for _ in range(60):
            yield "event %d %s" % (rng.choice((6, 8, 8, 8, 255)), word(damaged(rng, m)))


def optional_of(m):
    """types and optional bytes of a map"""
    at = 8 + m[8] + 2
    at += 1 + m[at] + 1
    n, at = packed_at(m, at)
    types = m[at:at + n]
    size, at = packed_at(m, at + n)
    return types, m[at + size + (n + 7) // 8:]


def fields(rng, folder):
    for types in ("-", "03", "0d", "00", "03" * 9):
        for s in short_strings():
            if len(s) < 2 or s[1] < 4:
                yield "fields-as mysql %s %s" % (types, word(s))
                yield "fields-as mysql %s %s" % (types, word(s + b"\x80"))
    for m in captured_maps(folder):
        types, optional = optional_of(m)
        yield "fields-as mysql %s %s" % (word(types), word(optional))
        for _ in range(80):
            yield "fields-as mysql %s %s" % (word(types), word(damaged(rng, optional)))


KINDS_OF_FIELD = {2: "charsets", 3: "integers", 4: "strings", 5: "groups", 6: "groups", 7: "integers", 8: "integers", 9: "pairs", 10: "charsets", 11: "integers", 13: "integers"}


def field_values(optional):
    at = 0
    while at < len(optional):
        kind = optional[at]
        size, at = packed_at(optional, at + 1)
        yield kind, optional[at:at + size]
        at += size


def lists(rng, folder):
    for kind in ("integers", "pairs", "charsets", "strings", "groups"):
        for s in short_strings():
            yield "list %s %s" % (kind, word(s))
        for _ in range(8000):
            s = b"".join(shortest(rng.randrange(2 ** rng.choice((3, 3, 8, 16, 17, 24, 60)))) + some_bytes(rng, rng.randrange(3)) for _ in range(rng.randrange(5)))
            yield "list %s %s" % (kind, word(s))
    for m in captured_maps(folder):
        for kind, s in field_values(optional_of(m)[1]):
            if kind in KINDS_OF_FIELD:
                yield "list %s %s" % (KINDS_OF_FIELD[kind], word(s))
                for _ in range(8):
                    yield "list %s %s" % (KINDS_OF_FIELD[kind], word(damaged(rng, s)))
    for count in (2 ** 20, 384307168202282326, 2 ** 64 - 1):
        yield "list groups %s" % word(shortest(count))


# ---- maps and images
def check(rng, folder):
    for server in SERVERS:
        for m in captured_maps(folder, (server,)):
            yield "check-as %s 8 %s %d" % (server, word(m), RECORD_MOST)
            for _ in range(100):
                yield "check-as %s 8 %s %d" % (server, word(damaged(rng, m)), RECORD_MOST)


def image(folder):
    for server in SERVERS:
        yield from captured(folder, server, "image")
        yield from captured(folder, server, "image6")


# ---- the stored list of `cases`, as far as the Rust can be asked; it has the inputs of docs/DIFFERENCES.md too
LONGEST_LINE = 262144
HEX = "(?:-|(?:[0-9a-f]{2})+)"
NUMBER = "[0-9]{1,18}"
BYTE = "(?:[0-9]|[1-9][0-9]|1[0-9][0-9]|2[0-4][0-9]|25[0-5])"
ASKED = re.compile("|".join(("packed %s %s" % (HEX, NUMBER), "pack %s [0-9]{1,5}" % NUMBER, "value %s %s %s [01] %s" % (BYTE, BYTE, BYTE, HEX), "event %s %s" % (BYTE, HEX),
                             "fields-as mysql %s %s" % (HEX, HEX), "list (?:integers|pairs|charsets|strings|groups) %s" % HEX, "check-as (?:mysql|mariadb) %s %s [0-9]{1,5}" % (BYTE, HEX))))


def has_metadata_of_none(words):
    """a value of a type without metadata, or with one byte, that is given more: the Rust has no such call"""
    if words[0] != "value":
        return False
    kind, m0, m1 = (int(x) for x in words[1:4])
    one = kind in (4, 5, 17, 18, 19, 245) or kind in BLOBS
    return (kind in NO_METADATA + (10,) and (m0 or m1)) or (one and m1)


def stored(root):
    with open(os.path.join(root, "crates", "cases", "stdin"), encoding="latin-1", newline="\n") as f:
        for line in f.read().split("\n"):
            words = line.split(" ")
            if len(line) < LONGEST_LINE and ASKED.fullmatch(line) and words[:2] != ["value", "246"] and not has_metadata_of_none(words):
                yield line


def all_lines(root, folder, seed):
    rng = random.Random(seed)
    for group in (stored(root), packed(rng), pack(rng), value(rng), event(rng, folder), fields(rng, folder), lists(rng, folder), check(rng, folder), image(folder)):
        yield from group
