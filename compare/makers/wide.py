"""More than 255 columns: records of both kinds and nearly such ones, maps, and the rows and events under them.

Lines are long here: a record of 4,096 columns is 49,164 digits. A walk over as many columns by public steps costs their square, so those are few."""
from functools import lru_cache

from document.bits import bytes_for
from document.columns import Column
from document.packed import pack
from document.record import record as record_of

from .maps import event_of, field_bytes, packs
from .some import DIALECTS, MOST_ROOM, line, longer

ENTRY = bytes([3, 8, 0, 0, 0, 0])
TINY, DATE, TIME2, VARCHAR = Column(1, 0, 0), Column(14, 0, 0), Column(19, 2, 0), Column(15, 20, 0)
# bytes of a value, and of one with a part out of range
STORED = {TINY: b"\x05", DATE: b"\x21\x00\x00", TIME2: b"\x7f\xff\xfe\xce", VARCHAR: b"\x02ab"}
WRONG = {DATE: b"\xa0\x01\x00", TIME2: b"\x7f\xff\xff\x9c"}
TURNS = (255, 256, 257, 900)
MOST = 4096


# ---- records
def head(length, kind, count):
    return b"".join(number.to_bytes(2, "little") for number in (length, kind, count))


def kinds_and_counts():
    """each kind for as many columns as one of them has at most, and one more or less"""
    for n in (0, 1, 254, 255, 256, 257, 900, 4095, 4096, 4097):
        for kind in (0, 1, 2, 3, 257, 258):
            yield head(6 + 6 * n, kind, n) + ENTRY * n
    # as many as the length can tell
    for kind in (1, 2):
        yield head(65532, kind, 10921) + ENTRY * 10921


def disagreeing():
    """a count that is not the number of entries: one byte of it alone, or one off; and a length that is not the record's"""
    for n in (0, 1, 2, 132, 255, 256, 257, 900):
        for count in {n + 256, n + 4096, n % 256, n // 256, n % 256 * 256 + n // 256, n + 1, max(n - 1, 0)} - {n}:
            for kind in (1, 2):
                yield head(6 + 6 * n, kind, count) + ENTRY * n
    for n in (256, 900):
        good = head(6 + 6 * n, 2, n) + ENTRY * n
        for length in (6 * n, 6 + 6 * n - 1, 6 + 6 * n + 1, 12 + 6 * n, 6 + 6 * (n % 256), 0, 65535):
            yield head(length, 2, n) + good[6:]
        yield from (good[:-1], good + b"\x00", good[:-6], good + ENTRY)


def spoilt():
    """one entry that breaks a rule, at the turn of the count's byte and at the end"""
    for n in (256, 257, 900, MOST):
        good = head(6 + 6 * n, 2, n) + ENTRY * n
        for place in {0, 255, 256, n - 1} - {n}:
            for at, byte in ((0, 6), (1, 16), (4, 1)):
                yield good[:6 + 6 * place + at] + bytes([byte]) + good[7 + 6 * place + at:]


def wide_records():
    yield from kinds_and_counts()
    yield from disagreeing()
    yield from spoilt()


# ---- tables
class Wide:
    """a table of TINYINTs, but for a DATE at 255, a TIME2(2) at 256 and a VARCHAR at its end"""

    def __init__(self, n):
        self.n = n
        self.columns = [TINY] * (n - 1) + [VARCHAR]
        for place, column in ((255, DATE), (256, TIME2)):
            if place < n:
                self.columns[place] = column
        self.record = record_of((column, 10, 0) for column in self.columns)
        self.all = range(n)

    def presence(self, places):
        bits = bytearray(bytes_for(self.n))
        for place in places:
            bits[place // 8] |= 1 << place % 8
        return bytes(bits)

    def nulls(self, places, null=()):
        """the null bits, those to spare set"""
        bits = bytearray(b"\xff" * bytes_for(len(places)))
        for rank, place in enumerate(places):
            if place not in null:
                bits[rank // 8] ^= 1 << rank % 8
        return bytes(bits)

    def image(self, places, null=(), wrong=()):
        values = ((WRONG if place in wrong else STORED)[self.columns[place]] for place in places if place not in null)
        return self.nulls(places, null) + b"".join(values)

    def some(self):
        """sets of places: all, the first 255, the last, those around 255, each second"""
        ends = range(250, min(self.n, 260))
        return [self.all, range(255), [self.n - 1], ends, range(1, self.n, 2)] if self.n < MOST else [self.all, [self.n - 1], ends]

    def images(self):
        """(presence, image): good, cut in the null bits, in a value and before the last, with NULLs, and with a part out of range"""
        for places in self.some():
            presence, good = self.presence(places), self.image(places)
            size = bytes_for(len(places))
            yield presence, good
            if self.n == MOST and places is self.all:
                continue
            yield from ((presence, cut) for cut in (good + b"\x00", good[:size - 1], good[:-1], good[:-3], good[:size]))
            yield presence, self.image(places, null={places[-1], 255})
            if 255 in places and 255 < self.n - (self.n == 256):
                yield presence, self.image(places, wrong={255})
                yield presence, self.image(places, null={255}, wrong={256} & set(self.all[:-1]))


@lru_cache(None)
def table(n):
    return Wide(n)


def heads():
    """(record, presence): bits of the right length, a byte more and less, and as many as kind 1 has at most; of a good record and of others"""
    for n in (*TURNS, MOST):
        size = bytes_for(n)
        for length in (size, size + 1, size - 1, 32):
            yield table(n).record, b"\xff" * length
        yield head(6 + 6 * n, 1 if n > 255 else 2, n) + ENTRY * n, b"\xff" * size
    yield head(6 + 6 * 4097, 2, 4097) + ENTRY * 4097, b"\xff" * 513


def first_lines():
    for given in heads():
        yield line("first", *given)


def room_lines():
    """the same; and as many columns as there may be of those that take most, all present, none, and the first and the last"""
    for given in heads():
        yield line("room", *given)
    record = record_of([(Column(252, 4, 0), 10, 0)] * MOST)
    for presence in (b"\xff" * 512, b"\x00" * 512, b"\x01" + b"\x00" * 510 + b"\x80"):
        yield line("room", record, presence)


def image_lines():
    for n in (*TURNS, MOST):
        for presence, image in table(n).images():
            yield line("image", table(n).record, presence, image)


def cursors(n):
    """columns around the turn of the count's byte and the end, with the offset where the value stands"""
    wide = table(n)
    behind = bytes_for(n)
    offsets = []
    for column in wide.columns:
        offsets.append(behind)
        behind += len(STORED[column])
    for column in {0, 254, 255, 256, n - 1} & set(range(n)):
        yield column, offsets[column]
        yield column, behind + 1
    yield from ((n, behind), (n, behind + 1), (n + 1, 0), (65536, 0), (n % 256, bytes_for(n)))


def step_lines():
    for n in (*TURNS, MOST):
        wide = table(n)
        for cursor in cursors(n):
            yield line("step", wide.record, wide.presence(wide.all), wide.image(wide.all), *cursor)


def start_lines():
    for n in (*TURNS, MOST):
        wide = table(n)
        size = bytes_for(n)
        for length, room in ((size, size), (size, size - 1), (size, size + 1), (size - 1, size), (size + 1, size + 1), (32, 600)):
            yield line("start", wide.record, wide.presence(wide.all), b"\x5a" * length, room)


VALUES = {TINY: ("int", 5), DATE: ("date", 0, 1, 1), TIME2: ("time", "-", 0, 0, 1, 500000), VARCHAR: ("bytes", b"ab")}


def put_lines():
    for n in (*TURNS, MOST):
        wide = table(n)
        nulls = wide.nulls(wide.all, {254})
        for column, offset in cursors(n):
            value = VALUES[wide.columns[min(column, n - 1)]]
            yield line("put", wide.record, wide.presence(wide.all), nulls, ("null",) if column == 254 else value, column, offset, 5000)
            yield line("put", wide.record, wide.presence(wide.all), nulls, VALUES[VARCHAR], column, offset, offset % 5000)


def row_lines():
    for n in (*TURNS, MOST):
        wide = table(n)
        for places in wide.some():
            given = [VALUES[wide.columns[place]] for place in places]
            size = len(wide.image(places))
            for room in (size,) if n == MOST else (size, size - 1):
                yield line("row", wide.record, wide.presence(places), wide.nulls(places), room, *given)
            yield line("row", wide.record, wide.presence(places), wide.nulls(places), size, *given[:-1])


# ---- rows events
def rows_body(code, count, sets, images):
    extra = b"\x02\x00" if code >= 30 else b""
    return b"\x01\x02\x03\x04\x05\x06\x01\x00" + extra + count + b"".join(sets) + b"".join(images)


def rows_lines():
    for n in (*TURNS, MOST):
        wide = table(n)
        for code in (23, 31):
            pair = [wide.all, range(250, min(n, 260))] if code == 31 else [range(250, min(n, 260))]
            sets = [wide.presence(places) for places in pair]
            good = [wide.image(places) for places in pair]
            wrong = [wide.image(places, wrong={255} & set(range(n - 1))) for places in pair]
            bodies = [rows_body(code, pack(n), sets, images) for images in (good, good + wrong, good[:-1] + [good[-1][:-1]], [])]
            bodies += [rows_body(code, count, sets, good) for count in longer(n) if n < MOST]
            bodies += [rows_body(code, pack(count), sets, good) for count in {n - 1, n + 1, n % 256, n % 256 * 256 + n // 256} - {n} if n < MOST]
            for body in bodies:
                yield line("rows", code, wide.record, 0x060504030201, body)


# ---- maps
def map_of(n, column=b"\x03", metadata=b"", optional=b"", other=b""):
    """a map of n columns of one type, the last of which may be another"""
    return event_of(column * (n - len(other)) + other, metadata * (n - len(other)), optional)


def fields_of(n):
    """optional bytes of a map of n VARCHARs: fields with an item or a bit for each column, and keys far apart"""
    names = b"".join(pack(len(name)) + name for name in (b"c%d" % place for place in range(n)))
    yield field_bytes(12, b"\xa5" * bytes_for(n))
    yield field_bytes(3, packs(*[33] * (n - 1), 255))
    yield field_bytes(3, packs(*[33] * (n - 1)))
    yield field_bytes(2, packs(8, 0, 63, 254, 45, n - 1, 65535))
    yield field_bytes(2, packs(8, n, 63))
    yield field_bytes(4, names)
    yield field_bytes(4, names + b"\x00")
    yield field_bytes(8, packs(n - 1, 0, 1, n - 2))
    yield field_bytes(8, packs(n - 1, 0, n - 1))
    yield field_bytes(9, packs(n, 0))
    yield field_bytes(12, b"\xff" * (bytes_for(n) - 1))


def wide_maps():
    """(event, columns): around as many columns as a kind has at most, with faults in late columns and in fields that have an item for each"""
    for n in (254, 255, 256, 257, 900, 4095, 4096, 4097, 4098, 65535):
        yield map_of(n), n
        # too many columns come before any column
        yield map_of(n, other=b"\x06"), n
        yield map_of(n, b"\x06"), n
        yield map_of(n)[:-1], n
    for n in (256, 900, MOST):
        yield map_of(n, optional=field_bytes(1, b"\x5a" * bytes_for(n))), n
        yield map_of(n, optional=field_bytes(1, b"\x5a" * 32)), n
        yield map_of(n, other=b"\x0f"), n
        yield map_of(n, b"\x0f", b"\x14\x00", other=b"\x13"), n
        yield event_of(b"\x03" * n, b"\x00"), n
        for optional in fields_of(n):
            yield map_of(n, b"\x0f", b"\x14\x00", optional), n
    # each column a key, and then one of them again
    keys = packs(*range(300))
    yield map_of(300, optional=field_bytes(8, keys)), 300
    yield map_of(300, optional=field_bytes(8, keys + pack(256))), 300


def room_of(n):
    """room for a record of n columns, if a line may ask for as much"""
    return min(6 + 6 * n, MOST_ROOM)


def check_lines():
    for s, n in wide_maps():
        yield line("check", 8, s, room_of(n))
    for n in (255, 256, 900, MOST):
        for room in (0, 6, 1536, 1542, 6 + 6 * n - 1, 6 + 6 * n + 1):
            yield line("check", 8, map_of(n), room)


def check_as_lines():
    for at, (s, n) in enumerate(wide_maps()):
        yield line("check-as", DIALECTS[at % 3], 8, s, room_of(n) if at % 5 else room_of(n) - 1)


def names_lines():
    for at, (s, n) in enumerate(wide_maps()):
        if n in (256, 900, 4097):
            yield line("names", DIALECTS[at % 3], 8, s)
