"""Records and row images, read and written."""
from document import temporal, values
from document.bits import bytes_for, low_first
from document.columns import CHARACTER, ENUM_OR_SET, NUMERIC, Column
from document.image import Head
from document.record import record as record_of

from .columns import (edge_columns, edge_values_of, loosely, parted, rule_columns, rule_values, some_bad_column, some_bad_value, some_column,
                      some_stored, some_value)
from .some import MOST_ROOM, NUMBERS, changes, chance, cuts, damaged, line, maker, near, some_bytes, some_room
from .wide import first_lines, image_lines, put_lines, room_lines, row_lines, start_lines, step_lines, wide_records


# ---- records
def some_entry(rng, column):
    """a column with flags and a charset that it may have"""
    flags = rng.choice((0, 2, 8, 10))
    if column.type in NUMERIC:
        flags |= (5 if column.unsigned else rng.choice((0, 4)))
    charset = rng.choice((0, 1, 8, 255, 256, 65535)) if column.type in CHARACTER | ENUM_OR_SET else 0
    return column, flags, charset


def some_columns(rng):
    n = rng.randrange(1, 12) if not chance(rng, 30) else rng.choice((0, 16, 17, 100, 254, 255, 256, 300))
    return [some_column(rng) for _ in range(n)]


def some_record(rng, columns):
    return record_of(some_entry(rng, column) for column in columns)


def spoilt_record(rng, columns):
    """one entry or one byte of the head wrong, or nearly"""
    entries = [some_entry(rng, column) for column in columns]
    how = rng.randrange(4)
    if how < 3 and entries:
        at = rng.randrange(len(entries))
        column, flags, charset = entries[at]
        if how == 0:
            entries[at] = some_bad_column(rng), flags, charset
        elif how == 1:
            entries[at] = column, rng.choice((1, 4, 5, 15, 16, 17, 128, 255, flags ^ 1, flags ^ 4)), charset
        else:
            entries[at] = column, flags, rng.choice((1, 255, 256, 65535))
        return record_of(entries)
    return damaged(rng, record_of(entries))


def edge_records(rng):
    for column in edge_columns():
        for flags in (*range(17), 32, 128, 255):
            yield record_of([(column, flags, 0)])
        for charset in (0, 1, 256, 65535):
            yield record_of([(column, 8, charset)])
    for kind in range(256):
        for m0, m1 in ((0, 0), (1, 0), (4, 0), (0, 1), (8, 0), (254, 1), (247, 1), (199, 1), (206, 2)):
            yield record_of([(Column(kind, m0, m1), 8, 0)])
    for columns in ([], some_columns(rng)[:1], some_columns(rng)[:5], [Column(3, 0, 0)] * 255):
        good = some_record(rng, columns)
        yield good
        yield good + b"\x00"
        if len(good) < 50:
            yield from cuts(good)
            yield from changes(good)
    # a length or a count that is no record's, with so many entries behind it
    entry = bytes([3, 8, 0, 0, 0, 0])
    for n in (0, 1, 2, 255):
        for length in (6 + 6 * n - 1, 6 + 6 * n, 6 + 6 * n + 1, 65535):
            for kind in (0, 1, 2, 257):
                yield (length % 65536).to_bytes(2, "little") + kind.to_bytes(2, "little") + bytes([n, 0]) + entry * n


def record_edges(rng):
    for s in edge_records(rng):
        yield line("record", s)


def rule_records():
    """metadata, flags and charsets at each bound and one past it; each byte of the head wrong"""
    for column in rule_columns():
        yield record_of([(column, 8, 0)])
    for kind, m0 in ((3, 0), (246, 5), (13, 0), (15, 9), (247, 247), (255, 4), (242, 4), (5, 8)):
        m1 = 1 if kind == 247 else 0
        for flags in (0, 1, 2, 4, 5, 8, 15, 16, 128):
            yield record_of([(Column(kind, m0, m1), flags, 0)])
        for charset in (1, 65535):
            yield record_of([(Column(kind, m0, m1), 8, charset)])
    good = record_of([(Column(3, 0, 0), 8, 0)])
    for at in range(6):
        for byte in (0, 1, 2, 6, 12, 13, 255):
            yield good[:at] + bytes([byte]) + good[at + 1:]
    yield from (good[:-1], good + b"\x00", good[:6], b"", good[:5])


def record_rules(rng):
    for s in (*rule_records(), *wide_records()):
        yield line("record", s)


@maker("record", record_edges, record_rules)
def record(rng):
    columns = some_columns(rng)
    return line("record", spoilt_record(rng, columns) if rng.random() < 0.7 else some_record(rng, columns))


# ---- rows
def some_presence(rng, n):
    return b"\xff" * bytes_for(n) if chance(rng, 3) else some_bytes(rng, bytes_for(n))


class Row:
    """a record, presence and null bits, and a value for each present column"""

    def __init__(self, rng, columns=None, record=None, presence=None):
        self.rng = rng
        self.columns = some_columns(rng) if columns is None else columns
        n = len(self.columns)
        self.record = some_record(rng, self.columns) if record is None else record
        self.presence = some_presence(rng, n) if presence is None else presence
        self.present = [place for place in range(n) if low_first(self.presence, place)]
        size = bytes_for(len(self.present))
        # few NULLs, so that most rows have bytes
        self.nulls = bytes(a & b for a, b in zip(some_bytes(rng, size), some_bytes(rng, size)))
        if chance(rng, 8):
            self.nulls = some_bytes(rng, size)
        # what a record says of signs counts, not what the column said before
        self.columns = Head(self.record, self.presence).columns
        self.values = [values.NULL if low_first(self.nulls, rank) else some_value(rng, self.columns[place]) for rank, place in enumerate(self.present)]

    def stored(self):
        """the bytes of each value"""
        return [b"" if value == values.NULL else values.stored_value(self.columns[place], value, place) for place, value in zip(self.present, self.values)]

    def image(self):
        return self.nulls + b"".join(self.stored())

    def loose_image(self):
        """an image whose temporals may be out of range"""
        parts = self.stored()
        for rank, place in enumerate(self.present):
            if parts[rank] and chance(self.rng, 3):
                parts[rank] = some_stored(self.rng, self.columns[place])
        return self.nulls + b"".join(parts)

    def cursors(self):
        """the cursors of a walk over the image"""
        found = [(0, len(self.nulls))]
        for place, stored in zip(self.present, self.stored()):
            found.append((place + 1, found[-1][1] + len(stored)))
        return found


def wrong_bits(rng, bits):
    """bits of another length"""
    return rng.choice((bits + b"\xff", bits + b"\x00", bits[:-1], b"", bits * 2))


def some_head(rng, row):
    """the record and presence bits of a row, seldom damaged"""
    how = rng.randrange(30)
    if how == 0:
        return spoilt_record(rng, row.columns), row.presence
    if how == 1:
        return row.record, wrong_bits(rng, row.presence)
    return row.record, row.presence


def edge_heads(rng):
    """records and presence bits, each wrong and both"""
    for n in (0, 1, 7, 8, 9, 16, 17, 255, 256):
        good = some_record(rng, [some_column(rng) for _ in range(n)])
        bad = good[:-1] if n % 2 else good + b"\x00"
        for size in (bytes_for(n), bytes_for(n) + 1, max(0, bytes_for(n) - 1), 0):
            for byte in (0, 1, 128, 255):
                yield good, bytes([byte]) * size
            yield bad, b"\xff" * size


def first_edges(rng):
    for head in edge_heads(rng):
        yield line("first", *head)
    for s in edge_records(rng):
        yield line("first", s, b"\xff")


def first_kinds(rng):
    yield from first_rules(rng)
    yield from first_lines()
    yield from (line("first", s, b"\xff") for s in rule_records())


@maker("first", first_edges, first_kinds)
def first(rng):
    row = Row(rng)
    head = some_head(rng, row)
    return line("first", spoilt_record(rng, row.columns) if chance(rng, 3) else head[0], wrong_bits(rng, head[1]) if chance(rng, 3) else head[1])


# ---- which of two faults is told
GOOD = record_of([(Column(1, 0, 0), 8, 0), (Column(3, 0, 0), 8, 0), (Column(14, 0, 0), 8, 0)])
RECORDS, PRESENCES = (GOOD, GOOD[:-1], b"\x06" + GOOD[1:]), (b"\x05", b"", b"\x05\x00")


def first_rules(rng):
    for record in RECORDS:
        for presence in PRESENCES:
            yield line("first", record, presence)


# ---- room
def room_rules(rng):
    """each metadata beside a LONGBLOB, either absent or both, spare presence bits set too; and which of two faults is told"""
    for record in RECORDS:
        for presence in PRESENCES:
            yield line("room", record, presence)
    for column in rule_columns():
        record = record_of([(column, 8, 0), (Column(252, 4, 0), 8, 0)])
        for presence in (b"\x01", b"\x02", b"\x03", b"\x00", b"\xfd"):
            yield line("room", record, presence)
    yield from room_lines()


def room_edges(rng):
    for head in edge_heads(rng):
        yield line("room", *head)
    for s in edge_records(rng):
        yield line("room", s, b"\xff")


@maker("room", room_edges, room_rules)
def room(rng):
    return line("room", *some_head(rng, Row(rng)))


def parted_images(digits, least=0, most=7):
    """(record, presence, image): a column that is absent, a TINYINT, and a temporal with parts out of range, the last byte there or missing"""
    for column, stored in parted(digits, least, most):
        record = record_of([(Column(252, 1, 0), 8, 0), (Column(1, 0, 0), 8, 0), (column, 8, 0)])
        yield record, b"\x06", b"\xfc\x05" + stored
        if least:
            yield record, b"\x06", b"\xfc\x05" + stored[:-1]


def two_temporals():
    """(record, presence, image): of two temporals with a part out of range the first is told; a NULL has no parts, and neither has an absent column"""
    date, time = Column(14, 0, 0), Column(19, 2, 0)
    dates, times = (b"\x21\x00\x00", b"\xa0\x01\x00", b"\x00\x20\x4e"), (b"\x80\x00\x00\x00", b"\x80\x00\x3c\x00", b"\x7f\xff\xff\x9c")
    record = record_of([(Column(1, 0, 0), 8, 0), (date, 10, 0), (time, 10, 0)])
    for one in dates:
        for other in times:
            yield record, b"\x07", b"\xf8\x05" + one + other
            yield record, b"\x07", b"\xfa\x05" + other
            yield record, b"\x05", b"\xfc\x05" + other
            yield record, b"\x06", b"\xfe" + one
            yield record, b"\x07", b"\xf8\x05" + one + other[:-1]


def step_rules(rng):
    # a part that is out of range, met by a cursor at its column and by one before it
    for given in parted_images((0, 2, 6), 1, 2):
        yield line("step", *given, 2, 2)
    for given in two_temporals():
        for cursor in ((0, 1), (1, 2), (2, 2), (2, 5), (3, 2)):
            yield line("step", *given, *cursor)
    yield from step_lines()
    for record in RECORDS:
        for presence in PRESENCES:
            for image in (b"\xfc\x01\x21\x00\x00", b"\xfe\x01\xff\xff\xff", b"\x00\x01\x21", b"\x00", b""):
                for column in (0, 1, 3, 4):
                    for offset in (1, 2, 5, 6):
                        yield line("step", record, presence, image, column, offset)


def start_rules(rng):
    yield from start_lines()
    for record in RECORDS:
        for presence in PRESENCES:
            for nulls in (b"\x00", b"", b"\x00\x00"):
                for room in (0, 1):
                    yield line("start", record, presence, nulls, room)


def put_rules(rng):
    yield from put_lines()
    for record in RECORDS[:2]:
        for presence in PRESENCES[:2]:
            for nulls in (b"\x00", b"\x01", b""):
                for value in (("int", 1), ("int", 128), ("null",)):
                    for column in (0, 3, 4):
                        for offset, room in ((1, 2), (1, 1), (3, 2)):
                            yield line("put", record, presence, nulls, value, column, offset, room)


def row_rules(rng):
    yield from row_lines()
    for record in RECORDS[:2]:
        for presence in PRESENCES[:2]:
            for nulls in (b"\x00", b"\x02", b""):
                for room in (5, 4, 1, 0):
                    for given in ((("int", 1), ("date", 1, 1, 1)), (("int", 128), ("date", 1, 1, 1)), (("int", 1), ("null",)), (("int", 1),), ()):
                        yield line("row", record, presence, nulls, room, *given)


def lone_rows(rng):
    """rows of one column, each value at the edge of its domain"""
    for column in edge_columns():
        row = Row(rng, [column])
        row.presence, row.present, row.nulls = b"\x01", [0], b"\xfe"
        for value in edge_values_of(row.columns[0])[0]:
            row.values = [value]
            yield row


def edge_images(rng):
    """(record, presence, image): rows with their cuts and changes, and each kind of column alone"""
    for row in lone_rows(rng):
        yield row.record, row.presence, row.image()
    for _ in range(6):
        row = Row(rng, [some_column(rng) for _ in range(rng.randrange(1, 12))])
        image = row.image()
        yield row.record, row.presence, image
        for cut in cuts(image[:80]):
            yield row.record, row.presence, cut
        if len(image) < 80:
            for changed in changes(image):
                yield row.record, row.presence, changed
        for byte in range(256):
            yield row.record, row.presence, bytes([byte]) + image[1:]
            yield row.record, bytes([byte]) * len(row.presence), image
    for head in edge_heads(rng):
        for image in (b"", b"\x00", b"\xff" * 40):
            yield *head, image


def image_rules(rng):
    """a column that is absent, a TINYINT, and a value at each bound of its column's domain and one past it"""
    for column, given in rule_values():
        flags = 4 | column.unsigned if column.type in NUMERIC else 0
        row = record_of([(Column(252, 1, 0), 8, 0), (Column(1, 0, 0), 8, 0), (column, flags, 0)])
        if column.type in temporal.SIZES:
            yield line("image", row, b"\x06", b"\xfc\x05" + loosely(column, given))
        elif values.takes(column, given):
            yield line("image", row, b"\x06", b"\xfc\x05" + values.stored_value(column, given, 0))
    for given in (*parted_images((0, 2, 3, 6)), *parted_images((0, 2, 6), 1, 1), *two_temporals()):
        yield line("image", *given)
    yield from image_lines()


def image_edges(rng):
    for given in edge_images(rng):
        yield line("image", *given)


def some_image(rng, row):
    how = rng.randrange(8)
    if how < 4:
        return row.image()
    if how < 6:
        return row.loose_image()
    image = row.image()
    return damaged(rng, image) if how == 6 else image[:rng.randrange(len(image) + 1)] + some_bytes(rng, rng.randrange(3))


@maker("image", image_edges, image_rules)
def image(rng):
    row = Row(rng)
    return line("image", *some_head(rng, row), some_image(rng, row))


def edge_cursors(row):
    """the cursors of a row's walk, and each part of them made up"""
    n, image = len(row.columns), row.image()
    for column, offset in row.cursors():
        yield column, offset
    for column in (*range(n + 3), *NUMBERS):
        yield column, len(row.nulls)
    for offset in (*range(len(row.nulls) + 2), len(image) - 1, len(image), len(image) + 1, *NUMBERS):
        if offset >= 0:
            yield 0, offset
            yield n, offset
    for column in (n, n + 1, 2 ** 64 - 1):
        for offset in (0, len(image), len(image) + 1, 2 ** 64 - 1):
            yield column, offset


def some_cursor(rng, row):
    column, offset = rng.choice(row.cursors())
    how = rng.randrange(6)
    if how == 0:
        return near(rng, column), offset
    if how == 1:
        return column, near(rng, offset)
    if how == 2:
        return rng.randrange(len(row.columns) + 2), rng.randrange(len(row.image()) + 2)
    return column, offset


def step_edges(rng):
    for n in (0, 1, 3, 9, 17):
        row = Row(rng, [some_column(rng) for _ in range(n)])
        for cursor in edge_cursors(row):
            yield line("step", row.record, row.presence, row.image(), *cursor)
            yield line("step", row.record, row.presence, row.image()[:bytes_for(len(row.present)) - 1 if row.present else 0], *cursor)
    for record, presence, image in edge_images(rng):
        yield line("step", record, presence, image, 0, 1)


@maker("step", step_edges, step_rules)
def step(rng):
    row = Row(rng)
    return line("step", *some_head(rng, row), some_image(rng, row), *some_cursor(rng, row))


# ---- the writer
def some_nulls(rng, row):
    """the null bits of a row, at times of another length or others"""
    how = rng.randrange(16)
    if how == 0:
        return wrong_bits(rng, row.nulls)
    return some_bytes(rng, len(row.nulls)) if how == 1 else row.nulls


def start_edges(rng):
    for head in edge_heads(rng):
        for size in (0, 1, 2, 32):
            for room in (0, 1, size, 40):
                yield line("start", *head, rng.choice((b"\x00", b"\xff", b"\x5a")) * size, room)
    for n in range(18):
        row = Row(rng, [Column(3, 0, 0)] * n)
        for byte in (0, 1, 127, 128, 255):
            for room in {0, max(0, bytes_for(len(row.present)) - 1), bytes_for(len(row.present)), 5, MOST_ROOM}:
                yield line("start", row.record, row.presence, bytes([byte]) * len(row.nulls), room)


@maker("start", start_edges, start_rules)
def start(rng):
    row = Row(rng)
    nulls = some_nulls(rng, row)
    return line("start", *some_head(rng, row), nulls, some_room(rng, len(nulls)))


def put_edges(rng):
    for row in lone_rows(rng):
        size = len(row.image())
        yield line("put", row.record, row.presence, row.nulls, row.values[0], 0, 1, rng.choice((size, size - 1, size + 1)))
    for column in edge_columns():
        row = Row(rng, [column])
        for value in (("null",), *edge_values_of(row.columns[0])[1][:12]):
            yield line("put", row.record, b"\x01", rng.choice((b"\xfe", b"\x00", b"\xff")), value, 0, 1, 300)
    for n in (0, 1, 3, 9, 17):
        row = Row(rng, [some_column(rng) for _ in range(n)])
        for column, offset in edge_cursors(row):
            rank = sum(place < column for place in row.present)
            value = row.values[rank] if rank < len(row.values) else rng.choice((("null",), ("int", 1)))
            yield line("put", row.record, row.presence, row.nulls, value, column, offset, rng.choice((300, 300, len(row.image()))))
    for head in edge_heads(rng):
        for nulls in (b"", b"\x00", b"\xff", b"\xff" * 32):
            yield line("put", *head, nulls, rng.choice((("null",), ("int", 1))), rng.choice((0, 1, 300)), 1, rng.choice((0, 9, 300)))


@maker("put", put_edges, put_rules)
def put(rng):
    row = Row(rng)
    column, offset = some_cursor(rng, row)
    rank = sum(place < column for place in row.present)
    value, size = rng.choice((("null",), ("int", 0))), 0
    if rank < len(row.values):
        value, place = row.values[rank], row.present[rank]
        size = len(row.stored()[rank])
        if chance(rng, 3):
            value = some_bad_value(rng, row.columns[place])
        elif chance(rng, 12):
            value = ("null",) if value != values.NULL else some_value(rng, row.columns[place])
    room = some_room(rng, offset + size) if offset < MOST_ROOM - 300 and not chance(rng, 8) else rng.randrange(40)
    return line("put", *some_head(rng, row), some_nulls(rng, row), value, column, offset, room)


def row_edges(rng):
    for row in lone_rows(rng):
        size = len(row.image())
        yield line("row", row.record, row.presence, row.nulls, rng.choice((size, size, size - 1, size + 1)), *row.values)
    for _ in range(8):
        row = Row(rng, [some_column(rng) for _ in range(rng.randrange(1, 12))])
        size = len(row.image())
        for room in range(min(size + 2, 60)):
            yield line("row", row.record, row.presence, row.nulls, room, *row.values)
        for values_given in (row.values[:-1], row.values + [("null",)], [], row.values[::-1]):
            yield line("row", row.record, row.presence, row.nulls, size, *values_given)
            yield line("row", row.record, row.presence, row.nulls + b"\xff", size, *values_given)
            yield line("row", row.record, row.presence + b"\xff", row.nulls, size, *values_given)
            yield line("row", row.record + b"\xff", row.presence, row.nulls, size, *values_given)
    for head in edge_heads(rng):
        yield line("row", *head, b"", 10)
        yield line("row", *head, b"\xff", 10, ("null",))


@maker("row", row_edges, row_rules)
def row_of(rng):
    row = Row(rng)
    given = list(row.values)
    if given and chance(rng, 4):
        rank = rng.randrange(len(given))
        given[rank] = some_bad_value(rng, row.columns[row.present[rank]])
    if chance(rng, 20):
        given = given[:-1] if chance(rng, 2) else given + [("null",)]
    return line("row", *some_head(rng, row), some_nulls(rng, row), some_room(rng, len(row.image())) if chance(rng, 3) else 3000, *given)
