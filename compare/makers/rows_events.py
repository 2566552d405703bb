"""Whole rows events."""
from document.bits import bytes_for
from document.columns import Column
from document.packed import pack
from document.record import record as record_of
from document.rows import FORMS

from .columns import parted, some_column
from .rows import Row, rule_records, some_columns, some_presence, spoilt_record
from .some import NUMBERS, TWO64, changes, chance, cuts, damaged, line, longer, maker, near, some_bytes, some_number, some_pack
from .wide import rows_lines

WRITE, UPDATE, WRITE2, UPDATE2 = 23, 24, 30, 31
# codes that are none of the six: around them, partial updates (39), MariaDB's compressed ones, and some that agree with one in their low bytes
OTHERS = (0, 1, 15, 19, 22, 26, 29, 33, 39, 165, 166, 167, 168, 169, 255, 256, 256 + 23, 256 + 30, 2 ** 32 + 31, 2 ** 63 + 24, TWO64 - 1)
ID = 0x060504030201
TINY, INT, TIME2 = Column(1, 0, 0), Column(3, 0, 0), Column(19, 2, 0)


class Event:
    """the parts of a rows event, to be joined as they are or with one of them changed"""

    def __init__(self, code, columns, sets, images, extra=b"", table_id=ID, flags=1):
        self.code, self.table_id = code, table_id
        self.record = record_of((column, 8, 0) for column in columns)
        self.own_id = (table_id % 2 ** 48).to_bytes(6, "little")
        self.flags = flags.to_bytes(2, "little")
        self.extra = (len(extra) + 2).to_bytes(2, "little") + extra if code not in FORMS or FORMS[code].extra else b""
        self.count = pack(len(columns))
        self.sets, self.images = list(sets), list(images)

    def body(self, **changed):
        """the event's bytes, each part as it is or as given"""
        parts = {**vars(self), "sets": b"".join(self.sets), "images": b"".join(self.images), **changed}
        return b"".join(parts[name] for name in ("own_id", "flags", "extra", "count", "sets", "images"))

    def line(self, s=None, **changed):
        words = {**vars(self), **changed}
        return line("rows", words["code"], words["record"], words["table_id"], self.body() if s is None else s)


def event_of(code, columns, images, sets=None, extra=b""):
    """an event in which all columns are present, if no sets are given"""
    whole = b"\xff" * bytes_for(len(columns))
    return Event(code, columns, [whole] * (2 if code in FORMS and FORMS[code].second else 1) if sets is None else sets, images, extra)


def small(code, extra=b""):
    """two rows of a TINYINT and a TIME2(2), or a pair of them"""
    return event_of(code, [TINY, TIME2], [b"\xfc\x05\x7f\xff\xfe\xce", b"\xfe\x80\x00\x00\x01"], extra=extra)


# ---- rules
def rule_codes():
    for code in (*FORMS, *OTHERS):
        yield from (small(other).line(code=code) for other in (WRITE, UPDATE2))


def rule_lengths():
    """an extra length below 2, of none, of all and of more than is there"""
    for code in (UPDATE, WRITE2, UPDATE2):
        for size in (0, 1, 5):
            event = small(code, b"\x07" * size)
            left = len(event.body()) - 8
            for length in {0, 1, 2, 3, size + 1, size + 2, size + 3, left - 1, left, left + 1, 255, 256, 65535}:
                yield event.line(event.body(extra=length.to_bytes(2, "little") + b"\x07" * size))
    # before anything behind it is looked at
    for code in (WRITE2, UPDATE2):
        for length in (0, 1, 2):
            for count in (b"", b"\x03", b"\xfb", b"\xfe"):
                for record in (small(code).record, b""):
                    yield small(code).line(small(code).body(extra=bytes([length, 0]), count=count, sets=b"", images=b""), record=record)


def rule_cuts():
    """each cut before the images, the id being the map's or another"""
    for code in (UPDATE, WRITE2, UPDATE2):
        event = event_of(code, [TINY] * 9, [], extra=b"\x07\x07")
        for cut in cuts(event.body()):
            yield event.line(cut)
            yield event.line(cut, table_id=ID + 1)


def rule_ids():
    """ids that differ in one byte, or above six"""
    for code in (WRITE, UPDATE2):
        event = small(code)
        for at in range(8):
            yield event.line(table_id=ID ^ 1 << 8 * at)
        for at in range(6):
            yield event.line(event.body(own_id=(ID ^ 128 << 8 * at).to_bytes(6, "little")))
        for own in (0, 1, 2 ** 32, 2 ** 48 - 1):
            for table_id in {own, own % 2 ** 32, own + 2 ** 48, 2 ** 48, 2 ** 63, TWO64 - 1}:
                yield event.line(event.body(own_id=own.to_bytes(6, "little")), table_id=table_id)


def rule_counts():
    """counts around the record's, in every form, and hostile ones"""
    for code in (WRITE, UPDATE2):
        for n in (1, 8):
            event = event_of(code, [TINY] * n, [b"\xff"] * 4)
            for count in {n - 1, n, n + 1, n + 8, 250, 251, 2 ** 61, TWO64 - 8, TWO64 - 7, TWO64 - 1}:
                for form in longer(count):
                    yield event.line(event.body(count=form))
            for first in (251, 255):
                yield event.line(event.body(count=bytes([first])))


def rule_orders():
    """which of two faults is told"""
    good = small(WRITE)
    for code in (WRITE, UPDATE, WRITE2, UPDATE2, 39):
        event = small(code, b"\x07")
        faults = ({}, {"count": b"\x03"}, {"count": b"\xfb"}, {"extra": b"\x01\x00\x07"}, {"images": b"\x00\x05\xff\xff\xff\xff"}, {"sets": b"", "images": b""},
                  {"count": b"\x03", "images": b""}, {"count": b"\x09", "sets": b"\xff", "images": b""})
        for s in (b"", event.body()[:8], *(event.body(**fault) for fault in faults)):
            for record in (good.record, good.record[:-1]):
                for table_id in (ID, ID + 1):
                    yield event.line(s, record=record, table_id=table_id)


def rule_sets():
    """sets without a column, of spare bits alone, one of two empty; with no byte behind them and with some"""
    tails = (b"", b"\x00", b"\xff\xff", b"\xfe\x05\xfe\x06\xfe\x07")
    for n, bits in ((0, (b"",)), (1, (b"\x00", b"\xfe", b"\xff")), (3, (b"\x00", b"\xf8", b"\x02")), (8, (b"\x00", b"\x80")),
                    (9, (b"\x00\x00", b"\x00\xfe", b"\x00\x01"))):
        for code in (WRITE, UPDATE, WRITE2, UPDATE2):
            for first in bits:
                for second in bits if FORMS[code].second else (b"",):
                    sets = [first, second] if FORMS[code].second else [first]
                    for tail in tails:
                        yield event_of(code, [TINY] * n, [tail], sets).line()


def rule_images():
    """cut short, left over, out of range: in the first image, in a later one, in either half of a pair"""
    good, bad, null = b"\xfc\x05\x7f\xff\xfe\xce", b"\xfc\x05\x7f\xff\xff\x9c", b"\xff"
    for code in (WRITE, UPDATE, WRITE2, UPDATE2):
        for count in range(4):
            for last in (b"", bad, null, good[:1], good[:2], good[:5], b"\xfd\x05", bad[:5], good + b"\x00", null * 3):
                yield event_of(code, [TINY, TIME2], [good] * count + [last]).line()
                yield event_of(code, [TINY, TIME2], [null] * count + [last]).line()
    # the halves of a pair under sets of their own
    for code in (UPDATE, UPDATE2):
        for first, second in ((b"\x01", b"\x02"), (b"\x02", b"\x01"), (b"\x00", b"\x03"), (b"\x03", b"\x00"), (b"\xfd", b"\xfe")):
            for tail in (good, bad, null, null * 2, good[:2], good[:2] * 2, good * 2, good + bad, good + null, b"\xfe\x05\xfe\x7f\xff\xfe\xce",
                         b"\xfe\x7f\xff\xfe\xce\xfe\x05"):
                yield event_of(code, [TINY, TIME2], [tail], [first, second]).line()
    # four bytes of a checksum left on: two more rows, and nothing tells
    yield event_of(WRITE2, [TINY], [b"\xfe\x05", b"\xfe\x01\xfe\x02"]).line()


def rule_parts():
    """a part out of range, in the first image and in a later one; in an update in either half, the other half having another"""
    for column, stored in parted((0, 2), 1, 2):
        bad = b"\xfc\x05" + stored
        yield event_of(WRITE, [TINY, column], [bad]).line()
        yield event_of(WRITE2, [TINY, column], [b"\xfe\x05", b"\xff", bad, bad]).line()
    month, fraction = b"\xf8\x05\xa0\x01\x00\x80\x00\x00\x00", b"\xf8\x05\x21\x00\x00\x7f\xff\xff\x9c"
    good = b"\xf8\x05\x21\x00\x00\x80\x00\x00\x00"
    for code in (WRITE, UPDATE, WRITE2, UPDATE2):
        for images in ((month, fraction), (fraction, month), (good, month), (good, good, fraction), (good, good, good, month), (good, month[:-1]),
                       (good, fraction[:-1])):
            yield event_of(code, [TINY, Column(14, 0, 0), TIME2], images).line()


def rows_rules(rng):
    for rules in (rule_codes, rule_lengths, rule_cuts, rule_ids, rule_counts, rule_orders, rule_sets, rule_images, rule_parts, rows_lines):
        yield from rules()


# ---- at random
def some_id(rng):
    return rng.choice((rng.randrange(1, 2 ** 16), rng.randrange(2 ** 48), some_number(rng) % 2 ** 48))


def some_wide(rng):
    """some dozens of columns"""
    return [some_column(rng) for _ in range(rng.randrange(12, 60))]


def some_sets(rng, n, second):
    """one set or two: most often of columns, at times the same twice, or none"""
    sets = [some_presence(rng, n)]
    if second:
        sets.append(sets[0] if chance(rng, 3) else some_presence(rng, n))
    if chance(rng, 20):
        sets[rng.randrange(len(sets))] = bytes(bytes_for(n))
    return sets


def some_event(rng, code=None, columns=None, rows=None):
    """a good event of several rows"""
    code = rng.choice(list(FORMS)) if code is None else code
    row = Row(rng, (some_wide(rng) if chance(rng, 8) else some_columns(rng)) if columns is None else columns)
    sets = some_sets(rng, len(row.columns), FORMS[code].second)
    rows = rng.choice((0, 1, 1, 2, 2, 3, 4, rng.randrange(5, 12))) if rows is None else rows
    images = [Row(rng, row.columns, row.record, bits) for _ in range(rows) for bits in sets]
    extra = some_bytes(rng, rng.choice((0, 0, 1, 3, 5, rng.randrange(40)))) if not chance(rng, 60) else some_bytes(rng, rng.choice((253, 254, 300)))
    event = Event(code, row.columns, sets, [image.image() for image in images], extra, some_id(rng), rng.choice((0, 1, 17, 65535, rng.randrange(65536))))
    event.record, event.count, event.rows = row.record, some_pack(rng, len(row.columns)), images
    return event


def fault_in_image(rng, event):
    """one image with temporals that may be out of range, or damaged, or cut; most often a later one"""
    if not event.rows:
        return event.body() + some_bytes(rng, rng.randrange(1, 5))
    at = max(rng.randrange(len(event.rows)), rng.randrange(len(event.rows)))
    how = rng.randrange(4)
    image = event.rows[at].loose_image() if how < 2 else damaged(rng, event.images[at])
    before = event.images[:at] + [image]
    return event.body(images=b"".join(before + event.images[at + 1:] if how != 3 else before))


def fault_in_head(rng, event):
    """one part before the images wrong, or nearly"""
    how = rng.randrange(7)
    n = (len(event.record) - 6) // 6
    if how == 0:
        return event.line(table_id=rng.choice((near(rng, event.table_id), event.table_id ^ 1 << rng.randrange(64))))
    if how == 1:
        return event.line(code=rng.choice((rng.choice(OTHERS), rng.choice(list(FORMS)), rng.randrange(256))))
    if how == 2:
        return event.line(event.body(count=rng.choice(list(longer(near(rng, n)))) if not chance(rng, 4) else bytes([rng.choice((251, 255))])))
    if how == 3 and event.extra:
        return event.line(event.body(extra=near(rng, len(event.extra)).to_bytes(8, "little")[:2] + event.extra[2:]))
    if how == 4:
        return event.line(event.body(sets=some_bytes(rng, len(b"".join(event.sets)))))
    if how == 5:
        return event.line(record=spoilt_record(rng, [Column(3, 0, 0)] * n))
    return event.line(event.body()[:rng.randrange(len(event.body(images=b"")) + 2)])


# ---- edges
def edge_bytes(rng):
    """good events: every cut, every byte changed, bytes behind the end"""
    events = [small(code, b"\x07" * size) for code in FORMS for size in (0, 3)]
    events += [some_event(rng, code, [some_column(rng) for _ in range(n)], 3) for code in FORMS for n in (1, 3, 9)]
    for event in events:
        s = event.body()
        if len(s) < 200:
            yield from map(event.line, cuts(s))
            yield from map(event.line, changes(s))
        for tail in (b"\x00", b"\xff", s[-4:]):
            yield event.line(s + tail)


def edge_numbers():
    """codes, extra lengths, ids and counts"""
    for code in (*range(256), *NUMBERS):
        for event in (small(WRITE), small(UPDATE2, b"\x01\x02")):
            yield event.line(code=code)
    for size in (0, 1, 2, 3, 4, 253, 254, 255, 256, 65532, 65533):
        event = small(WRITE2, b"\x03" * size)
        for length in {0, 1, 2, size + 1, size + 2, size + 3, size + 4, size + 15, size + 16, size + 17, 65534, 65535}:
            if length < 65536:
                yield event.line(event.body(extra=length.to_bytes(2, "little") + b"\x03" * size))
    for number in NUMBERS:
        for event in (small(WRITE), small(UPDATE2)):
            yield event.line(table_id=number)
            yield event.line(event.body(count=pack(number)))
            yield event.line(event.body(count=b"\xfe" + number.to_bytes(8, "little")))


def edge_sets():
    """every byte of presence and null bits, and as many columns as bytes and counts turn at"""
    event = event_of(UPDATE2, [TINY, INT, TIME2], [b"\xf8\x01\x02\x03\x04\x05\x80\x00\x00\x01"] * 2)
    for byte in range(256):
        yield event.line(event.body(sets=bytes([byte, 7])))
        yield event.line(event.body(sets=bytes([7, byte])))
        yield event.line(event.body(images=bytes([byte]) * 9))
    for n in (0, 1, 7, 8, 9, 64, 250, 251, 255, 256, 257):
        for code in (WRITE, UPDATE2):
            event = event_of(code, [TINY] * n, [])
            for count in longer(n):
                yield event.line(event.body(count=count, images=b"\xff" * (2 * bytes_for(n))))


def rows_edges(rng):
    yield from edge_bytes(rng)
    yield from edge_numbers()
    yield from edge_sets()
    yield from (small(WRITE).line(record=record) for record in rule_records())


@maker("rows", rows_edges, rows_rules)
def rows(rng):
    event = some_event(rng)
    how = rng.randrange(10)
    if how < 5:
        return event.line()
    if how < 8:
        return event.line(fault_in_image(rng, event))
    return fault_in_head(rng, event) if how == 8 else event.line(damaged(rng, event.body()))
