"""Images that arrive in blocks."""
from document import values
from document.bits import bytes_for
from document.blocks import LEAST_CARRY
from document.columns import Column
from document.record import record as record_of

from .columns import parted, some_column
from .rows import PRESENCES, RECORDS, Row, some_columns, some_head, some_image
from .some import MOST_ROOM, chance, cuts, line, maker, some_bytes
from .wide import MOST, TURNS, table

END = "end"
# document 01's row: -2, "ab", 200
RECORD, IMAGE = bytes.fromhex("180001000300030c000000000f0a14000000010d00000000"), bytes.fromhex("f8feffffff026162c8")
TINY, BLOB, DATE = Column(1, 0, 0), Column(252, 2, 0), Column(14, 0, 0)


def blocks_line(record, presence, ops, carry=LEAST_CARRY):
    return line("blocks", record, presence, carry, *ops)


# ---- cutting
def byte_by_byte(s):
    return [s[at:at + 1] for at in range(len(s))]


def halves(s):
    """cut in two at each place, an empty block being one of them at either end"""
    return ([s[:at], s[at:]] for at in range(len(s) + 1))


def some_cuts(rng, s, most=8):
    """cut at some places, at times twice at one"""
    places = sorted(rng.randrange(len(s) + 1) for _ in range(rng.randrange(most)))
    return [s[at:behind] for at, behind in zip([0, *places], [*places, len(s)])]


def in_blocks(s, size):
    return [s[at:at + size] for at in range(0, len(s), size)]


# ---- rules
def rule_worked():
    """the worked row in one block, in two, byte by byte; with bytes behind it, and empty blocks; ended early, and not at all"""
    single = byte_by_byte(IMAGE)
    for ops in ([IMAGE], [IMAGE + b"\x07"], *halves(IMAGE), *halves(IMAGE + b"\x07\x08"), single, [b"", *single, b""]):
        yield blocks_line(RECORD, b"\x07", [*ops, END])
        yield blocks_line(RECORD, b"\x07", ops)
    for cut in cuts(IMAGE):
        yield blocks_line(RECORD, b"\x07", [cut, END])
        yield blocks_line(RECORD, b"\x07", [*byte_by_byte(cut), END, IMAGE])
        yield blocks_line(RECORD, b"\x07", [cut])
    # each pair of columns and each column alone, absent ones between them
    for presence in range(8):
        for nulls in range(8):
            yield blocks_line(RECORD, bytes([presence]), [*byte_by_byte(bytes([nulls]) + IMAGE[1:]), END])


def rule_tests():
    """11, 12, 20: which is told first; the least carry and one below it"""
    for record in RECORDS:
        for presence in PRESENCES:
            for carry in (0, LEAST_CARRY - 1, LEAST_CARRY, MOST_ROOM, MOST_ROOM + 1):
                yield blocks_line(record, presence, [b"\xfc\x01\x21\x00\x00", END], carry)
    for carry in (1, 512, LEAST_CARRY + 1):
        yield blocks_line(RECORD, b"\x07", [IMAGE, END], carry)


def rule_calls():
    """calls behind the end of input, behind a refusal, and behind the image's end"""
    good, bad = IMAGE, b"\xfe\x20\x1e\xff"
    dates = record_of([(DATE, 10, 0)])
    starts = ((RECORD, b"\x07", [good]), (RECORD, b"\x07", [good[:3]]), (RECORD, b"\x07", []), (RECORD, b"\x00", []),
              (dates, b"\x01", [bad]), (dates, b"\x01", [bad[:3], bad[3:]]), (dates, b"\x01", [b"\xff"]), (record_of([]), b"", []))
    for record, presence, ops in starts:
        for behind in ([], [END], [END, END], [b""], [b"", b"", END], [b"\x07", END], [END, b"\x07"], [END, b"", END], [good, END, good]):
            if ops or behind:
                yield blocks_line(record, presence, [*ops, *behind])


def rule_nulls():
    """null bits of one byte and of more, cut inside; NULLs at the end, which take no byte, and columns behind them that do"""
    for n in (1, 7, 8, 9, 17):
        record, presence = record_of([(TINY, 10, 0)] * n), b"\xff" * bytes_for(n)
        for null in ((), (n - 1,), range(n), range(n - 1), range(0, n, 2), range(1, n, 2)):
            bits = sum(1 << place for place in null)
            image = bits.to_bytes(bytes_for(n), "little") + b"\x05" * (n - len(null))
            for ops in (in_blocks(image, 2), [image[:bytes_for(n)], b"", image[bytes_for(n):]], [image[:-1]], [image[:1]]):
                yield blocks_line(record, presence, [*ops, END])
                yield blocks_line(record, presence, ops)
    # null bits that are not whole are told at 0, whichever column is the first
    for n, presence in ((3, b"\x06"), (8, b"\x80"), (17, b"\xfe\xff\x01"), (17, b"\x00\xff\x01")):
        record = record_of([(TINY, 10, 0)] * n)
        for ops in ([], [b""], [b"\x00"], [b"\xff"], [b"\xff", b"\x00"]):
            yield blocks_line(record, presence, [*ops, END])


def rule_refusals():
    """a part out of range comes with the value's last byte, whether this is there or not"""
    for column, stored in parted((0, 2), 1, 1):
        record = record_of([(Column(252, 1, 0), 8, 0), (TINY, 8, 0), (column, 8, 0), (TINY, 8, 0)])
        image = b"\xf8\x05" + stored + b"\x06"
        for ops in ([image[:-2], image[-2:]], byte_by_byte(image), [image[:-2]]):
            yield blocks_line(record, b"\x0e", [*ops, END])


class Long:
    """a value of as many bytes as there is room, more or less one; so many columns, of which it is the first or the last"""

    def __init__(self, k, present, over, carry, last=False):
        columns = [TINY] * present
        columns[-1 if last else 0] = Column(252, k, 0)
        self.record, self.presence, self.carry = record_of((column, 10, 0) for column in columns), b"\xff" * bytes_for(present), carry
        self.nulls = bytes(bytes_for(present))
        size = carry - len(self.nulls) - k + over
        self.value = size.to_bytes(k, "little") + bytes(at % 251 for at in range(size))
        others = b"\x05" * (present - 1)
        self.image = self.nulls + (others + self.value if last else self.value + others)
        self.start = len(self.nulls) + (len(others) if last else 0)
        self.k = k

    def line(self, *ops):
        return blocks_line(self.record, self.presence, ops, self.carry)


def rule_long():
    """values of one byte less than there is room, of as many and of one more: whole, cut around length bytes and end, ended early"""
    for k in (2, 3, 4):
        for present in (1, 9, 100):
            for over in (-1, 0, 1):
                given = Long(k, present, over, LEAST_CARRY + (k == 3), last=k == 4)
                s, at = given.image, given.start
                yield given.line(s, END)
                yield given.line(s[:at + k + 1], b"", s[at + k + 1:-1], s[-1:], b"\x07", END)
                yield given.line(*byte_by_byte(s[:at + k + 2]), s[at + k + 2:])
                yield given.line(*in_blocks(s, 300), END)
                yield from (given.line(s[:cut], END) for cut in (at + k - 1, at + k, at + k + 1, len(s) - 1))
                yield from (given.line(s[:cut]) for cut in (at + k, at + k + 1))
    # lengths that no block has
    for k, size in ((2, 65535), (3, 2 ** 24 - 1), (4, 2 ** 31), (4, 2 ** 32 - 1)):
        record = record_of([(Column(252, k, 0), 10, 0), (TINY, 10, 0)])
        head = b"\xfc" + size.to_bytes(k, "little")
        single = byte_by_byte(head)
        for ops in ([head], [head, b"\x01", b"\x02\x03"], [head + b"\x01\x02", END, b"\x03"], single, [*single, END]):
            yield blocks_line(record, b"\x03", ops)


def rule_wide():
    """more than 255 columns: null bits of many bytes, NULLs, a value out of range, an early end"""
    for n in TURNS:
        wide = table(n)
        presence, good, head = wide.presence(wide.all), wide.image(wide.all), bytes_for(n)
        for ops in ([good], in_blocks(good, 100), [good[:10], good[10:]], [good[:-1]], [good[:head], good[head:] + b"\x00"]):
            yield blocks_line(wide.record, presence, [*ops, END])
        for image in (wide.image(wide.all, null={255, n - 1}), wide.image(wide.all, wrong={255} & set(range(n - 1)))):
            yield blocks_line(wide.record, presence, [*in_blocks(image, 200), END])
    wide = table(MOST)
    for places in (range(250, 260), [MOST - 1]):
        image = wide.image(places)
        yield blocks_line(wide.record, wide.presence(places), [*byte_by_byte(image), END])
    nulls = wide.image(wide.all, null=wide.all)
    for ops in ([nulls[:511]], [nulls[:300], nulls[300:511], END]):
        yield blocks_line(wide.record, wide.presence(wide.all), ops)


def blocks_rules(rng):
    for rules in (rule_worked, rule_tests, rule_calls, rule_nulls, rule_refusals, rule_long, rule_wide):
        yield from rules()


# ---- edges
def blocks_edges(rng):
    """each cut in two of rows, good ones and those with a value out of range; each early end; bytes changed"""
    for n in (1, 2, 3, 5, 9, 17, 30):
        row = Row(rng, [some_column(rng) for _ in range(n)])
        for image in (row.image()[:300], row.loose_image()[:300]):
            for ops in halves(image):
                yield blocks_line(row.record, row.presence, [*ops, END])
            for cut in cuts(image):
                yield blocks_line(row.record, row.presence, [*some_cuts(rng, cut, 4), END])
            yield blocks_line(row.record, row.presence, [*byte_by_byte(image), END])
        for byte in range(0, 256, 5):
            yield blocks_line(row.record, bytes([byte]) * len(row.presence), [*some_cuts(rng, row.image()), END])
            yield blocks_line(row.record, row.presence, [*some_cuts(rng, bytes([byte]) + row.image()[1:]), END])


# ---- at random
def some_carry(rng):
    if chance(rng, 20):
        return rng.choice((0, LEAST_CARRY - 1, 20000, MOST_ROOM + 1))
    return rng.choice((LEAST_CARRY, LEAST_CARRY, LEAST_CARRY, LEAST_CARRY + 1, LEAST_CARRY + rng.randrange(300), 4096))


def long_row(rng):
    """a row with a value or two around as long as there is room"""
    columns = [some_column(rng) for _ in range(rng.randrange(1, 20))]
    row = Row(rng, columns)
    for rank, place in enumerate(row.present):
        k = values.length_bytes(row.columns[place])
        if k is not None and k > 1 and chance(rng, 2):
            row.values[rank] = "bytes", some_bytes(rng, LEAST_CARRY - len(row.nulls) - k + rng.choice((-1, 0, 1, 2, 40, 700)))
            row.nulls = bytes(byte & ~(1 << rank % 8) if at == rank // 8 else byte for at, byte in enumerate(row.nulls))
    return row


def some_ops(rng, image):
    """an image in blocks, and then its end; at times other calls among them"""
    ops = byte_by_byte(image) if len(image) < 200 and chance(rng, 6) else some_cuts(rng, image, rng.choice((2, 4, 12)))
    if not chance(rng, 4):
        ops.append(END)
    while chance(rng, 3):
        place = rng.randrange(len(ops) + 1) if chance(rng, 2) else len(ops)
        ops.insert(place, rng.choice((b"", b"", END, some_bytes(rng, rng.randrange(1, 4)))))
    return ops or [END]


@maker("blocks", blocks_edges, blocks_rules)
def blocks(rng):
    row = long_row(rng) if chance(rng, 3) else Row(rng, some_columns(rng))
    return blocks_line(*some_head(rng, row), some_ops(rng, some_image(rng, row)), some_carry(rng))
