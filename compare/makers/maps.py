"""Good maps of all column types in each dialect, maps with one fault, and their events."""
from document.bits import bytes_for
from document.check import classes
from document.columns import DIALECTS as BY_NAME, METADATA_BYTES, Column, real_type
from document.packed import pack

from .columns import TURNS, TYPES, some_metadata
from .lists import some_group, some_string
from .some import DIALECTS, NUMBERS, changes, chance, cuts, damaged, longer, some_bytes, some_number, some_pack

# types that some field counts stand more often than others
COUNTED = (1, 3, 4, 13, 15, 242, 246, 247, 248, 252, 253, 254, 255)
POST_HEADERS = (8, 8, 8, 8, 8, 6, 6, 0, 7, 255, 256, 2 ** 64 - 1)
UNTAKEN = (0, 6, 20, 21, 128, 241, 243, 244)


class Map:
    """a good map in a dialect: its columns by type byte with their metadata, nullable bits and fields"""

    def __init__(self, rng, dialect, n):
        self.rng, self.dialect = rng, dialect
        self.types = bytes(rng.choice(COUNTED if rng.random() < 0.7 else TYPES) for _ in range(n))
        pairs = [some_metadata(rng, kind) for kind in self.types]
        self.metadata = [bytes(pair[:METADATA_BYTES[kind]]) for kind, pair in zip(self.types, pairs)]
        columns = [Column(real_type(kind, m0), m0, m1) for kind, (m0, m1) in zip(self.types, pairs)]
        self.classes = classes(BY_NAME[dialect], self.types, columns)
        self.bits = some_bytes(rng, bytes_for(n))
        self.fields = []

    def fill(self):
        """some of the fields, none twice and none with its rival, in any order"""
        rng = self.rng
        kinds = [1, rng.choice((2, 3)), 4, 5, 6, 7, rng.choice((8, 9)), rng.choice((10, 11)), 12, 13]
        few = rng.sample(kinds, rng.choice((0, 1, 2, 3, 5, 8, 10)))
        self.fields = [(kind, self.contents(kind)) for kind in (few if chance(rng, 3) else sorted(few))]
        return self

    def members(self, kind):
        """the columns of the class that a field is about"""
        named = {1: "signed", 2: "charset", 3: "charset", 5: "set", 6: "enum", 7: "geometry", 10: "enum_or_set", 11: "enum_or_set", 13: "vector"}
        return getattr(self.classes, named.get(kind, "all"))

    def contents(self, kind):
        """good contents of a field"""
        rng, size = self.rng, len(self.members(kind))
        if kind in (1, 12):
            return some_bytes(rng, bytes_for(size))
        if kind in (2, 10):
            ranks = sorted(rng.sample(range(size), rng.randrange(size + 1)))
            return some_charset(rng) + b"".join(some_pack(rng, rank) + some_charset(rng) for rank in ranks)
        if kind in (8, 9):
            keys = rng.sample(range(size), rng.randrange(min(size, 8) + 1))
            return b"".join(some_pack(rng, key) + (some_pack(rng, some_number(rng)) if kind == 9 else b"") for key in keys)
        return b"".join(self.item(kind) for _ in range(size))

    def item(self, kind):
        """an item of a field that has one for each column of its class"""
        rng = self.rng
        if kind in (3, 11):
            return some_charset(rng)
        if kind == 4:
            return some_string(rng)
        if kind in (5, 6):
            return some_group(rng, rng.choice((0, 1, 2, 3)))
        return some_pack(rng, rng.randrange(8) if kind == 7 else some_number(rng))

    def bad_contents(self, kind):
        """contents that break a rule, or nearly do"""
        rng, size = self.rng, len(self.members(kind))
        good = self.contents(kind)
        if kind in (1, 12):
            return some_bytes(rng, max(0, bytes_for(size) + rng.choice((-1, 1, 2))))
        edge = some_pack(rng, rng.choice((0, 1, 65535, 65536, 2 ** 32, 2 ** 64 - 1)))
        rank = some_pack(rng, rng.choice((size, max(size - 1, 0), size + 1, 0, some_number(rng))))
        how = rng.randrange(6)
        if how == 0:
            return good + rng.choice((b"\x00", b"\x01", b"\xfb", b"\xff", b"\x05\x61", b"\xfc\x01"))
        if how == 1:
            return damaged(rng, good)
        if how == 2:
            return good[:rng.randrange(len(good) + 1)]
        if kind in (2, 10):
            default = some_charset(rng)
            return rng.choice((edge, default + rank + some_charset(rng), default + rank + edge, default + (rank + some_charset(rng)) * 2,
                               default + b"\x01\x08\x00\x08", default + b"\x00\x08\x00\x08", good + rank + some_charset(rng), default + rank))
        if kind in (8, 9):
            prefix = edge if kind == 9 else b""
            again = some_pack(rng, rng.randrange(size)) if size else b"\x00"
            return rng.choice((good + rank + prefix, rank + prefix + good, again + prefix + good + again + prefix, (again + prefix) * 2 + good, good + good))
        if kind == 7:
            edge = some_pack(rng, rng.choice((7, 8, 255, 256, 2 ** 64 - 1)))
        items = [self.item(kind) for _ in range(size)]
        if items and how == 3 and kind in (3, 7, 11):
            items[rng.randrange(size)] = edge
            return b"".join(items)
        return good + self.item(kind) if how == 4 or not size else b"".join(items[1:])

    def spoil_fields(self):
        """one fault among the fields"""
        rng = self.rng
        kind = rng.randrange(1, 14)
        how = rng.randrange(8)
        at = rng.randrange(len(self.fields) + 1)
        if how < 4:
            self.fields = [field for field in self.fields if field[0] != kind]
            self.fields.insert(min(at, len(self.fields)), (kind, self.bad_contents(kind)))
        elif how < 6 and self.fields:
            again = rng.choice(self.fields)[0]
            rival = {2: 3, 3: 2, 8: 9, 9: 8, 10: 11, 11: 10}.get(again, again) if how == 4 else again
            self.fields.insert(at, (rival, self.contents(rival)))
        elif how == 6:
            self.fields.insert(at, (rng.choice((0, 14, 15, 128, 255)), some_bytes(rng, rng.randrange(3))))
        else:
            self.fields.insert(at, (kind, self.contents(kind)))
        return self

    def spoil_columns(self):
        """one fault among types and metadata"""
        rng = self.rng
        how = rng.randrange(5)
        if not self.types or how == 0:
            self.metadata.append(rng.choice((b"\x00", b"\x04", b"\x01\x02")))
            return self
        at = rng.randrange(len(self.types))
        if how == 1:
            self.types = self.types[:at] + bytes([rng.choice(UNTAKEN) if rng.random() < 0.5 else rng.randrange(256)]) + self.types[at + 1:]
        elif how == 2:
            self.metadata[at] = self.metadata[at][1:]
        elif how == 3:
            self.metadata[at] = bytes(rng.choice(TURNS) for _ in self.metadata[at])
        else:
            self.bits = some_bytes(rng, max(0, len(self.bits) + rng.choice((-1, 1))))
        return self

    def optional(self):
        return b"".join(bytes([kind]) + some_pack(self.rng, len(value)) + value for kind, value in self.fields)

    def event(self, post_header=8):
        rng = self.rng
        head = some_bytes(rng, 6 if post_header == 6 else 8)
        for _ in range(2):
            name = some_bytes(rng, rng.choice((0, 1, 1, 2, 5)) if not chance(rng, 40) else 255)
            head += bytes([len(name)]) + name + rng.choice((b"\x00", b"\x00", b"\x00", b"\x61", b"\xff"))
        metadata = b"".join(self.metadata)
        return head + some_pack(rng, len(self.types)) + self.types + some_pack(rng, len(metadata)) + metadata + self.bits + self.optional()


def some_charset(rng):
    return some_pack(rng, rng.choice((1, 8, 33, 45, 63, 224, 250, 251, 255, 256, 65534, 65535, rng.randrange(1, 65536))))


def some_columns_count(rng):
    return rng.randrange(12) if not chance(rng, 25) else rng.choice((0, 16, 17, 64, 250, 251, 254, 255, 256, 257, 300, 900))


def some_map(rng, dialect=None):
    return Map(rng, dialect or rng.choice(DIALECTS), some_columns_count(rng)).fill()


def some_spoilt_map(rng, dialect=None):
    """most often a good map; else with a fault among the fields or the columns"""
    found = some_map(rng, dialect)
    how = rng.randrange(8)
    if how < 3:
        found.spoil_fields()
        if chance(rng, 4):
            found.spoil_fields()
    elif how == 3:
        found.spoil_columns()
    return found


def some_event(rng, dialect=None):
    """a post-header length, an event body and how many columns it has, most often good"""
    post_header = rng.choice(POST_HEADERS)
    found = some_spoilt_map(rng, dialect)
    s = found.event(post_header)
    return post_header, damaged(rng, s) if chance(rng, 5) else s, len(found.types)


def hostile_events():
    """a hostile number at the count of columns, the length of the metadata and the length of a field"""
    head = bytes(8) + b"\x01\x64\x00\x01\x74\x00"
    for number in NUMBERS:
        for form in longer(number):
            yield head + form + b"\x03" * 9
            yield head + b"\x02\x0f\x03" + form + b"\x0a" * 9
            yield head + b"\x01\x03\x00\x00\x04" + form + b"\x01\x61"


def small_maps(rng):
    """good maps that together have every field, for each dialect"""
    for dialect in DIALECTS:
        for n in (0, 1, 4, 7):
            yield Map(rng, dialect, n).fill()
        full = Map(rng, dialect, 5)
        for kinds in ((1, 2, 4, 8, 10, 12), (3, 5, 6, 7, 9, 11, 13)):
            full.fields = [(kind, full.contents(kind)) for kind in kinds]
            yield full


def edge_events(rng):
    """(dialect, post-header length, event): good ones, their cuts and changes, hostile counts"""
    for found in small_maps(rng):
        for post_header in (8, 6):
            s = found.event(post_header)
            yield found.dialect, post_header, s
            for cut in cuts(s):
                yield found.dialect, post_header, cut
        if len(s) < 90:
            for changed in changes(s):
                yield found.dialect, 6, changed
    for s in hostile_events():
        yield "document", 8, s


# the event that document 01 works through
WORKED = bytes.fromhex("2a0000000000010001740001720003030f0102140002010140")


def event_rules():
    """(post-header length, event): each part cut short, and 251 and 255 at both packed integers"""
    for post_header in (8, 6):
        for cut in (*cuts(WORKED), WORKED):
            yield post_header, cut
    for at in (14, 18):
        for first in range(250, 256):
            yield 8, WORKED[:at] + bytes([first]) + WORKED[at + 1:]
    for post_header in (0, 4, 5, 7, 10, 255, 256, 262, 2 ** 64 - 1):
        yield post_header, WORKED


# ---- events by their parts
# a table with columns of every class, as type bytes and metadata: INT, VARCHAR, CHAR that is an ENUM, SET, geometry, vector, YEAR, BLOB, DECIMAL
RULED_TYPES = bytes([3, 15, 254, 248, 255, 242, 13, 252, 246])
RULED_METADATA = bytes([20, 0, 247, 1, 248, 1, 4, 4, 2, 10, 2])


def ruled_classes(dialect):
    columns, at = [], 0
    for kind in RULED_TYPES:
        m0, m1 = (*RULED_METADATA[at:at + METADATA_BYTES[kind]], 0, 0)[:2]
        columns.append(Column(real_type(kind, m0), m0, m1))
        at += METADATA_BYTES[kind]
    return classes(BY_NAME[dialect], RULED_TYPES, columns)


def packs(*numbers):
    return b"".join(map(pack, numbers))


def field_bytes(kind, contents):
    return bytes([kind]) + pack(len(contents)) + contents


def event_of(types, metadata, optional=b""):
    return bytes(8) + b"\x01\x64\x00\x01\x74\x00" + pack(len(types)) + types + pack(len(metadata)) + metadata + b"\x52" * bytes_for(len(types)) + optional
