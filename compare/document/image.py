"""Row images, read and written."""
from bisect import bisect_left

from .bits import bytes_for, low_first
from .record import read_record
from .refusal import Refused, fits
from .values import NULL, most_size, read_value, stored_value


class Head:
    """a record and its presence bits, tested: 11, then 12"""
    # "null bits, one per present column, both lowest first, padded to a byte; then each present, non-null value"

    def __init__(self, record, presence):
        self.columns = read_record(record)
        if len(presence) != bytes_for(len(self.columns)):
            raise Refused(12, 0)
        self.present = [place for place in range(len(self.columns)) if low_first(presence, place)]
        self.null_bytes = bytes_for(len(self.present))

    def first(self):
        # "The first cursor is column 0, offset ceil(p/8), p the number of present columns" (R18)
        return 0, self.null_bytes

    def rank(self, column):
        """the rank of the first present column at or after a cursor's"""
        # "a column above n is 14"
        if column > len(self.columns):
            raise Refused(14, column)
        return bisect_left(self.present, column)

    def step(self, image, column, offset):
        """one step: (column, value, next column, next offset), or None at the end (R17)"""
        rank = self.rank(column)
        if len(image) < self.null_bytes:
            raise Refused(9, 0)
        if offset > len(image):
            raise Refused(9, column)
        if rank == len(self.present):
            return None
        place = self.present[rank]
        if low_first(image, rank):
            return place, NULL, place + 1, offset
        value, behind = read_value(self.columns[place], image, offset, place)
        return place, value, place + 1, behind

    def walk(self, image):
        """the value of each present column, with the offset behind it"""
        column, offset = self.first()
        while (found := self.step(image, column, offset)) is not None:
            _, value, column, offset = found
            yield value, offset

    def room(self):
        """the most bytes that an image can take"""
        # "null bits plus each present column's largest stored size" (request 8)
        return self.null_bytes + sum(most_size(self.columns[place]) for place in self.present)

    def judge_nulls(self, nulls):
        if len(nulls) != self.null_bytes:
            raise Refused(12, 0)

    def start(self, nulls, room):
        """the null bits as the writer stores them"""
        self.judge_nulls(nulls)
        # "Spare bits are ignored; the writer sets them."
        spare = -len(self.present) % 8
        filled = int.from_bytes(nulls, "little") | (2 ** spare - 1) << len(self.present)
        return fits(filled.to_bytes(len(nulls), "little"), room)

    def put(self, nulls, value, column, offset, room):
        """one step of the writer: (bytes stored at the offset, next column) (R19)"""
        self.judge_nulls(nulls)
        rank = self.rank(column)
        if rank == len(self.present):
            raise Refused(14, column)
        place = self.present[rank]
        # "13 where value and bit disagree on it"
        if low_first(nulls, rank) != (value == NULL):
            raise Refused(13, place)
        stored = b"" if value == NULL else stored_value(self.columns[place], value, place)
        if offset + len(stored) > room:
            raise Refused(8, 0)
        return stored, place + 1

    def row(self, nulls, values, room):
        """a whole image, through the start and a step for each value"""
        image = self.start(nulls, room)
        column = 0
        for value in values:
            stored, column = self.put(nulls, value, column, len(image), room)
            image += stored
        return image
