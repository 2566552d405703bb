"""Images as they arrive: blocks, and then the end of input."""
from .bits import low_first
from .image import Head
from .refusal import Refused
from .values import NULL, length_bytes, read_value

LEAST_CARRY = 1024


class Arriving:
    """an image of which blocks are given, with a carry of so many bytes"""

    def __init__(self, record, presence, carry):
        self.head = Head(record, presence)
        # "20 if the carry buffer is under 1,024 bytes, tested after 11 and 12"
        if carry < LEAST_CARRY:
            raise Refused(20, 0)
        self.room = carry - self.head.null_bytes
        self.taken = b""                      # what all calls took
        self.offset = self.head.null_bytes    # where what is next stands
        self.rank = 0                         # the present column that is next
        self.left = 0                         # bytes that are to come of a long value, which stands before that column
        self.is_closed = False

    def give(self, block, told):
        """a block, given until `More` or `End`: whether it is the end. What it tells is put to `told`: values, and of a long one
        ("long", length) and ("part", bytes)"""
        self.judge()
        try:
            return self.tell(self.taken + block, told)
        except Refused:
            self.is_closed = True
            raise

    def judge(self):
        # "21 for any call after the end call or a refusal"
        if self.is_closed:
            raise Refused(21, 0)

    def tell(self, s, told):
        while len(s) >= self.head.null_bytes:
            if self.left:
                part = s[self.offset:self.offset + self.left]
                if not part:
                    break
                told.append(("part", part))
                self.offset += len(part)
                self.left -= len(part)
            elif self.rank == len(self.head.present):
                # "Bytes behind a finished image stay unread."
                self.taken = s[:self.offset]
                return True
            elif low_first(s, self.rank):
                told.append(NULL)
                self.rank += 1
            elif (found := self.next(s)) is None:
                break
            else:
                told.append(found)
                self.rank += 1
        self.taken = s
        return False

    def next(self, s):
        """the next value, or that it is long; None if its bytes are not all there"""
        place = self.head.present[self.rank]
        column = self.head.columns[place]
        k = length_bytes(column)
        if k is not None and len(s) - self.offset >= k:
            length = int.from_bytes(s[self.offset:self.offset + k], "little")
            # "A value whose stored size exceeds the room behind the null bits"
            if k + length > self.room:
                self.offset += k
                self.left = length
                return "long", length
        try:
            value, self.offset = read_value(column, s, self.offset, place)
        except Refused as refusal:
            # "The end of input is told by its own call; only that call can give 9."
            if refusal.number == 9:
                return None
            raise
        return value

    def end(self):
        """the bytes used"""
        self.judge()
        self.is_closed = True
        if len(self.taken) < self.head.null_bytes:
            raise Refused(9, 0)
        if self.left:
            raise Refused(9, self.head.present[self.rank - 1])
        for rank in range(self.rank, len(self.head.present)):
            if not low_first(self.taken, rank):
                raise Refused(9, self.head.present[rank])
        return self.offset
