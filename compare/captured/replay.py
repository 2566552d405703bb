"""Tables as a log changes them. A value is the word that was read, or None where the log has none for it."""
import re

from .answered import UPDATES, WRITES
from .texts import plain, true_word
from .values import FEW_COLUMNS, HOUR, OLD_TIME, columns_of, entry_of, how_value, present

NO_VALUE = "values absent from the log, as an insert may leave them out"
# statements that change rows and log none of them
STATEMENTS = re.compile(r"(?:drop|truncate|rename) table `?(\w+)`?(?: to `?(\w+)`?)?", re.IGNORECASE)


class Table:
    """the rows, the record of the last map, and why the rows are not known, if so"""

    def __init__(self):
        self.rows, self.record, self.lost = [], None, ""


class Tables(dict):
    def __missing__(self, name):
        self[name] = Table()
        return self[name]

    def take(self, name, rows, record):
        """the rows as they were told"""
        self[name].record = record
        self[name].rows = [[true_word(entry_of(record, place), field, plain) for place, field in enumerate(row)] for row in rows]

    def state(self, statement):
        found = STATEMENTS.match(statement)
        if found:
            table = self.pop(found[1], None)
            if found[2]:
                self[found[2]] = table

    def change(self, told, change, got):
        """the rows of an event"""
        table = self[change.table]
        table.record = change.record
        if got.how[:2] == ["refused", "10"] and got.how[3] == HOUR and entry_of(change.record, int(got.how[2]))[0] == OLD_TIME:
            told["rows events refused 10 at a negative old TIME, for its hour"] += 1
            table.lost = "with a negative old TIME"
        elif got.how[0] != "end":
            told.differ("rows event at %d" % change.offset, change.line, " ".join(got.how), "end")
            table.lost = "that differ"
        else:
            told["rows events read to their end"] += 1
            told["rows events of more than 255 columns"] += columns_of(change.record) > FEW_COLUMNS
            told["images"] += len(got.images)
            places = [present(change.record, bits) for bits in got.sets]
            images = [dict(zip(places[rank % len(places)], values)) for rank, (_, values) in enumerate(got.images)]
            if change.code in WRITES and not places[0]:
                # a row of defaults alone takes no bytes; the server logs one in an event
                told["inserts that take no bytes, counted here as one row"] += 1
                images = [{}]
            self.apply(told, change, table, images)

    def apply(self, told, change, table, images):
        if change.code in WRITES:
            table.rows += [[image.get(place) for place in range(columns_of(change.record))] for image in images]
        elif change.code in UPDATES:
            for before, after in zip(images[::2], images[1::2]):
                row = self.find(told, change, table, before)
                row[:] = [after.get(place, value) for place, value in enumerate(row)]
        else:
            for before in images:
                table.rows.remove(self.find(told, change, table, before))

    @staticmethod
    def find(told, change, table, before):
        """the row that an image tells of"""
        for row in table.rows:
            if all(row[place] in (value, None) for place, value in before.items()):
                return row
        told.differ("row at %d" % change.offset, change.line, "none", before)
        table.rows.append([before.get(place) for place in range(columns_of(change.record))])
        return table.rows[-1]

    def judge(self, told, name, rows):
        """the table as it is, held against the rows that the server told"""
        table = self[name]
        if table.lost:
            told["tables left out at a moment, for rows events " + table.lost] += 1
        elif len(table.rows) != len(rows):
            told.differ("rows of " + name, name, len(table.rows), len(rows))
        else:
            told["tables compared at a moment"] += 1
            left = list(table.rows)
            for row in rows:
                self.judge_row(told, name, table.record, left, row)

    @staticmethod
    def judge_row(told, name, record, left, row):
        """a row that the server told: one of those left, the first where rows were only inserted"""
        trues = [true_word(entry_of(record, place), field, plain) for place, field in enumerate(row)]
        for own in left:
            hows = [NO_VALUE if word is None else how_value(entry_of(record, place), word, true) for place, (word, true) in enumerate(zip(own, trues))]
            if None not in hows:
                left.remove(own)
                told["rows at a moment equal to the server's"] += 1
                told.update(hows)
                return
        told.differ("row of " + name, name, left[0], trues)
