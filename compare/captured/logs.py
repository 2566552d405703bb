"""Whole log files, LOG.NNNNNN for a server, and the truth that stands beside them in truth/LOG/: what the server's tables held at named offsets.

A file is cut here into events, without their headers and checksums. The rows events are read under the record of the last map with their id."""
import os
import re
from typing import NamedTuple, Optional

from program import answers

from .answered import TOGETHER, answered, check_line, rows_line, table_id, why_refused
from .replay import Tables
from .told import lines

MAGIC, HEADER, CHECKSUM = b"\xfebin", 19, 4
QUERY, FORMAT_DESCRIPTION, TABLE_MAP, START_ENCRYPTION = 2, 15, 19, 164
# events that hold rows, or statements, and are not read
PACKED = {40: "compressed transactions, code 40", 165: "compressed statements, code 165"}
UNREAD = {39: "of code 39, partial updates", 166: "of code 166, compressed", 167: "of code 167, compressed", 168: "of code 168, compressed"}
LONGEST_LINE = 262144


class Event(NamedTuple):
    offset: int
    code: int
    body: bytes


class Change(NamedTuple):
    """what an event does to a table: rows under the record of a map, with the line that asks for them or why they are not read; or a statement"""
    offset: int
    code: int
    table: str = ""
    record: Optional[bytes] = None
    line: str = ""
    why: str = ""
    statement: str = ""


def events(s):
    """every event of a file"""
    at, checksum = len(MAGIC), 0
    while at < len(s):
        code, size = s[at + 4], int.from_bytes(s[at + 9:at + 13], "little")
        body = s[at + HEADER:at + size]
        if code == FORMAT_DESCRIPTION:
            # it ends with the kind of checksum, 0 for none, and has a checksum of its own whatever the kind
            checksum = CHECKSUM if body[-CHECKSUM - 1] else 0
        yield Event(at, code, body[:len(body) - checksum])
        if code == START_ENCRYPTION:
            return
        at += size


def table_of(of_map):
    """the name of the map's table"""
    start = 8 + 1 + of_map[8] + 1
    return of_map[start + 1:start + 1 + of_map[start]].decode()


def statement_of(query):
    """the text of a statement: behind 13 bytes, the status variables, and the database with a zero byte"""
    return query[13 + int.from_bytes(query[11:13], "little") + query[8] + 1:].decode("latin-1")


def rows_change(told, event, of_map, checked):
    """what a rows event changes, its map having been checked"""
    change = Change(event.offset, event.code, table_of(of_map))
    if event.code in UNREAD:
        return change._replace(why=UNREAD[event.code])
    if checked.startswith("refused"):
        return change._replace(why="of maps " + why_refused(told, of_map, checked))
    record = bytes.fromhex(checked[3:])
    line = rows_line(event.code, record, of_map, event.body)
    if len(line) > LONGEST_LINE:
        return change._replace(why="longer than a line may be")
    return change._replace(record=record, line=line)


def changes(server, found, told):
    """what the events of a file change, in order; maps stay, by their id, and are checked in the server's dialect"""
    bodies = list(dict.fromkeys(event.body for event in found if event.code == TABLE_MAP))
    checked = dict(zip(bodies, answers([check_line(server, of_map) for of_map in bodies])))
    maps = {}
    for event in found:
        if event.code == TABLE_MAP:
            maps[table_id(event.body)] = event.body
            told["maps"] += 1
        elif event.code == QUERY:
            yield Change(event.offset, QUERY, statement=statement_of(event.body))
        elif event.code in PACKED:
            told["events that are not read: " + PACKED[event.code]] += 1
        elif event.code in TOGETHER or event.code in UNREAD:
            of_map = maps[table_id(event.body)]
            yield rows_change(told, event, of_map, checked[of_map])


class Moment(NamedTuple):
    name: str
    offset: int
    how: str
    tables: list


def moments(truth, file):
    """the moments in a file, in order"""
    found = []
    for line in lines(os.path.join(truth, "moments.tsv")):
        name, own, offset, how, tables, _ = line.split("\t")
        if own == file:
            found.append(Moment(name, int(offset), how, tables.split(" ")))
    return sorted(found, key=lambda moment: moment.offset)


FIELD = re.compile(rb"((?:[^\t\n\\]|\\.)*)([\t\n])", re.DOTALL)


def rows_told(path):
    """the rows of a table as the server told them, NULL as None: behind a backslash a byte stands for itself, but the digit 0 for a zero byte"""
    rows, row = [], []
    with open(path, "rb") as f:
        for field, end in FIELD.findall(f.read()):
            row.append(None if field == b"\\N" else re.sub(rb"\\(.)", lambda found: b"\0" if found[1] == b"0" else found[1], field, flags=re.DOTALL))
            if end == b"\n":
                rows.append(row)
                row = []
    return rows


def judge_moment(told, tables, moment, truth, later):
    """the tables as they are, held against the server's; some are only taken as told"""
    for name in moment.tables:
        rows = rows_told(os.path.join(truth, "%s.%s.tsv" % (name, moment.name)))
        if moment.how == "unread":
            told["tables left out at a moment, for no readable rows event tells of their rows"] += 1
        elif moment.how == "new":
            # a statement changed the columns; the rows are taken as they came out, under the next map
            tables.take(name, rows, next(change.record for change in later if change.table == name))
        elif moment.how == "union":
            for own in sorted({row[0] for row in rows}):
                tables.judge(told, own.decode(), [row[1:] for row in rows if row[0] == own])
        else:
            tables.judge(told, name, rows)


def read_file(server, path, truth, tables, told):
    with open(path, "rb") as f:
        s = f.read()
    found = list(events(s)) if s.startswith(MAGIC) else []
    told["log files"] += 1
    told["log files, encrypted"] += not found or found[-1].code == START_ENCRYPTION
    changed = list(changes(server, found, told))
    got = iter(answers([change.line for change in changed if change.line]))
    due = moments(truth, os.path.basename(path))
    for at, change in enumerate(changed):
        while due and due[0].offset <= change.offset:
            judge_moment(told, tables, due.pop(0), truth, changed[at:])
        if change.code == QUERY:
            tables.state(change.statement)
        elif change.why:
            told["rows events %s, not read" % change.why] += 1
            tables[change.table].lost = change.why
        else:
            told["rows events"] += 1
            tables.change(told, change, answered(next(got)))
    for moment in due:
        judge_moment(told, tables, moment, truth, [])


def logs(folder, server, told):
    folder = os.path.join(folder, server)
    tables = {}
    for name in sorted(name for name in os.listdir(folder) if re.fullmatch(r"\w+\.\d{6}", name)):
        log = name.partition(".")[0]
        # a file goes on from the one before it
        read_file(server, os.path.join(folder, name), os.path.join(folder, "truth", log), tables.setdefault(log, Tables()), told)
