"""Lists of optional fields, and names of columns."""
from document.lists import walk
from document.lines import KINDS
from document.refusal import Refused

from .some import NUMBERS, changes, chance, cuts, damaged, line, longer, maker, near, some_bytes, some_number, some_pack

LISTS = ("integers", "pairs", "charsets", "strings", "groups")


def some_integer(rng):
    return some_pack(rng, rng.choice((rng.randrange(12), rng.randrange(300), some_number(rng))))


def some_string(rng):
    size = rng.choice((0, 1, 2, 3, 6)) if not chance(rng, 30) else rng.choice((250, 251, 300))
    return some_pack(rng, size) + some_bytes(rng, size)


def some_group(rng, strings=None):
    count = rng.randrange(5) if strings is None else strings
    return some_pack(rng, count) + b"".join(some_string(rng) for _ in range(count))


ITEMS = {"integers": some_integer, "pairs": lambda rng: some_integer(rng) + some_integer(rng), "strings": some_string, "groups": some_group}


def some_list(rng, kind):
    if kind == "charsets":
        return some_integer(rng) + some_list(rng, "pairs")
    return b"".join(ITEMS[kind](rng) for _ in range(rng.randrange(7)))


def hostile_list(rng):
    """a count or length that no bytes can carry, behind a good item or none"""
    hostile = rng.choice(list(longer(rng.choice(NUMBERS))))
    return rng.choice((b"", b"\x01", b"\x01\x01\x61", b"\x02\x00\x00")) + hostile + rng.choice((b"", b"\x00", b"\x01\x61", b"\x00" * 9))


def some_items(rng, kind):
    how = rng.randrange(8)
    if how == 0:
        return hostile_list(rng)
    if how == 1:
        return some_bytes(rng, rng.randrange(8))
    good = some_list(rng, kind)
    return damaged(rng, good) if how < 4 else good


def list_edges_of(rng, kind):
    for count in range(4):
        good = b"".join(some_list(rng, kind) for _ in range(count))
        yield good
        yield from cuts(good)
        if len(good) < 40:
            yield from changes(good)
    for number in NUMBERS:
        for form in longer(number):
            for behind in (b"", b"\x00", b"\x01\x61", b"\x00" * 9):
                yield form + behind
    for first in range(256):
        yield bytes([first])


def list_edges(rng):
    for kind in LISTS:
        for s in list_edges_of(rng, kind):
            yield line("list", kind, s)


@maker("list", list_edges)
def list_of(rng):
    kind = rng.choice(LISTS)
    return line("list", kind, some_items(rng, kind))


def places(kind, s):
    """where the items of a list start, as far as it is good"""
    found = []
    try:
        for _, at in walk(KINDS[kind][0], s):
            found.append(at)
    except Refused:
        pass
    return [*found, len(s)]


def item_edges(rng):
    for kind in LISTS:
        for s in (b"", b"\x01", some_list(rng, kind), hostile_list(rng)):
            for at in (*range(len(s) + 3), *NUMBERS):
                yield line("item", kind, s, at)
        for s in list_edges_of(rng, kind):
            yield line("item", kind, s, 0)


@maker("item", item_edges)
def item(rng):
    kind = rng.choice(LISTS if chance(rng, 10) else LISTS[:2] + LISTS[3:])
    s = some_items(rng, kind)
    return line("item", kind, s, near(rng, rng.choice(places(kind, s)) if kind in KINDS else 0))


def name_edges(rng):
    lists = (b"", b"\x00", b"\x01\x61", b"\x01\x61\x00\x02\x62\x63", b"\xfb", b"\x01\x61\xff", b"\x02\x61", b"\xfc\x01\x00\x61", b"\xfe" + b"\xff" * 8)
    for names in lists:
        for operator in lists:
            for column in (0, 1, 2, 3, 4):
                yield line("name", names, operator, column)
        for column in NUMBERS:
            yield line("name", names, b"", column)


@maker("name", name_edges)
def name(rng):
    names = rng.choice((b"", some_items(rng, "strings"), some_list(rng, "strings")))
    operator = rng.choice((b"", some_items(rng, "strings"), some_list(rng, "strings")))
    return line("name", names, operator, near(rng, rng.randrange(max(1, len(places("strings", names or operator))))))
