"""Packed integers."""
from .some import HOSTILE, NUMBERS, line, longer, maker, near, some_bytes, some_number, some_pack, some_room

FORMS = [form + b"\x01\x02" for number in NUMBERS for form in longer(number)]


def packed_edges(rng):
    for first in range(256):
        for size in (0, 1, 2, 3, 7, 8, 9):
            yield line("packed", bytes([first]) + some_bytes(rng, size), 0)
    for form in FORMS:
        for at in (0, 1, len(form) - 1, len(form), len(form) + 1):
            yield line("packed", form, at)
    for at in NUMBERS:
        yield line("packed", b"", at)
        yield line("packed", b"\x07" * 9, at)


@maker("packed", packed_edges)
def packed(rng):
    before = some_bytes(rng, rng.randrange(4))
    form = some_pack(rng, some_number(rng)) if rng.random() < 0.6 else bytes([rng.choice(HOSTILE)]) + some_bytes(rng, rng.randrange(10))
    if rng.random() < 0.3:
        form = form[:rng.randrange(len(form) + 1)]
    return line("packed", before + form + some_bytes(rng, rng.randrange(2)), near(rng, len(before)))


def pack_edges(rng):
    for number in NUMBERS:
        for room in (*range(11), 262144, 262145):
            yield line("pack", number, room)


@maker("pack", pack_edges)
def pack(rng):
    number = some_number(rng)
    return line("pack", number, some_room(rng, 1 if number < 251 else 3 if number < 65536 else 9))
