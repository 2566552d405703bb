"""Events read and written."""
from document.bits import bytes_for
from document.packed import pack

from .maps import edge_events, event_rules, some_event, some_map
from .some import NUMBERS, chance, line, maker, some_bytes, some_number, some_room


def plain_event_rules(rng):
    for given in event_rules():
        yield line("event", *given)


def event_edges(rng):
    for _, post_header, s in edge_events(rng):
        yield line("event", post_header, s)
    for post_header in NUMBERS:
        yield line("event", post_header, bytes(20))


@maker("event", event_edges, plain_event_rules)
def event(rng):
    return line("event", *some_event(rng)[:2])


def event_parts_rules(rng):
    for given in event_rules():
        yield line("event-parts", *given)


def event_parts_edges(rng):
    for _, post_header, s in edge_events(rng):
        yield line("event-parts", post_header, s)


@maker("event-parts", event_parts_edges, event_parts_rules)
def event_parts(rng):
    return line("event-parts", *some_event(rng)[:2])


# ---- written events
def written_size(parts):
    _, _, database, table, types, metadata, bits, optional = parts
    return 12 + len(database) + len(table) + len(pack(len(types))) + len(types) + len(pack(len(metadata))) + len(metadata) + len(bits) + len(optional)


def edge_parts(rng):
    """parts of an event at the writer's bounds"""
    for table_id in (0, 2 ** 32 - 1, 2 ** 32, 2 ** 48 - 1, 2 ** 48, 2 ** 63, 2 ** 64 - 1):
        yield table_id, 1, b"d", b"t", b"\x03", b"", b"\x00", b""
    for flags in (0, 1, 255, 256, 65535, 65536):
        yield 1, flags, b"d", b"t", b"\x03", b"", b"\x00", b""
    for size in (0, 1, 254, 255, 256, 300):
        yield 1, 1, b"d" * size, b"t", b"\x03", b"", b"\x00", b"\x01"
        yield 1, 1, b"d", b"t" * size, b"\x03", b"", b"\x00", b"\x01"
        yield 1, 1, b"d", b"t", b"\x03", b"\x07" * size, b"\x00", b"\x01"
        yield 1, 1, b"d", b"t", b"\x03", b"", b"\x00", b"\x09" * size
    for n in (0, 1, 7, 8, 9, 16, 17, 249, 250, 251, 252, 255, 256, 300):
        for size in {bytes_for(n), bytes_for(n) + 1, max(0, bytes_for(n) - 1)}:
            yield 1, 1, b"d", b"t", b"\x03" * n, b"\x0a" * n, b"\xff" * size, b"\x01\x00"


def some_parts(rng):
    found = some_map(rng)
    table_id = rng.choice((rng.randrange(2 ** 48), 2 ** 48 - 1, 2 ** 48, some_number(rng) % 2 ** 48, some_number(rng)))
    name = some_bytes(rng, rng.choice((0, 1, 5))) if not chance(rng, 12) else some_bytes(rng, rng.choice((254, 255, 256)))
    bits = found.bits if not chance(rng, 8) else some_bytes(rng, rng.randrange(4))
    flags = rng.choice((0, 1, 65535, rng.randrange(65536), rng.randrange(65536)))
    return table_id, flags, name, some_bytes(rng, rng.randrange(4)), found.types, b"".join(found.metadata), bits, found.optional()


def write_event_edges(rng):
    for parts in edge_parts(rng):
        size = written_size(parts)
        for room in (size, size - 1, size + 1, 0):
            yield line("write-event", *parts, room)


def write_event_rules(rng):
    # which fault is told
    for table_id in (1, 2 ** 48):
        for database in (b"d", b"d" * 256):
            for bits in (b"\x00", b""):
                for room in (17, 500, 0):
                    yield line("write-event", table_id, 1, database, b"t", b"\x03", b"", bits, b"", room)


@maker("write-event", write_event_edges, write_event_rules)
def write_event(rng):
    parts = some_parts(rng)
    return line("write-event", *parts, some_room(rng, written_size(parts)))


def event_size_edges(rng):
    for parts in edge_parts(rng):
        yield line("event-size", *parts)


@maker("event-size", event_size_edges)
def event_size(rng):
    return line("event-size", *some_parts(rng))
