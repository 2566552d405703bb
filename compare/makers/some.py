"""What the makers share: lines, bytes, numbers, damage."""
from document.lines import hexed, value_word
from document.packed import BEHIND, pack

# kind -> (its rules, its edges, a line at random): each is given the random numbers; the first two yield lines, the third answers one
MAKERS = {}

HOSTILE = (0, 1, 2, 5, 6, 7, 8, 12, 13, 14, 59, 60, 63, 99, 100, 127, 128, 250, 251, 252, 253, 254, 255)
TWO64 = 2 ** 64
TURNS = (0, 8, 250, 255, 2 ** 16, 2 ** 24, 2 ** 31, 2 ** 32, 2 ** 47, 2 ** 48, 2 ** 63, TWO64)
NUMBERS = sorted({turn + d for turn in TURNS for d in (-2, -1, 0, 1, 2) if 0 <= turn + d < TWO64})
MOST_ROOM = 262144
DIALECTS = ("document", "mysql", "mariadb")


def no_lines(rng):
    return ()


def maker(kind, edges, rules=no_lines):
    """enters the maker of lines at random, with its edges and rules"""
    def add(some):
        MAKERS[kind] = rules, edges, some
        return some
    return add


def line(kind, *words):
    def text(word):
        if isinstance(word, tuple):
            return value_word(word)
        if isinstance(word, bytes):
            return hexed(word)
        return word if isinstance(word, str) else "%d" % word
    return " ".join([kind, *map(text, words)])


def chance(rng, one_of):
    return rng.randrange(one_of) == 0


def some_bytes(rng, size):
    return bytes(rng.choice(HOSTILE) if rng.random() < 0.4 else rng.randrange(256) for _ in range(size))


def some_number(rng):
    return rng.choice(NUMBERS) if rng.random() < 0.5 else rng.randrange(2 ** rng.randrange(1, 65))


def near(rng, number):
    """a number, or one near it, or a hostile one"""
    return rng.choice((number, number, number, number + 1, max(number - 1, 0), number + 2, 0, some_number(rng))) % TWO64


def some_room(rng, size):
    """a room for so many bytes: most often enough, at times one too few"""
    less = max(size - 1, 0)
    return rng.choice((size, size, size + 1, size + 2, size + 20, less, less, max(size - 2, 0), 0, rng.randrange(size + 1), MOST_ROOM, MOST_ROOM + 1))


def longer(value):
    """every form of a packed integer"""
    yield pack(value)
    for first, size in BEHIND.items():
        if size + 1 > len(pack(value)):
            yield bytes([first]) + value.to_bytes(size, "little")


def some_pack(rng, value):
    """a packed integer, at times in a longer form than needed"""
    return rng.choice(list(longer(value))) if chance(rng, 6) else pack(value)


def cuts(s):
    """every cut"""
    return (s[:size] for size in range(len(s)))


def changes(s):
    """every byte changed, to each of some"""
    for at in range(len(s)):
        for byte in {0, 1, 250, 251, 252, 254, 255, (s[at] + 1) % 256, (s[at] - 1) % 256, s[at] ^ 128} - {s[at]}:
            yield s[:at] + bytes([byte]) + s[at + 1:]


def damaged(rng, s):
    """a copy with a byte changed, dropped or added, or cut short"""
    bad = bytearray(s)
    for _ in range(rng.choice((1, 1, 1, 2))):
        at = rng.randrange(len(bad) + 1)
        how = rng.randrange(5)
        if how == 0 and at < len(bad):
            bad[at] = rng.choice(HOSTILE)
        elif how == 1 and at < len(bad):
            bad[at] ^= 1 << rng.randrange(8)
        elif how == 2 and at < len(bad):
            bad[at] = (bad[at] + rng.choice((1, 255))) % 256
        elif how == 3:
            bad[at:at] = some_bytes(rng, 1)
        else:
            del bad[at:at + rng.choice((1, 1, 2, len(bad)))]
    return bytes(bad)
