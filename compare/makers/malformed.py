"""Lines that are malformed, or nearly: the answer to most is `bad`."""
from .some import MAKERS, TWO64, maker, some_bytes

# words that stand for others, each one malformed in some place or in all
WORDS = (
    "", "-", "--", "-1", "+1", "0", "00", "1", "255", "256", "65535", "65536", "262144", "262145", "0x1", "1.0", "1e3", "a", "0a", "0A", "aA", "g0", "abc",
    "\xb2", "\xff", "\x00", "1\r", "\t1", "00000000000000000001", "000000000000000000001", "99999999999999999999", "100000000000000000000",
    str(TWO64 - 1), str(TWO64), "null", "nul", "NULL", "null:", "int", "int:", "int:-", "int:-0", "int:+1", "int:--1", "int:1:2", "int:0000000000000000001", "int:00000000000000000001",
    "int:9223372036854775807", "int:9223372036854775808", "int:-9223372036854775808", "int:-9223372036854775809",
    "uint:-0", "uint:%d" % (TWO64 - 1), "uint:%d" % TWO64, "float:4294967295", "float:4294967296", "double:%d" % (TWO64 - 1), "double:%d" % TWO64,
    "seconds:1", "seconds:4294967295:4294967295", "seconds:4294967296:0", "seconds:0:4294967296", "year:65535", "year:65536", "year:-1",
    "date:1:2", "date:1:2:3:4", "date:65535:255:255", "date:65536:0:0", "date:0:256:0", "date:0:0:256",
    "datetime:1:2:3:4:5:6", "datetime:65535:255:255:255:255:255:4294967295", "datetime:0:0:0:0:0:0:4294967296", "datetime:0:0:0:0:0:256:0",
    "time:+:1:2:3", "time:1:2:3:4", "time:*:1:2:3:4", "time::1:2:3:4", "time:-:65535:255:255:4294967295", "time:+:65536:0:0:0", "time:+:0:256:0:0",
    "time:+:0:0:256:0", "time:+:0:0:0:4294967296", "bytes", "bytes:", "bytes:-", "bytes:0", "bytes:00:00", "bytes:0G",
    "document", "mysql", "mariadb", "Mysql", "integers", "pairs", "charsets", "strings", "groups", "integer",
)
NAMES = ("", "packe", "packedx", "PACKED", "cases", "nothing", "bad", "ok", "-", "0")
LONGEST = 262144


def upper(text):
    """with the letters of ASCII alone in upper case, as another may have no such byte"""
    return text.encode("latin-1").upper().decode("latin-1")


def spoilt(rng, good):
    """a line with one thing changed that most often makes it malformed"""
    words = good.split(" ")
    at = rng.randrange(len(words))
    how = rng.randrange(10)
    if how < 4:
        words[at] = rng.choice(WORDS) if at else rng.choice(NAMES)
    elif how == 4:
        del words[at]
    elif how == 5:
        words.insert(at, rng.choice(WORDS))
    elif how == 6:
        words[at] += rng.choice((" ", "\t", "\r", "0", "f", ":", ":0", "\x00", "\xe9"))
    elif how == 7:
        words[at] = rng.choice((" ", "\t", "0", "+", "-", "f")) + words[at]
    elif how == 8:
        words[at] = upper(words[at])
    else:
        words[at] = words[at][:-1]
    return " ".join(words)


def bad_rules(rng):
    """each word where a word of its sort stands"""
    for word in WORDS:
        if ":" in word or word.startswith("n"):
            yield "store 8 0 0 0 %s 9" % word
        else:
            yield from (place % word for place in ("packed %s 0", "packed 07 %s", "pack 7 %s", "value 1 0 0 %s 07", "write-event 1 %s - - - - - - 99", "list %s 07"))
    yield from ("", " ", "packed", "packed ", "packed 07", "packed 07 0 ", " packed 07 0", "packed  07 0", "packed 07 0 0", "packed\t07 0")
    yield from ("packed 07 0\r", "Packed 07 0", "check-as Mysql 8 00 9", "check-as mysql 8 00 9")


def bad_edges(rng):
    yield from ("", " ", "\r", "-", "\x00", "\xff\xfe")
    goods = [MAKERS[kind][2](rng) for kind in MAKERS if kind != "bad" for _ in range(2)]
    for good in goods:
        words = good.split(" ")
        if len(good) > 2000:
            continue
        yield from (words[0], words[0] + " ", " " + good, good + " ", good + "\r", good + " 0", good.upper())
        yield from (good.replace(" ", "  ", 1), good.replace(" ", "\t", 1))
        for at in range(len(words)):
            yield " ".join(words[:at])
            yield " ".join(words[:at] + words[at + 1:])
            for word in WORDS:
                yield " ".join(words[:at] + [word] + words[at + 1:])
    # the longest line that is read, and one longer
    for size in (LONGEST - 1, LONGEST, LONGEST + 1, LONGEST + 2):
        yield "packed 07 0".ljust(size, "0")
        yield "packed " + "07" * ((size - 9) // 2) + " 0"
        yield "packed 07 " + "0" * (size - 10)


@maker("bad", bad_edges, bad_rules)
def bad(rng):
    if rng.randrange(20) == 0:
        return some_bytes(rng, rng.randrange(12)).decode("latin-1").replace("\n", " ")
    kind = rng.choice([kind for kind in MAKERS if kind != "bad"])
    line = MAKERS[kind][2](rng)
    return spoilt(rng, spoilt(rng, line) if rng.randrange(8) == 0 else line)
