"""The images of the lists as they arrive: each in one block, byte by byte, cut at random, and cut in two at every place, or at some if it
is very wide."""
import random

from program import answers

from .lists import listed_images
from .values import columns_of, hex_word, unhex

LEAST_CARRY = 1024
# images of up to so many columns are cut in two at every place, wider ones, of which each reading costs the square of its columns, at so
# many places; and all are cut so often at random
EVERY, SOME, AT_RANDOM = 300, 20, 3
AT_ONCE = 20000


def cut_at(image, places):
    return [image[at:behind] for at, behind in zip([0, *places], [*places, len(image)])]


def cuttings(rng, image, at_every_place):
    """ways to cut an image; empty blocks are among them"""
    size = len(image)
    yield [image]
    yield [image[at:at + 1] for at in range(size)]
    yield from (cut_at(image, [at]) for at in (range(size + 1) if at_every_place else rng.sample(range(size + 1), SOME)))
    for _ in range(AT_RANDOM):
        yield cut_at(image, sorted(rng.randrange(size + 1) for _ in range(rng.randrange(2, 12))))


def whole(word):
    """a long value, whose parts must be all that its length says, as the bytes that it is"""
    name, _, rest = word.partition(":")
    length, _, parts = rest.partition(":")
    return "bytes:" + parts if name == "long" and len(parts) == 2 * int(length) else word


def as_image(answer):
    """an answer to `blocks` as `image` would give it: one number of bytes, and no calls behind a refusal"""
    words = [whole(word) for word in answer.split(" ")]
    if words[-3:-2] == ["end"] and words[-2] == words[-1]:
        words.pop()
    while words[-4:] == ["refused", "21", "0", "0"]:
        del words[-4:]
    return " ".join(words)


def judge(told, cut, wanted):
    for line, got, image in zip(cut, answers(cut), wanted):
        told["long values among them, in parts"] += sum(word.startswith("long:") for word in got.split(" "))
        told["ways to cut them"] += 1
        if as_image(got) != image:
            told.differ("image in blocks", line, got, image)


def images(folder, server, told):
    """every image, cut: the words are those of the whole one"""
    rng = random.Random(server)
    cases = [case for case, _ in listed_images(folder, server)]
    cut, wanted = [], []
    for case, image in zip(cases, answers(cases)):
        _, record, presence, stored = case.split(" ")
        told["images"] += 1
        at_every_place = columns_of(unhex(record)) <= EVERY
        told["images cut in two at every place"] += at_every_place
        for blocks in cuttings(rng, unhex(stored), at_every_place):
            carry = rng.choice((LEAST_CARRY, LEAST_CARRY, LEAST_CARRY + rng.randrange(2000)))
            cut.append(" ".join(["blocks", record, presence, str(carry), *map(hex_word, blocks), "end"]))
            wanted.append(image)
        if len(cut) >= AT_ONCE:
            judge(told, cut, wanted)
            cut, wanted = [], []
    judge(told, cut, wanted)
