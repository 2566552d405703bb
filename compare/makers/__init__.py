"""Makers of cases: for each kind of line its rules, each at its bound and one past it; its edges, which are many; and lines at random. Most go deep: good
maps, valid records, images that are nearly right.

`numbers`, `values`, `lists`, `events`, `fields`, `checks`, `rows`, `rows_events` and `blocks` have a maker for each kind, `malformed` makes lines that are
`bad`; `some`, `columns` and `maps` are what they share. `wide` has the rules of all kinds for more than 255 columns.
"""
from .some import MAKERS
from . import numbers, values, lists, events, fields, checks, rows, rows_events, blocks, malformed  # noqa: F401

__all__ = ["MAKERS", "made"]


def drawn(rng, lines, most):
    """all lines, or some of them if there are too many"""
    lines = list(dict.fromkeys(lines))
    return [lines[at] for at in sorted(rng.sample(range(len(lines)), min(len(lines), most)))]


def made(rng, kind, count):
    """so many lines of a kind: up to half of them rules, up to a quarter edges, the others at random, and one of 32 of these malformed"""
    rules, edges, some = MAKERS[kind]
    first = drawn(rng, rules(rng), (count + 1) // 2)
    then = drawn(rng, edges(rng), count // 4)
    yield from first
    yield from then
    for _ in range(count - len(first) - len(then)):
        line = some(rng)
        yield malformed.spoilt(rng, line) if rng.randrange(32) == 0 else line
