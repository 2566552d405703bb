#!/usr/bin/env python3
"""places.py [--list] [POINT..]: the places in crates/*/src that read like the older language, counted by the points of docs/DESIGN-PASS.md.

  1  enums of the shape of Option or Result (a variant Refused; or two variants, one of which holds something; or three, of which one
     holds something and one nothing), and files that give numbers to kinds by three constants or more
  2  functions of one crate whose code is the same but for names, types and numbers (twelve words of code at least), in groups
  3  `while` and `loop`
  4  functions that are one `match` to true and false, or turn an enum into a number or a number into an enum by cases
  5  conditions that stand in three functions of a crate or more, and three parameters or more that three functions have in a row
  6  structs with an array and a length beside it
  7  functions of one `match` or chain of tests on a number, whose cases call different functions
  8  answers that proofs give by hand: goals in proofs/**/Answers.antt

It reads text and knows no types; what it finds is a place to look at.
"""
import os
import re
import sys
from collections import Counter, defaultdict

ROOT = os.path.dirname(os.path.dirname(os.path.abspath(__file__)))
KEYWORDS = set("as break const continue else enum false fn for if impl in let loop match mut pub ref return self Self static struct true "
               "type use where while Ok Err Some None".split())


def crates():
    top = os.path.join(ROOT, "crates")
    return sorted(name for name in os.listdir(top) if os.path.isdir(os.path.join(top, name, "src")))


def sources(crate):
    top = os.path.join(ROOT, "crates", crate, "src")
    for name in sorted(os.listdir(top)):
        if name.endswith(".rt"):
            with open(os.path.join(top, name), encoding="utf-8") as file:
                yield f"crates/{crate}/src/{name}", file.read()


def plain(text):
    """The text with comments blanked, line by line."""
    return re.sub(r"//[^\n]*", "", text)


def enums(text):
    """Name, line and variants (name, whether it holds something) of each enum."""
    for met in re.finditer(r"^(?:pub(?:\(crate\))? )?enum (\w+)[^{]*\{\n(.*?)^\}", text, re.M | re.S):
        body = re.sub(r"\{[^{}]*\}", "{}", met.group(2))
        body = re.sub(r"\([^()]*\)", "()", body)
        variants = [(name, bool(holds)) for name, holds in re.findall(r"^\s*(\w+)\s*(\{\}|\(\))?\s*(?:= \d+)?,", body, re.M)]
        yield met.group(1), text.count("\n", 0, met.start()) + 1, variants


def functions(text):
    """Name, line, parameters, clauses and body of each function."""
    lines = text.split("\n")
    at = 0
    while at < len(lines):
        met = re.match(r"( *)(?:pub(?:\(crate\))? )?(?:final )?(?:const )?fn (\w+)", lines[at])
        if not met:
            at += 1
            continue
        end = at
        while end < len(lines) and lines[end] != met.group(1) + "}" and not (lines[end].rstrip().endswith(";") and end == at):
            end += 1
        block = lines[at:end + 1]
        start = next((i for i, line in enumerate(block) if line == met.group(1) + "{" or (line.endswith("{") and not re.match(r"\s*(requires|ensures)", line) and i >= 0 and "ensures" not in line)), 0)
        head = "\n".join(block[:start + 1])
        body = "\n".join(block[start + 1:])
        yield met.group(2), at + 1, head, body
        at = end + 1


def shape(body):
    words = re.findall(r"[A-Za-z_]\w*|\d[\d_xa-fA-F]*|[^\s\w]", body)
    names = {}
    said = []
    for word in words:
        if re.match(r"\d", word):
            said.append("0")
        elif re.match(r"[A-Za-z_]", word) and word not in KEYWORDS:
            said.append("n%d" % names.setdefault(word, len(names)))
        else:
            said.append(word)
    return tuple(said)


def point1():
    for crate in crates():
        for path, text in sources(crate):
            text = plain(text)
            for name, line, variants in enums(text):
                empty = [held for _, held in variants if not held]
                held = len(variants) - len(empty)
                if any(v == "Refused" for v, _ in variants) or held and (len(variants) == 2 or len(variants) == 3 and empty):
                    yield path, line, "enum " + name
            kinds = re.findall(r"^(?:pub(?:\(crate\))? )?const ([A-Z]\w*): (?:u8|u16|u64|usize) = \d+;", text, re.M)
            if len(kinds) >= 3:
                yield path, 0, f"{len(kinds)} numbers: {kinds[0]} .."


def point2():
    for crate in crates():
        met = defaultdict(list)
        for path, text in sources(crate):
            for name, line, head, body in functions(plain(text)):
                words = shape(body)
                if len(words) >= 12:
                    met[words].append(f"{name} ({path}:{line})")
        for places in met.values():
            if len(places) > 1:
                yield f"crates/{crate}", 0, ", ".join(places)


def point3():
    for crate in crates():
        for path, text in sources(crate):
            for number, line in enumerate(plain(text).split("\n"), 1):
                if re.match(r"\s*(?:'\w+: )?(?:while |loop \{)", line):
                    yield path, number, line.strip()


def point4():
    for crate in crates():
        for path, text in sources(crate):
            for name, line, head, body in functions(plain(text)):
                arms = re.findall(r"=> (.*?),?$", body, re.M)
                if body.strip().startswith("match") and arms and all(a in ("true", "false") for a in arms):
                    yield path, line, name
                elif body.strip().startswith("match") and len(arms) > 2 and all(re.fullmatch(r"\d+|[A-Z][A-Z_0-9]+", a) for a in arms):
                    yield path, line, name
                elif len(re.findall(r"if \w+ == (?:\d+|[A-Z_]+) \{\s*return (?:Ok\(|Some\()?\w+::\w+[;)(]", body)) >= 2:
                    yield path, line, name


def point5():
    for crate in crates():
        facts, rows = Counter(), Counter()
        for path, text in sources(crate):
            for name, line, head, body in functions(plain(text)):
                for fact in re.findall(r"requires(?: \w+)? \{ (.*?) \}\s*$", head, re.M | re.S):
                    for one in re.split(r"\s×\s", fact):
                        facts[re.sub(r"\s+", " ", one.strip("() "))] += 1
                inside = re.search(r"\((.*?)\)\s*(?:->|\n|\{|$)", head, re.S)
                names = re.findall(r"(\w+): ", inside.group(1)) if inside else []
                for i in range(len(names) - 2):
                    rows[tuple(names[i:i + 3])] += 1
        for fact, times in sorted(facts.items()):
            if times >= 3:
                yield f"crates/{crate}", 0, f"requires {fact} ({times} times)"
        for row, times in sorted(rows.items()):
            if times >= 3:
                yield f"crates/{crate}", 0, f"parameters {', '.join(row)} ({times} times)"


def point6():
    for crate in crates():
        for path, text in sources(crate):
            for met in re.finditer(r"^(?:pub(?:\(crate\))? )?struct (\w+)[^{;]*\{\n(.*?)^\}", plain(text), re.M | re.S):
                if re.search(r": \[\w+; ", met.group(2)) and re.search(r"\b(?:len|used|count|held|size)\b: usize", met.group(2)):
                    yield path, text.count("\n", 0, met.start()) + 1, "struct " + met.group(1)


def point7():
    for crate in crates():
        for path, text in sources(crate):
            for name, line, head, body in functions(plain(text)):
                calls = re.findall(r"^\s*(?:\d+(?:\.\.=\d+)?|[A-Z][A-Z_0-9]+) => (\w+(?:::\w+)*)\(", body, re.M)
                calls += re.findall(r"if \w+ == [A-Z_0-9]+ \{\s*return (\w+)\(", body)
                if len(set(calls)) >= 3:
                    yield path, line, name


def point8():
    for crate in crates():
        top = os.path.join(ROOT, "crates", crate, "proofs")
        for folder, _, names in os.walk(top):
            for name in names:
                if name == "Answers.antt":
                    with open(os.path.join(folder, name), encoding="utf-8") as file:
                        for goal in re.findall(r"^pub (\S+) : *$|^pub (\S+) : goal", file.read(), re.M):
                            yield f"crates/{crate}", 0, goal[0] or goal[1]


POINTS = {str(n): point for n, point in enumerate((point1, point2, point3, point4, point5, point6, point7, point8), 1)}


def main():
    words = sys.argv[1:]
    listed = "--list" in words
    asked = [word for word in words if word != "--list"] or sorted(POINTS)
    if any(word not in POINTS for word in asked):
        sys.exit(__doc__)
    for number in asked:
        met = list(POINTS[number]())
        print(f"point {number}: {len(met)}")
        if listed:
            for path, line, what in met:
                print(f"  {path}:{line} {what}" if line else f"  {path} {what}")


main()
