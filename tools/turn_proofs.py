#!/usr/bin/env python3
"""Turns a crate's proofs/F/Proof.antt, which names each goal of a function, into Invariants.antt and Answers.antt of today's checker.

usage: python3 tools/turn_proofs.py NAMES.json CRATE..     at the top of the repository

NAMES.json is what `rt check --generated FOLDER --old-names` wrote for the crate: old and new name of each goal and of each step. A goal
that was answered by `search rules` alone is left to the checker, which tries more than that by itself. What is not understood is told.
"""

import json
import os
import re
import sys

START = re.compile(r"^(?:(?:pub|abbrev|unfoldable|opaque)\s+)*([^\s(){}:]+)(?:\s*\{[^}]*\})?\s*:(?=\s)")
RULESET = re.compile(r"^(?:pub\s+)?ruleset\s+(\S+)")
NESTED = "--nested" in sys.argv
PATH = re.compile(r"(?<![\w.'\-])([A-Za-z_][\w'\-₀₁₂₃]*)((?:\.[\w'\-₀₁₂₃]+)+|(?=[\s,()]|$))")


def plain(name):
    return name.replace("_", "-").lower().removeprefix("overflow-")


def chunks(text):
    """Head comment, lines of use, and the declarations: (name, lines)."""
    head, uses, decls, open_use = [], [], [], False
    pending = []
    for line in text.split("\n"):
        if open_use:
            uses[-1] += " " + line.strip()
            open_use = "}" not in line
            continue
        if line.startswith("use ") or line.startswith("pub use "):
            uses.append(line)
            open_use = "{" in line and "}" not in line
            continue
        if line.startswith("--"):
            if not uses and not decls:
                head.append(line)
            else:
                pending.append(line)
            continue
        if not line.strip():
            continue
        m = START.match(line) or RULESET.match(line)
        if m and not line.startswith((" ", "unfolding")):
            decls.append((m.group(1), pending + [line]))
            pending = []
        elif decls:
            decls[-1][1].append(line)
        else:
            raise ValueError(line)
    return head, uses, decls


def labels():
    """For each function of src/: the names of its clauses, of both kinds."""
    out = {}
    for folder, _, files in os.walk("crates"):
        if os.sep + "src" not in folder:
            continue
        for f in files:
            if not f.endswith(".rt"):
                continue
            with open(os.path.join(folder, f), encoding="utf-8") as it:
                text = it.read()
            crate = folder.split(os.sep)[1]
            for m in re.finditer(r"\bfn (\w+)", text):
                head = []
                for line in text[m.end() :].split("\n"):
                    clause = re.match(r"\s+(requires|ensures|ghost)\b", line)
                    if head and not clause and re.match(r"\s*(\{|\}|fn |pub |#|//|use |const |struct |enum |impl )", line):
                        break
                    head.append(line)
                    if not clause and line.endswith("{"):
                        break
                head = "\n".join(head)
                kinds = {"public": text[: m.start()].endswith("pub "), "lent": re.findall(r"(\w+): &mut \[", head)}
                for k in ("requires", "ensures"):
                    names = re.findall(r"^\s+" + k + r"\*? (\w+) \{", head, re.M)
                    if names:
                        kinds[k] = names
                stem = os.path.relpath(os.path.join(folder, f), os.path.join("crates", crate, "src")).removesuffix(".rt").split(os.sep)
                out.setdefault((crate, m.group(1)), []).append((stem, kinds))
    return out


class Function:
    def __init__(self, key, data, known):
        self.module = key.replace("-", ".", 2).removesuffix(".Lts")
        self.d = data
        self.known = known
        self.name = self.module.removeprefix("Rattle.").replace(".proofs.", ".").replace(".", "::")
        self.places = {p[0]: (i, p) for i, p in enumerate(data["places"])}

    def all_clauses(self, path):
        """The names of a step's clauses, where it has several."""
        callee, kind = (self.name, "requires") if path == ["requires"] else (self.last, "ensures")
        if not callee:
            return None
        found = self.named(callee, kind)
        return found if found and len(found) > 1 else None

    def clause(self, callee, kind, number):
        found = self.named(callee, kind)
        return found[int(number)] if found and int(number) < len(found) else number

    def named(self, callee, kind):
        """The names of a function's clauses of a kind, by the module that it stands in."""
        words = callee.split("::")
        known = self.known.get((words[0], words[-1]), [])
        here = [k for stem, k in known if stem == words[1 : 1 + len(stem)]] or [k for _, k in known if k["public"]] or [k for _, k in known]
        return here[0].get(kind) if here else None

    def lent(self, callee):
        """The slices that a function is lent to write."""
        return self.named(callee, "lent") or []

    def goal(self, old, order):
        """New name and place of a goal."""
        for i, (o, n) in enumerate(self.d["needs"]):
            if plain(o) == plain(old):
                return n, self.d["asked_at"][i][0], o
        if order is not None and order < len(self.d["needs"]):
            o, n = self.d["needs"][order]
            return n, self.d["asked_at"][order][0], o
        return None, None, None

    def walk(self, place, n):
        for _ in range(n):
            if place is None or place not in self.places:
                return None
            place = self.places[place][1][1]
        return place

    def step(self, place, parts):
        """c.before^n.parts from a place: the new path, or None."""
        n = 0
        while parts and parts[0] == "before":
            parts, n = parts[1:], n + 1
        if not parts:
            at = self.walk(place, n)
            return (("place", at), None) if at else (None, None)
        if parts[0] in ("args", "requires", "pre"):
            rest = ["requires" if parts[0] == "pre" else parts[0]] + parts[1:]
            if rest[0] == "requires" and len(rest) > 1 and rest[1].isdigit():
                rest[1] = self.clause(self.name, "requires", rest[1])
            if rest[0] == "args" and len(rest) > 1:
                rest[1] = rest[1].replace("-", "_")
            return ("path", rest), None
        if parts[0] in ("lifetimes", "ranges", "well_formed", "well-formed"):
            return ("path", parts), None
        # the step is that of the n-th place up; or of one near it, where a place more or less stands between today
        chain, at = [], place
        while at is not None and at in self.places:
            chain.append(at)
            at = self.places[at][1][1]
        for k in sorted(range(len(chain)), key=lambda k: abs(k - n)):
            found = self.at(chain[k], parts)
            if found[0] is not None:
                return found
        # a count behind the name went by the function, and goes by the branch
        bare = re.sub(r"\d+$", "", parts[0])
        for k in sorted(range(len(chain)), key=lambda k: abs(k - n)):
            p = self.places[chain[k]][1]
            if bare and plain(re.sub(r"\d+$", "", p[2][0])) == plain(bare):
                return self.at(chain[k], [p[2][0]] + parts[1:])
        return None, None

    def at(self, at, parts):
        i, p = self.places[at]
        first = parts[0]
        # an arm's own names
        arm = self.d["arms"][i]
        if arm:
            best = None
            for new, old, path in arm[2]:
                if plain(old) == plain(first) and parts[1 : 1 + len(path)] == path and not new.endswith("-own"):
                    if best is None or len(path) > len(best[1]):
                        best = (new, path)
            if best and best[0] == "inv":
                best = ("invariant", best[1])
            if best:
                return ("path", [arm[0], best[0]] + parts[1 + len(best[1]) :]), None
            for new, old, path in arm[2]:
                if plain(old) == plain(first) and new.endswith("-own"):
                    return ("path", [arm[0], new] + parts[1:]), None
        if plain(first) in (plain(p[2][0]), plain(p[2][1])) or plain(first) == plain(p[2][0]) + "-1":
            rest = parts[1:]
            if len(rest) > 1 and rest[0] == "ensures" and rest[1].isdigit() and p[3]:
                rest = ["ensures", self.clause(p[3], "ensures", rest[1])] + rest[2:]
            if rest[:1] == ["auto"] and p[3]:
                lent = self.lent(p[3])
                if len(lent) == 1:
                    rest = ["auto", lent[0]]
            if rest == ["ensures"]:
                self.last = p[3]
            return ("path", [p[2][1]] + rest), (at, arm)
        return None, None


def translate(fn, place, body, say, var="c"):
    """The body of an answer in today's paths."""
    alias = {var: []}
    drop = []
    # names that stand for a place, or for a step of an arm
    for m in re.finditer(r"\blet ([\w']+) =\s*([\w']+)((?:\.[\w'\-₀₁₂₃]+)*)\s+in\b", body):
        name, base, rest = m.groups()
        if base not in alias:
            continue
        parts = alias[base] + [x for x in rest.split(".") if x]
        kind, arm = fn.step(place, parts)
        if kind is None:
            continue
        if kind[0] == "place" or (arm and arm) or kind[1][-1] in ("ensures", "requires"):
            alias[name] = parts
            drop.append(m.span())

    out, at = [], 0
    for a, b in drop:
        out.append(body[at:a])
        at = b
        while at < len(body) and body[at] in " \n":
            at += 1
    out.append(body[at:])
    body = "".join(out)

    def put(m):
        base, rest = m.group(1), m.group(2) or ""
        if base not in alias:
            return m.group(0)
        parts = alias[base] + [x for x in rest.split(".") if x]
        fn.last = None
        kind, _ = fn.step(place, parts)
        if kind is None:
            say(f"path {base}{rest} at {place}")
            return m.group(0)
        if kind[0] == "place":
            chain, up = place, 0
            while chain != kind[1]:
                chain, up = fn.places[chain][1][1], up + 1
            return var + ".before" * up
        path = var + "." + ".".join(kind[1])
        names = fn.all_clauses(kind[1]) if kind[1][-1] in ("ensures", "requires") else None
        # what were the parts of one clause are clauses with names
        return "(" + ", ".join(f"{path}.{n}" for n in names) + ")" if names else path

    body = PATH.sub(put, body)
    # which variants a last arm serves: shut by the checker, for the laws to open
    body = re.sub(r"(?<![\w.])(c\.[^\s()]+-own\.keys\d+)", r"(opened \1)", body)
    for m in re.finditer(r"\blet ([\w']+) = \w+\.args in", body):
        body = re.sub(r"(?<![\w.'\-])" + m.group(1) + r"\.([\w\-]+)", lambda x, a=m.group(1): a + "." + x.group(1).replace("-", "_"), body)
    # what a test of `!b` says it says of b now
    body = body.replace(".type-inv", ".type_inv").replace(".well-formed", ".well_formed")
    return re.sub(r"\bnot-(?:true|false)\s+(?:_|\w+\.[^\s()]+)\s+(\w+\.if-[^\s()]+)", r"\1", body)


def last(body):
    """Where the last part of an answer begins, behind its lets."""
    depth, at = 0, 0
    for m in re.finditer(r"[(\[{]|[)\]}]|(?<=\s)in(?=\s)", body):
        w = m.group(0)
        if w in "([{":
            depth += 1
        elif w in ")]}":
            depth -= 1
        elif depth == 0:
            at = m.end()
    while at < len(body) and body[at] in " \n":
        at += 1
    return at


def term(text):
    """The end of the first atom of a text: a name with fields, or what stands in brackets with its fields."""
    i = 0
    if text[:1] in "([{":
        depth = 0
        for i, ch in enumerate(text):
            depth += {"(": 1, "[": 1, "{": 1, ")": -1, "]": -1, "}": -1}.get(ch, 0)
            if depth == 0:
                break
        i += 1
    m = re.match(r"[^\s()\[\]{},;]*", text[i:])
    return i + m.end()


def parts(text):
    """The parts of a tuple that stands in brackets, or None."""
    if not text.startswith("(") or term(text) != len(text):
        return None
    inner, out, depth, at = text[1:-1], [], 0, 0
    for i, ch in enumerate(inner):
        depth += {"(": 1, "[": 1, "{": 1, ")": -1, "]": -1, "}": -1}.get(ch, 0)
        if ch == "," and depth == 0:
            out.append(inner[at:i].strip())
            at = i + 1
    tail = inner[at:].strip()
    if tail:
        out.append(tail)
    return out if len(out) > 1 else None


def clauses(body, names, say):
    """An answer that gave a tuple gives a record of the clauses."""
    at = last(body)
    before, end = body[:at], body[at:].rstrip()
    words = end.split(None, 1)
    if words and words[0] in ("search", "grind", "omega", "cc", "absurd"):
        return body
    if words and words[0] == "elim":
        say("an elim that gives clauses " + " ".join(names))
        return body
    if words and words[0] in ("rw", "simp") and len(words) == 2 and " at " not in words[1][: term(words[1]) + 4]:
        cut = term(words[1])
        rest = words[1][cut:].strip()
        if rest.startswith("(") and term(rest) == len(rest) and parts(rest) is None:
            rest = rest[1:-1].strip()
        inner = clauses(rest, names, say) if rest else "record { " + "; ".join(f"{n} = refl" for n in names) + " }"
        return before + f"{words[0]} {words[1][:cut]} ({inner})"
    if re.fullmatch(r"c\.[^\s()]+\.ensures", end):
        return before + "record { " + "; ".join(f"{n} = {end}.{n}" for n in names) + " }"
    tuple_ = parts(end)
    if tuple_ and len(tuple_) == len(names):
        return before + "record { " + "; ".join(f"{n} = {x}" for n, x in zip(names, tuple_)) + " }"
    if tuple_ and len(tuple_) > len(names):
        say("more parts than clauses")
    # the third clause came later, and stands in a pair with the second
    at = ["0", "1.0", "1.1"] if NESTED and len(names) == 3 else [str(i) for i in range(len(names))]
    return before + f"let p = {end} in record {{ " + "; ".join(f"{n} = p.{i}" for i, n in zip(at, names)) + " }"


def invariant(fn, lines, k, say):
    """An invariant or a measure as a function of l."""
    text = "\n".join(lines[1:])
    m = re.match(r"(\S+)((?:\s+[^\s=]+)*)\s*=\s*", text)
    args = m.group(2).split()
    body = text[m.end() :]
    names, changed = fn.d["loops"][k][1], fn.d["changed"][k]
    want = []
    for n, c in zip(names, changed):
        want.append("l.initial." + n if c else "l." + n)
    for n, c in zip(names, changed):
        if c:
            want.append("l." + n)
    if len(args) != len(want):
        say(f"invariant with {len(args)} names where {len(want)} stand: {args} {want}")
        return body
    table = dict(zip(args, want))
    return re.sub(r"(?<![\w.'\-₀])([A-Za-z_][\w'\-₀]*)", lambda x: table.get(x.group(1), x.group(1)), body)


def used(line, text):
    """A line of use with the names that the text has, or None."""
    m = re.match(r"((?:pub )?use \S+?)\.\{(.*)\}\s*$", line)
    if not m:
        return line
    keep = []
    for n in m.group(2).split(","):
        n = n.strip()
        if not n:
            continue
        name = n.split()[-1]
        if "◌" in name:
            word = name.replace("◌", "").strip()
            ok = word in text
        else:
            ok = re.search(r"(?<![\w'\-])" + re.escape(name) + r"(?![\w'\-])", text) is not None
        if ok:
            keep.append(n)
    return f"{m.group(1)}.{{{', '.join(keep)}}}" if keep else None


def turn(folder, fn, say):
    path = os.path.join(folder, "Proof.antt")
    with open(path, encoding="utf-8") as f:
        head, uses, decls = chunks(f.read())
    uses = [u for u in uses if not re.search(r"\.(Statement\.\{|Tie as|Reads as|Lts as)", u) and not re.search(r" as \S*-?[rR]eads$", u)]
    invariants, answers = [], []
    order = 0
    for name, lines in decls:
        text = "\n".join(lines)
        sig = re.search(r"tie\.(\S+)", text)
        if re.search(r"^pub \S+[-_]spec : ", text, re.M):
            continue
        kind = sig.group(1) if sig else None
        first = [k for k, l in enumerate(lines) if not l.startswith("--")][0]
        comments = lines[:first]
        lines = lines[first:]
        if kind and re.match(r"(invariant|decreases)", kind) and "Need" not in kind:
            word, _, loop = kind.partition("-")
            k = next((i for i, (l, _) in enumerate(fn.d["loops"]) if plain(l[0]) == plain(loop)), None)
            if k is None:
                say(f"loop {kind}")
                k = 0
            new = f"{word}-{fn.d['loops'][k][0][1]}"
            extra = [l for l in lines[1:] if l.startswith("unfolding")]
            body = invariant(fn, [lines[0]] + [l for l in lines[1:] if not l.startswith("unfolding")], k, say)
            invariants.append("\n".join(comments + [f"abbrev pub {new} : goal.{new}"] + extra + [f"{new} l = {body}"]))
            continue
        if kind and kind.startswith("Need-"):
            new, place, old = fn.goal(kind[len("Need-") :], order)
            order += 1
            if new is None:
                if plain(kind[5:]) not in {plain(s) for s in fn.d["settled"]}:
                    say(f"goal {kind}")
                continue
            rest = lines[1:]
            extra = [l for l in rest if l.startswith("unfolding")]
            eq = "\n".join(l for l in rest if not l.startswith("unfolding"))
            m = re.match(re.escape(name) + r"((?:\s+[^\s=]+)*)\s*=", eq)
            if not m:
                say(f"answer {name}")
                continue
            body = eq[m.end() :].lstrip(" ")
            if body.strip() == "search rules" and not extra:
                continue
            arg = m.group(1).split()[0] if m.group(1).split() else "c"
            body = translate(fn, place, body, say) if arg == "c" else body
            if arg not in ("c", "_"):
                say(f"argument {arg} of {name}")
            body = body.replace(" tie.", " goal.")
            asked = fn.d["asked"].get(old)
            if asked:
                body = clauses(body, asked, say)
            sep = " " if not body.startswith("\n") else ""
            answers.append("\n".join(comments + [f"pub {new} : goal.{new}"] + extra + [f"{new} {'_' if arg == '_' else 'c'} ={sep}{body}"]))
            continue
        text = "\n".join(lines)
        at = re.search(r"tie\.([^\s()]+)", text)
        if at:
            old = next((o for o in fn.places if plain(o) == plain(at.group(1))), None)
            if old is None:
                say(f"type of its own: {name} : tie.{at.group(1)}")
            else:
                bound = re.search(r"\((\w+) : tie\.", text)
                eq = next((l for l in lines[1:] if l.startswith(name + " ")), "")
                var = bound.group(1) if bound else (eq.split()[1] if eq else "c")
                text = text.replace("tie." + at.group(1), "goal." + fn.d["places_by_name"][fn.places[old][0]])
                text = translate(fn, old, text, say, var)
        answers.append("\n".join(comments + text.split("\n")))
    title = "\n".join(head)
    wrote = []
    if invariants:
        text = "\n\n".join(invariants)
        u = [x for x in (used(l, text) for l in uses) if x]
        u.append(f"use {fn.module}.Given as goal")
        with open(os.path.join(folder, "Invariants.antt"), "w", encoding="utf-8") as f:
            f.write((title + "\n" if title else "") + "\n".join(u) + "\n\n" + text + "\n")
        wrote.append("i")
    if answers:
        text = "\n\n".join(answers)
        u = [x for x in (used(l, text) for l in uses) if x]
        if "(opened c." in text:
            u.append("use borrow.Enum.Refused.{opened}")
        u.append(f"use {fn.module}.Goals as goal")
        with open(os.path.join(folder, "Answers.antt"), "w", encoding="utf-8") as f:
            f.write((title + "\n" if title else "") + "\n".join(u) + "\n\n" + text + "\n")
        wrote.append("a")
    os.remove(path)
    if not wrote:
        os.removedirs(folder)


def main(argv):
    argv = [a for a in argv if a != "--nested"]
    with open(argv[0], encoding="utf-8") as f:
        names = json.load(f)
    by, known = {}, labels()
    for key, data in names.items():
        if "places" not in data:
            continue
        fn = Function(key, data, known)
        by[fn.module] = fn
    for crate in argv[1:]:
        top = os.path.join("crates", crate, "proofs")
        for folder, dirs, files in sorted(os.walk(top)):
            if "Proof.antt" not in files:
                continue
            module = "Rattle." + crate + ".proofs." + os.path.relpath(folder, top).replace(os.sep, ".")
            if module not in by:
                print(f"{folder}: no names for {module}")
                continue

            def say(text, folder=folder):
                print(f"{folder}: {text}")

            try:
                turn(folder, by[module], say)
            except Exception as e:
                print(f"{folder}: {type(e).__name__} {e}")


if __name__ == "__main__":
    main(sys.argv[1:])
