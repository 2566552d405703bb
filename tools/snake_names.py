#!/usr/bin/env python3
"""Brings this repository's own definitions, laws, constructors and fields of specs/ and proofs/ to snake case.

usage: python3 tools/snake_names.py [--dry]     at the top of the repository, once, after port.py

A name is changed where the repository declares it and it has a dash or a capital inside (`readPacked`, `le-bytes`): types, modules and
labels of facts, which begin with a capital, keep it and lose their dashes alone. Names of std, of the checker (goals, steps) and of src/
keep their spelling. A file's names are resolved by what it declares and what it brings in, so a name that std has too is changed only
where it is ours. Names that would fall together are told and left for FALL.
"""

import os
import re
import sys

# what would fall together with another name of its file otherwise
FALL = {
    ("Rattle.image.proofs.PutLaws.Papers", "nullsOf"): "row_nulls",
    ("Rattle.image.proofs.PutLaws.Papers", "nulls-of"): "row_nulls_lem",
    ("Rattle.image.proofs.PutLaws.Papers", "give-row"): "give_row_lem",
    ("Rattle.image.proofs.RoomLaws.Rooms", "fullest-row"): "fullest_row_lem",
    ("Rattle.blocks.proofs.Worked", "long-row"): "long_row_lem",
}

IDENT = r"[^\s(){}\[\].,;:@\"⌜⌝|]+"
TOKEN = re.compile(r"--[^\n]*|\"[^\"\n]*\"|" + IDENT + r"|\s+|.", re.S)
DECL = re.compile(r"^(?:(?:pub|abbrev|unfoldable|opaque|axiom)\s+)*(" + IDENT + r")\s*(?:\{[^}]*\}\s*)?:\s", re.M)
HEAD = re.compile(r"^(?:pub\s+)?(data|record|ruleset)\s+(?:pub\s+)?(" + IDENT + r")", re.M)
MEMBER = re.compile(r"^  (?:pub\s+)?(" + IDENT + r")\s*:\s", re.M)
USE = re.compile(r"^(?:pub\s+)?use\s+(\S+?)(?:\.\{([^}]*)\})?(?:\s+as\s+(\S+))?\s*$", re.M)


def snake(name):
    out = name.replace("-", "_") if re.search(r"[^\W_]-|-[^\W_]", name) else name
    if out[:1].islower() or out[:1] == "◌":
        out = re.sub(r"(?<=[a-z0-9])([A-Z])(?=[a-z0-9]|$|_)", lambda m: "_" + m.group(1).lower(), out)
        out = re.sub(r"(?<=[a-z0-9_])([A-Z])", lambda m: m.group(1).lower(), out)
    out = re.sub(r"__+", "_", out)
    return out.replace("′", "'")


def files(root):
    for folder, dirs, names in os.walk(os.path.join(root, "crates")):
        dirs[:] = sorted(d for d in dirs if d != "out")
        for n in sorted(names):
            if n.endswith((".antt", ".rt")):
                yield os.path.join(folder, n)


def read(p):
    with open(p, encoding="utf-8") as f:
        return f.read()


def code(text):
    """The text without comments."""
    return re.sub(r"--[^\n]*", "", text)


def module(root, p):
    """Rattle.CRATE.specs.M of a file."""
    rel = os.path.relpath(p, os.path.join(root, "crates"))[: -len(".antt")].split(os.sep)
    return "Rattle." + ".".join(rel)


def uses(text):
    """The lines that bring names in: (module, [(name, as)]), or (module, None) for a whole module."""
    flat = re.sub(r"\{([^}]*)\}", lambda m: "{" + " ".join(m.group(1).split()) + "}", text)
    flat = re.sub(r"^ghost use (.*);$", r"use \1", flat, flags=re.M)
    out = []
    for m in USE.finditer(flat):
        path, names, other = m.groups()
        if names is None:
            out.append((path, None, other))
            continue
        pairs = []
        for n in names.split(","):
            w = n.split()
            if w:
                pairs.append((w[0], w[2] if len(w) == 3 else w[0]))
        out.append((path, pairs, None))
    return out


def is_function_proof(p):
    return os.path.basename(p) in ("Proof.antt", "Answers.antt", "Invariants.antt")


def is_law(p, root):
    """Whether a file is of proofs/."""
    return os.path.relpath(p, os.path.join(root, "crates")).split(os.sep)[1] == "proofs"


def declared(text):
    """Top names, and members (constructors and fields), of a file."""
    t = code(text)
    tops, members = [], []
    for m in DECL.finditer(t):
        tops.append(m.group(1))
    for m in re.finditer(r"^(?:pub\s+)?ruleset\s+(" + IDENT + r")", t, re.M):
        tops.append(m.group(1))
    kinds = [(m.start(), m.group(1), m.group(2)) for m in HEAD.finditer(t)]
    for m in MEMBER.finditer(t):
        before = [k for k in kinds if k[0] < m.start()]
        tops_before = [x.start() for x in DECL.finditer(t) if x.start() < m.start()]
        if before and (not tops_before or tops_before[-1] < before[-1][0]):
            members.append((before[-1][1], m.group(1)))
    return tops, members, [k[2] for k in kinds]


def main():
    root = os.getcwd()
    dry = "--dry" in sys.argv
    texts = {p: read(p) for p in files(root)}
    antts = [p for p in texts if p.endswith(".antt")]
    # what definitions are called from now on, and which of these names are new
    said, turned = set(), set()
    for p in antts:
        if not is_law(p, root):
            tops, members, heads = declared(texts[p])
            for n in tops + [m for kind, m in members if kind == "data"]:
                said.add(snake(n))
                if snake(n) != n:
                    turned.add(snake(n))

    # a statement's part (the field of a record) that would have the name of a definition that stands in it
    parts = set()
    for p in antts:
        if is_law(p, root):
            continue
        tops, members, heads = declared(texts[p])
        beside = {snake(n) for n in tops} | {snake(a) for _, pairs, _ in uses(texts[p]) for _, a in pairs or []}
        for kind, n in members:
            others = [o for o in tops + [a for _, pairs, _ in uses(texts[p]) for _, a in pairs or []] if snake(o) == snake(n)]
            if kind == "record" and snake(n) in beside and (snake(n) != n or any(snake(o) != o for o in others)):
                parts.add(n)
                parts.add(snake(n))

    def spelled(n, law, part=False, where=None):
        """How a name is spelled from now on. A law that would have its definition's name gets _lem, as the language's style has it."""
        if (where, n) in FALL:
            return FALL[(where, n)]
        new = snake(n)
        if part and n in parts:
            return new + "_lem"
        if law and (new in said if new != n else new in turned):
            return new + "_lem"
        return new

    own = {}  # module -> {name: new}
    fields = {}  # field name -> new
    records = {}  # module -> {field: new}
    for p in antts:
        if is_function_proof(p):
            continue
        tops, members, heads = declared(texts[p])
        names = {}
        where = module(root, p)
        for n in tops + heads + [m for kind, m in members if kind == "data"]:
            new = spelled(n, is_law(p, root) and n in tops, False, where)
            if new != n:
                names[n] = new
        own[where] = names
        for kind, n in members:
            if kind == "record" and spelled(n, False, True) != n:
                fields[n] = spelled(n, False, True)
                records.setdefault(where, {})[n] = fields[n]

    functions = {m for p, text in texts.items() if p.endswith(".rt") for m in re.findall(r"\bfn (\w+)", text)}
    rust_fields = {m for p, text in texts.items() if p.endswith(".rt") for m in re.findall(r"^    (?:pub )?(\w+): ", text, re.M)}
    changed = 0
    for p, text in texts.items():
        mine = dict(own.get(module(root, p), {})) if p.endswith(".antt") else {}
        foreign = set()
        renames = {}
        for path, pairs, _ in uses(text):
            theirs = own.get(path)
            if pairs is None:
                continue
            for name, as_name in pairs:
                if theirs and name in theirs:
                    mine.setdefault(as_name if as_name == name else name, theirs[name])
                    if as_name == name:
                        renames[name] = theirs[name]
                elif theirs is None or name not in theirs:
                    foreign.add(as_name)
                if as_name != name and not is_function_proof(p) and snake(as_name) != as_name:
                    mine[as_name] = spelled(as_name, False)
        table = {n: w for n, w in mine.items() if n not in foreign or n in renames}
        scope = set(foreign) | set(table)
        if p.endswith(".antt"):
            scope |= set(declared(text)[0])
        for path, pairs, _ in uses(text):
            scope |= {a for _, a in pairs or []}
        out = []
        last = ""
        for m in TOKEN.finditer(text):
            t = m.group(0)
            if t.startswith("--") or t.startswith('"') or t.isspace():
                out.append(t)
                if not t.isspace():
                    last = ""
                else:
                    last = " "
                continue
            if last == ".":
                # a field, or a member of a module's path
                if t in fields and not (is_function_proof(p) and t.replace("-", "_") in functions):
                    # in a function's proof a step of the code keeps its name
                    new = fields[t]
                elif t in table:
                    new = table[t]
                else:
                    new = t
            else:
                # a definition; or a field, where it is declared or given a value, or where no definition has its name
                gives = re.match(r"\s*[:=]\s", text[m.end() : m.end() + 80]) and text[m.start() - 1 : m.start()] != "\n"
                new = table.get(t, t)
                if t in fields and p.endswith(".antt") and (gives or (t not in table and t not in scope and not is_function_proof(p))):
                    new = fields[t]
            out.append(new)
            last = t
        result = "".join(out)
        if p.endswith(".rt"):
            result = clauses_only(text, table)
        if result != text:
            changed += 1
            if not dry:
                with open(p, "w", encoding="utf-8") as f:
                    f.write(result)
    for m in sorted(own):
        if ".specs." in m:
            for n, new in own[m].items():
                if new in rust_fields and n not in fields:
                    print(f"the name of a field of src/: {m} {n} -> {new}")
    for p in antts:
        table = {}
        for path, pairs, _ in uses(texts[p]):
            for name, as_name in pairs or []:
                if name in own.get(path, {}) and name == as_name:
                    table[name] = own[path][name]
        table.update(own.get(module(root, p), {}))
        words = [m.group(0) for m in TOKEN.finditer(code(texts[p]))]
        bare = {w for k, w in enumerate(words) if k == 0 or words[k - 1] != "."}
        for n, new in table.items():
            if new in bare and new != n:
                print(f"stands there already: {p}: {n} -> {new}")
    # what falls together
    for p in antts:
        if is_function_proof(p):
            continue
        tops, members, heads = declared(texts[p])
        new_of = {}
        for n in tops + heads + [m for kind, m in members if kind == "data"]:
            new_of.setdefault(own[module(root, p)].get(n, n), set()).add(n)
        for n in [m for kind, m in members if kind == "record"]:
            new_of.setdefault(fields.get(n, n), set()).add("." + n)
        for new, olds in new_of.items():
            if len(olds) > 1:
                print(f"together: {p}: {sorted(olds)} -> {new}")
    for p, text in texts.items():
        seen = {}
        for path, pairs, _ in uses(text):
            for name, as_name in pairs or []:
                new = own.get(path, {}).get(name, name) if as_name == name else as_name
                seen.setdefault(new, set()).add((path, name))
        here = own.get(module(root, p), {}) if p.endswith(".antt") else {}
        tops = set()
        if p.endswith(".antt") and not is_function_proof(p):
            t, m, h = declared(text)
            tops = {here.get(n, n): n for n in t + h + [x for kind, x in m if kind == "data"]}
            tops.update({fields.get(x, x): x for kind, x in m if kind == "record"})
        for new, olds in seen.items():
            if len({o[1] for o in olds}) > 1 or (len(olds) > 1 and len({o[0] for o in olds}) > 1):
                print(f"brought in together: {p}: {sorted(olds)} -> {new}")
            if new in tops:
                print(f"brought in beside its own: {p}: {sorted(olds)} -> {new} (own {tops[new]})")
    print(f"{sum(len(v) for v in own.values())} names, {changed} files")


def clauses_only(text, table):
    """A .rt file with the names changed in its lines of `ghost use` and in its clauses alone."""
    spans = []
    for m in re.finditer(r"^ghost use [^;]*;", text, re.M):
        spans.append((m.start(), m.end()))
    for m in re.finditer(r"\b(?:requires|ensures|ghost)\b\*?\s*(?:\w+\s*:?\s*)?\{", text):
        depth, i = 1, m.end()
        while depth and i < len(text):
            depth += {"{": 1, "}": -1}.get(text[i], 0)
            i += 1
        spans.append((m.end(), i))
    out, at = [], 0
    for a, b in sorted(spans):
        if a < at:
            continue
        out.append(text[at:a])
        out.append("".join(table.get(m.group(0), m.group(0)) for m in TOKEN.finditer(text[a:b])))
        at = b
    out.append(text[at:])
    return "".join(out)


if __name__ == "__main__":
    main()
