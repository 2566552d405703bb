#!/usr/bin/env python3
"""Brings what tools/snake_names.py left to snake case: laws that stand in a section (`module _ .. where`), and their uses.

usage: python3 tools/snake_sections.py     at the top of the repository, after snake_names.py
"""

import os
import re
import sys

sys.path.insert(0, os.path.dirname(os.path.abspath(__file__)))
import snake_names as names  # noqa: E402

SIGNED = re.compile(r"^\s*(?:(?:pub|abbrev|unfoldable)\s+)*([^\s(){}:]+)\s*:(?=\s)", re.M)


def is_answers(root, p):
    """Whether a file is of a function's proof: below proofs/, with a folder of its own."""
    return names.is_function_proof(p) and os.path.basename(os.path.dirname(p)) not in ("proofs", "specs")


def main():
    root = os.getcwd()
    texts = {p: names.read(p) for p in names.files(root) if p.endswith(".antt")}
    own = {}
    for p, text in texts.items():
        if is_answers(root, p) or not names.is_law(p, root):
            continue
        here = {n for n in SIGNED.findall(names.code(text)) if names.snake(n) != n and not n[:1].isupper()}
        if here:
            own[names.module(root, p)] = here
    tables = {}
    for mod, here in own.items():
        p = next(q for q in texts if names.module(root, q) == mod)
        words = {m.group(0) for m in names.TOKEN.finditer(names.code(texts[p]))}
        table = {}
        for n in sorted(here):
            new = names.snake(n)
            while new in words or new in table.values():
                new += "_lem"
            table[n] = new
        tables[mod] = table
    changed = 0
    for p, text in texts.items():
        table = dict(tables.get(names.module(root, p), {})) if not is_answers(root, p) else {}
        for path, pairs, _ in names.uses(text):
            for name, as_name in pairs or []:
                if name in tables.get(path, {}):
                    table[name] = tables[path][name]
        if not table:
            continue
        words = {m.group(0) for m in names.TOKEN.finditer(names.code(text))}
        for n, new in table.items():
            if new in words and n in words:
                print(f"{p}: {n} -> {new} stands there already")
        out, last = [], ""
        for m in names.TOKEN.finditer(text):
            w = m.group(0)
            out.append(table.get(w, w) if last != "." else w)
            last = w
        result = "".join(out)
        if result != text:
            changed += 1
            with open(p, "w", encoding="utf-8") as f:
                f.write(result)
    print(f"{sum(len(t) for t in tables.values())} names, {changed} files")


if __name__ == "__main__":
    main()
