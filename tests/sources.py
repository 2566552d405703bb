"""What the sources of the libraries declare: their public functions with their contracts, their public types and traits, and the
definitions and laws of their .antt files, each with the comment above it. For the scripts of this folder."""
import os
import re

ROOT = os.path.dirname(os.path.dirname(os.path.abspath(__file__)))


def read(*path):
    with open(os.path.join(ROOT, *path), encoding="utf-8") as f:
        return f.read()


def libraries():
    """What `promises` leans on, in the order of crates.txt."""
    (line,) = re.findall(r"^promises: (.*)$", read("crates.txt"), re.M)
    return line.split()


def prose(lines):
    """The text of comment lines, without their marks, as one line."""
    return " ".join(re.sub(r"^(//|--) ?", "", line.strip()) for line in lines).strip()


def head(text):
    """The comment that a file opens with."""
    lines = []
    for line in text.splitlines():
        if not line.startswith(("//", "--")):
            break
        lines.append(line)
    return prose(lines)


def clean(code):
    """Code as one line."""
    code = re.sub(r"\s+", " ", code).strip()
    return re.sub(r",? ([)}]|$)", r" \1", code).replace("( ", "(").replace(" )", ")").strip()


class Function:
    """A public function: `path` is its module path as Calls.antt names it, `shown` how a program calls it."""

    def __init__(self, path, shown, file, comment, signature, requires, ensures):
        self.path, self.shown, self.file, self.comment = path, shown, file, comment
        self.signature, self.requires, self.ensures = signature, requires, ensures


def exports(crate):
    """The names that src/lib.rt exports, each with its module, in order."""
    found = {}
    for module, names in re.findall(r"^pub use (\w+)::(\w+|\{[^}]*\});", read("crates", crate, "src", "lib.rt"), re.M):
        for name in re.findall(r"\w+", names):
            found[name] = module
    return found


def declared(text, pattern):
    """Each declaration of a source file whose first line matches: the match, the comment above it, and its lines up to the line that is
    its brace alone. Where it has no comment of its own, that of its section stands for it."""
    lines = text.splitlines()
    section, comment = "", []
    for i, line in enumerate(lines):
        bare = line.strip()
        if bare.startswith("// ----"):
            section, comment = prose([bare[7:]]), []
        elif bare.startswith("//"):
            comment.append(bare)
        elif bare.startswith("#["):
            pass
        else:
            found = re.match(pattern, line)
            if found:
                indent = line[: len(line) - len(line.lstrip())]
                end = i
                while end < len(lines) and lines[end] not in (indent + "{", indent + "}") and not line.endswith(";"):
                    end += 1
                yield found, prose(comment) or section, lines[i : max(end, i + 1)]
            comment = []


def function(crate, path, shown, file, comment, lines):
    text = "\n".join(lines)
    signature = clean(re.split(r"\s(?:requires|ensures)(?: \w+)? \{", text)[0])
    clauses = re.findall(r"\s(requires|ensures)(?: \w+)? \{(.*?)\}(?=\s+(?:requires|ensures)[ \w]* \{|\s*\Z)", text, re.S)
    told = {"requires": [], "ensures": []}
    for word, clause in clauses:
        told[word].append(re.sub(r"\s+", " ", clause).strip())
    return Function(f"{crate}.{path}", shown, file, comment, signature, told["requires"], told["ensures"])


def functions(crate):
    """The public functions of a library, in the order of its exports, and methods behind them."""
    homes = exports(crate)
    plain, methods = {}, []
    for file in sorted(os.listdir(os.path.join(ROOT, "crates", crate, "src"))):
        text = read("crates", crate, "src", file)
        for found, comment, lines in declared(text, r'pub (extern "C" )?fn (\w+)'):
            name = found.group(2)
            if name in homes or found.group(1) or file == "lib.rt":
                plain[name] = function(crate, name, name, file, comment, lines)
        for struct, body in re.findall(r"^impl(?:<[^>]*>)? (\w+)(?:<[^>]*>)? \{\n(.*?)^\}", text, re.M | re.S):
            for found, comment, lines in declared(body, r"    pub fn (\w+)"):
                path = f"{homes[struct]}.{struct}.{found.group(1)}"
                methods.append(function(crate, path, f"{struct}::{found.group(1)}", file, comment, lines))
    # an export that no file declares is kept, without a contract
    order = [name for name in homes if name[0].islower()] + sorted(name for name in plain if name not in homes)
    return [plain.get(name) or Function(f"{crate}.{name}", name, "lib.rt", "", name, [], []) for name in order] + methods


def types(crate):
    """The types of a library that its exports or its definitions name: comment, declaration as one line, and whether it is public. Those
    of exports stand first, in their order."""
    found, homes = {}, exports(crate)
    for file in sorted(os.listdir(os.path.join(ROOT, "crates", crate, "src"))):
        for match, comment, lines in declared(read("crates", crate, "src", file), r"(?:pub(?:\(crate\))? )?(?:struct|enum) (\w+)"):
            code = clean(" ".join(line for line in lines if not line.strip().startswith("//")))
            code = code.rstrip(";") if code.endswith(";") else code.rstrip(",") + " }"
            found[match.group(1)] = (comment, re.sub(r"\bpub(?:\(crate\))? ", "", code), match.group(1) in homes)
    used = {name for path, text in antt(crate, "specs") if "Inner" not in path for name in re.findall(r"\bdeclared\.\w+\.(\w+)", text)}
    return [found[name] for name in homes if name in found] + [found[name] for name in sorted(used - set(homes)) if name in found]


class Trait:
    """A public trait: its ghost members, each a comment, a name and a type; its functions; and what each type that has it gives for the
    ghost members: the type, the comment above that, and their names and values."""

    def __init__(self, name, comment, ghosts, functions, given):
        self.name, self.comment, self.ghosts, self.functions, self.given = name, comment, ghosts, functions, given


def traits(crate):
    """The public traits of a library, in the order of its exports."""
    found, homes = {}, exports(crate)
    for name, module in homes.items():
        file = module + ".rt"
        text = read("crates", crate, "src", file)
        declaration = re.search(rf"((?:^//[^\n]*\n)*)^pub trait {name}\b[^\n]*\{{\n(.*?)^\}}", text, re.M | re.S)
        if not declaration:
            continue
        ghosts, members = [], []
        for above, code in re.findall(r"((?:^    //[^\n]*\n)*)^    ((?:ghost|fn) .*?);$", declaration.group(2), re.M | re.S):
            comment = prose(above.splitlines())
            ghost = re.match(r"ghost (\w+): \{(.*)\}", code, re.S)
            if ghost:
                ghosts.append((comment, ghost.group(1), clean(ghost.group(2))))
            else:
                path = f"{module}.{name}.{re.match('fn ([a-z_]+)', code).group(1)}"
                members.append(function(crate, path, path.split(".")[-1], file, comment, code.splitlines()))
        given = []
        for above, of, body in re.findall(rf"((?:^//[^\n]*\n)*)^impl(?:<[^>]*>)? {name} for ([^{{\n]*) \{{\n(.*?)^\}}", text, re.M | re.S):
            values = re.findall(r"^    ghost (\w+) = \{(.*?)\};", body, re.M | re.S)
            given.append((of, prose(above.splitlines()), [(ghost, clean(value)) for ghost, value in values]))
        found[name] = Trait(name, prose(declaration.group(1).splitlines()), ghosts, members, given)
    return list(found.values())


def constants(crate):
    """The public constants of a library, by module: name and number."""
    for module in re.findall(r"^pub mod (\w+);", read("crates", crate, "src", "lib.rt"), re.M):
        yield module, re.findall(r"^pub const (\w+): \w+ = (\w+);", read("crates", crate, "src", module + ".rt"), re.M)


def antt(crate, part):
    """The files of a crate's specs or proofs, without the proofs of functions: path below that folder, and text."""
    base = os.path.join(ROOT, "crates", crate, part)
    for folder, inner, files in sorted(os.walk(base)):
        inner.sort()
        for file in sorted(files):
            path = os.path.relpath(os.path.join(folder, file), base)
            if file.endswith(".antt") and file != "Lib.antt" and not (folder != base and file in ("Proof.antt", "Answers.antt", "Invariants.antt")):
                yield path, read("crates", crate, part, path)


def named(text):
    """The public names of an .antt file, in order, with those that it hands on from other files."""
    names = []
    own = r"(?!mod |use )(?:record |data |ruleset )?([^\s:({]+)"
    for handed, name in re.findall(r"^(?:abbrev |unfoldable )?pub (?:use [\w.]+\.\{([^}]*)\}|" + own + ")", text, re.M):
        names.extend([name] if name else [word.split()[-1] for word in handed.split(",") if word.strip()])
    return names
