"""What a crate shows, and which definitions of specs/ its public clauses reach.

It reads text and not the prover's own tables: imports by `use M.{a, b as c}` and `use M as q`, the clauses of public calls, the
ghost members of public traits and types, and what public types are seen as. A word that no import explains is passed over.
"""
import os
import re
from collections import namedtuple

DEFINITION = re.compile(r"^ *(?:(?:abbrev|unfoldable) pub|pub (?:record|data)) ([^\s:({]+)")
IMPORT = re.compile(r"^\s*(?:ghost |pub )?use (Rattle\.[\w.]+)(?:\.\{(.*)\}| as (\w+));?$")
FUNCTION = re.compile(r"^\s*(?:pub(?:\(crate\))? )?(?:const |unsafe )*fn (\w+)")
CLAUSE = re.compile(r"^\s*(?:requires|ensures)\b")
GHOST = re.compile(r"^\s*(?:pub )?ghost (?!use\b|invariant\b)\w+\s*[:=]")
BLOCK = re.compile(r"^(pub )?(?:unsafe )?(trait|struct|enum|impl)\b(.*)$")
WORD = re.compile(r"[^\s(){}\[\],;.∷≡×λ→¬]+")
QUALIFIED = re.compile(r"(\w+)\.([^\s(){}\[\],;.]+)")

# One function: where it stands, its name, its clauses' lines, and whether a caller outside the crate can reach it.
Function = namedtuple("Function", "path line name clauses public documented")


def files_in(top, crate, folder, suffix):
    """The files of a crate's folder, by their paths from the top."""
    start = os.path.join(top, "crates", crate, folder)
    for base, folders, names in os.walk(start):
        folders[:] = sorted(name for name in folders if name != "out")
        for name in sorted(names):
            if name.endswith(suffix):
                yield os.path.relpath(os.path.join(base, name), top)


def lines_of(top, path):
    with open(os.path.join(top, path), encoding="utf-8") as file:
        return file.read().splitlines()


def imports_of(lines):
    """What the words of a file mean: by word the definition, and by qualifier the module."""
    names, modules = {}, {}
    for line in lines:
        found = IMPORT.match(line)
        if found and found.group(3):
            modules[found.group(3)] = found.group(1)
        elif found:
            for item in found.group(2).split(","):
                name, _, other = (part.strip() for part in item.partition(" as "))
                names[(other or name).replace("◌", "")] = (found.group(1), name)
    return names, modules


def words_in(text, names, modules):
    """The definitions that a text names, by module and name."""
    for word in WORD.findall(text):
        if word in names:
            yield names[word]
    for module, word in QUALIFIED.findall(text):
        if module in modules:
            yield modules[module], word


# ---- what a crate shows


def roots(top, crate):
    """The lines of a library's root file; None for a program, of which every `pub` item counts."""
    path = os.path.join("crates", crate, "src", "lib.rt")
    return lines_of(top, path) if os.path.exists(os.path.join(top, path)) else None


def exported(root):
    """The names that a library's root passes on, and the modules that it shows whole."""
    names, modules = set(), set()
    for line in root:
        if found := re.match(r"pub mod (\w+);", line):
            modules.add(found.group(1))
        if found := re.match(r"pub use (?:crate::)?(.*);", line):
            names.update(re.findall(r"\w+", found.group(1)))
    return names, modules


def subject_of(rest):
    """The type that an `impl` is for, or the name of a trait, struct or enum."""
    rest = re.sub(r"^<[^{]*?>+ (?=\w)", "", rest.strip()) if rest.startswith("<") else rest.strip()
    rest = rest.split(" for ")[-1]
    found = re.match(r"&?(?:'\w+ )?(\w+)", rest)
    return found.group(1) if found else ""


def is_documented(lines, at):
    """A doc line stands above this line, with attributes between them or none."""
    at -= 1
    while lines[at].strip().startswith("#["):
        at -= 1
    return lines[at].strip().startswith("///")


def clauses_below(lines, at):
    """The clauses between a function's first line and its body."""
    found = []
    for line in lines[at + 1 :]:
        text = line.strip()
        if CLAUSE.match(text):
            found.append(text)
        elif found and not text.startswith(("//", "{", "}")) and text and not FUNCTION.match(line):
            found[-1] += " " + text
        if text in ("{", "{}") or text.endswith(";") or FUNCTION.match(line) or line.startswith("}"):
            break
    return found


class Shown:
    """A source file with what a caller outside its crate can reach in it: functions, the ghost members of traits and what
    types are seen as (`members`), and what the members of an `impl` are (`ghosts`)."""

    def __init__(self, top, path, shows):
        self.path, self.lines, self.shows = path, lines_of(top, path), shows
        self.functions, self.members, self.ghosts = [], [], []
        self.read()

    def read(self):
        kind, shown = "", False
        for at, line in enumerate(self.lines):
            if found := BLOCK.match(line):
                kind = "of a trait" if " for " in line and found.group(2) == "impl" else found.group(2)
                shown = self.shows(subject_of(found.group(3)))
            elif line.startswith("}"):
                kind, shown = "", False
            if found := FUNCTION.match(line):
                self.function(at, found.group(1), kind, shown)
            elif GHOST.match(line) and shown and (kind != "struct" or "pub ghost" in line):
                is_told = kind != "of a trait" or line.strip().startswith("ghost Value")
                (self.members if is_told else self.ghosts).append(line.strip())

    def function(self, at, name, kind, shown):
        is_pub = self.lines[at].strip().startswith("pub ") or kind == "trait"
        public = is_pub and (shown if kind else self.shows(name))
        of_trait = kind == "of a trait" and shown
        clauses = clauses_below(self.lines, at)
        told = is_documented(self.lines, at)
        self.functions.append(Function(self.path, at + 1, name, clauses, public, told or of_trait))
        if of_trait:
            self.members.extend(clauses)


def sources(top, crate):
    """The source files of a crate, but for its tests."""
    root = roots(top, crate)
    names, modules = exported(root) if root is not None else (set(), set())
    for path in files_in(top, crate, "src", ".rt"):
        module = os.path.relpath(path, os.path.join("crates", crate, "src"))[: -len(".rt")]
        if not module.endswith("tests"):
            whole = root is None or module.split(os.sep)[0] in modules
            yield Shown(top, path, lambda name, whole=whole: whole or name in names)


# ---- what the clauses reach


def definitions(top, crates):
    """Each public definition of specs/, by module and name: its file, its own text, and the imports of its file."""
    found = {}
    for crate in crates:
        for path in files_in(top, crate, "specs", ".antt"):
            lines = lines_of(top, path)
            module = "Rattle." + path[len("crates/") : -len(".antt")].replace(os.sep, ".")
            starts = [at for at, line in enumerate(lines) if DEFINITION.match(line)]
            names, modules = imports_of(lines)
            own = [DEFINITION.match(lines[at]).group(1) for at in starts]
            names.update({name.replace("◌", ""): (module, name) for name in own})
            for name, start, end in zip(own, starts, starts[1:] + [len(lines)]):
                text = "\n".join(line for line in lines[start:end] if not line.strip().startswith("--"))
                found[module, name] = (path, text, names, modules)
    return found


def named_by(texts, lines):
    """The definitions that these clauses of a file name."""
    names, modules = imports_of(lines)
    for text in texts:
        yield from words_in(text, names, modules)


def told_by(source):
    """The public clauses of a file, with the members of its traits."""
    return source.members + [clause for each in source.functions if each.public for clause in each.clauses]


def seeds(top, crates):
    """What the public clauses of all crates name, and what types are seen as."""
    for crate in crates:
        for source in sources(top, crate):
            yield from named_by(told_by(source) + source.ghosts, source.lines)


def reached(known, first):
    """The definitions that these lead to, themselves among them."""
    seen, left = set(), list(first)
    while left:
        each = left.pop()
        if each in known and each not in seen:
            seen.add(each)
            _, text, names, modules = known[each]
            left.extend(words_in(text, names, modules))
    return seen


def unreached(top, crates):
    """The definitions that no public clause reaches, outside of files that are named Inside*: file and name."""
    known = definitions(top, crates)
    seen = reached(known, seeds(top, crates))
    for (module, name), (path, *_) in known.items():
        if (module, name) not in seen and not os.path.basename(path).startswith("Inside"):
            yield path, name


def words_from_outside(top, crates):
    """The words of other libraries that public clauses use, by themselves or in definitions: each with a file that does."""
    known = definitions(top, crates)
    own = tuple(f"Rattle.{crate}." for crate in crates)
    found, first = {}, []
    for crate in crates:
        for source in sources(top, crate):
            for each in named_by(told_by(source), source.lines):
                first.append(each)
                found.setdefault(each, source.path)
    for each in sorted(reached(known, first)):
        path, text, names, modules = known[each]
        for word in words_in(text, names, modules):
            found.setdefault(word, path)
    return {name.replace("◌", ""): path for (module, name), path in found.items() if not module.startswith(own)}
