"""Reads the sources of the crates and of the kit's libraries as `tools/promise` shows them: imports, definitions of
specs/, types and functions of src/. Names are resolved by the imports of the file that uses them and in no other way."""
import functools
import os
import re
import shutil

TOP = os.path.dirname(os.path.dirname(os.path.realpath(__file__)))
CRATES = os.path.join(TOP, "crates")

USE = re.compile(r"^(?:ghost )?(?:pub )?use ([\w.]+?)(?:\.\{(.*)\}| as ([\w'-]+))?;?$")
ITEM = re.compile(r"^(?:abbrev |unfoldable |opaque )*(?:pub )?(?:(?:record|data) )?(?!pub\b)([^\W\d][\w'-]*)\b")
TYPE = re.compile(r"^(?:///[^\n]*\n|#\[[^\n]*\]\n)*pub(?:\(\w+\))? (?:struct|enum) (\w+)\b.*?(?:^}|;$)", re.M | re.S)
HEAD = re.compile(r'^( *)pub (?:const |unsafe |extern "C" )*fn (\w+)\b')
IMPL = re.compile(r"^impl(?:<.*?>)? (\w+)")


@functools.lru_cache(maxsize=None)
def text_of(path):
    with open(path, encoding="utf-8") as file:
        return file.read()


@functools.lru_cache(maxsize=None)
def kit():
    """The folder of the kit's libraries, or None where there is no kit."""
    found = shutil.which("rt")
    folder = found and os.path.join(os.path.dirname(os.path.dirname(os.path.realpath(found))), "rattle")
    return folder if folder and os.path.isdir(folder) else None


def is_own(crate):
    """Whether a crate is one of this repository, and no library of the kit."""
    return os.path.isdir(os.path.join(CRATES, crate))


def folder_of(crate):
    """The folder of a crate of this repository or of the kit, or None."""
    if is_own(crate):
        return os.path.join(CRATES, crate)
    return os.path.join(kit(), crate) if kit() and os.path.isdir(os.path.join(kit(), crate)) else None


def rust_files(crate):
    src = os.path.join(folder_of(crate) or "", "src")
    return [os.path.join(where, it) for where, _, its in sorted(os.walk(src)) for it in sorted(its) if it.endswith(".rt")]


def crates_listed():
    """The crates of this repository, lowest first, as crates.txt has them."""
    lines = text_of(os.path.join(TOP, "crates.txt")).split("\n")
    return [it.partition(":")[0].split()[0] for it in lines if it.partition("#")[0].strip()]


def spec_files(crate):
    """The files of specs/ but Lib.antt, by name."""
    folder = os.path.join(CRATES, crate, "specs")
    names = sorted(os.listdir(folder)) if os.path.isdir(folder) else []
    return [os.path.join(folder, it) for it in names if it.endswith(".antt") and it != "Lib.antt"]


def worked_files(crate):
    folder = os.path.join(CRATES, crate, "proofs")
    names = sorted(os.listdir(folder)) if os.path.isdir(folder) else []
    return [os.path.join(folder, it) for it in names if it.startswith("Worked") and it.endswith(".antt")]


def words_of(lines):
    """Lines of comments as one text."""
    return " ".join(it.lstrip("-").strip() for it in lines if it.startswith("--")).strip()


def head_words(path):
    """The comment at the head of a file, as one text."""
    lines = []
    for line in text_of(path).split("\n"):
        if not line.startswith("--"):
            break
        lines.append(line)
    return words_of(lines)


def split_braces(text):
    """The parts of a list between braces, at its commas: those inside of further braces stay together."""
    parts, depth, last = [], 0, 0
    for at, sign in enumerate(text + ","):
        depth += {"{": 1, "}": -1}.get(sign, 0)
        if sign == "," and not depth:
            parts.append(text[last:at].strip())
            last = at + 1
    return [it for it in parts if it]


def rust_uses(tree, before=()):
    """Each name that a Rust import brings in, with its path in words."""
    head, brace, rest = tree.partition("{")
    words = [*before, *[it for it in head.strip().split("::") if it]]
    if brace:
        for part in split_braces(rest.rpartition("}")[0]):
            yield from rust_uses(part, words)
    elif words:
        origin, _, alias = words[-1].partition(" as ")
        yield alias.strip() or origin, [*words[:-1], origin]


class Source:
    """A file: its imports, of specs/ its definitions, of src/ the Rust names that it brings in."""

    def __init__(self, crate, path):
        self.crate, self.path = crate, path
        self.names, self.aliases, self.items, self.rust = {}, {}, {}, {}
        text = text_of(path)
        lines = text.split("\n")
        for line in lines:
            self.take_import(line.strip())
        if path.endswith(".antt"):
            self.read_items(lines)
        else:
            for found in re.finditer(r"^\s*(?:pub )?use ([^;]+);", text, re.M):
                self.rust.update(rust_uses(" ".join(found.group(1).split())))

    def take_import(self, line):
        found = USE.match(line)
        if not found:
            return
        module, several, alias = found.groups()
        if alias:
            self.aliases[alias] = module
        for one in (several or "").split(","):
            words = one.split()
            if words:
                self.names[words[-1]] = (module, words[0])

    def read_items(self, lines):
        comment, name, block = [], None, []
        for line in [*lines, "module"]:
            is_text = line.startswith("--")
            is_inside = bool(line) and line[0].isspace()
            found = None if is_text or is_inside else ITEM.match(line)
            if name and (is_inside or not line.strip() or (found and found.group(1) == name)):
                block.append(line)
                continue
            if name:
                self.items.setdefault(name, "\n".join(block).rstrip())
                name, block = None, []
            if is_text:
                comment.append(line)
                continue
            is_other = USE.match(line) or line.startswith(("pub mod ", "mod ", "pub use ", "module"))
            if found and not is_other:
                name, block = found.group(1), [*comment, line]
            comment = []


@functools.lru_cache(maxsize=None)
def source(crate, path):
    return Source(crate, path)


def module(name):
    """The file of a module of a crate's specs/, or None."""
    words = name.split(".")
    if len(words) < 4 or words[0] != "Rattle" or words[2] != "specs" or words[3] == "declared":
        return None
    path = os.path.join(folder_of(words[1]) or "", "specs", *words[3:]) + ".antt"
    return source(words[1], path) if os.path.isfile(path) else None


def declared(name):
    """The Rust type that a module under specs.declared stands for: crate, path of its module and name, or None."""
    words = name.split(".")
    if len(words) < 5 or words[0] != "Rattle" or words[2:4] != ["specs", "declared"]:
        return None
    words = words[:-1] if words[-1] == "TheVariants" else words
    return (words[1], tuple(words[4:-1]), words[-1])


@functools.lru_cache(maxsize=None)
def types_of(path):
    """The types that a file declares: name to text with documentation."""
    return {it.group(1): it.group(0) for it in TYPE.finditer(text_of(path))}


@functools.lru_cache(maxsize=None)
def type_at(crate, where, name):
    """The file that declares a type of a crate of this repository: the one of its module, or else the only one."""
    if not is_own(crate):
        return None
    folder = os.path.join(CRATES, crate, "src")
    tried = [os.path.join(folder, *where) + ".rt", os.path.join(folder, *where, "mod.rt")] if where else []
    found = [it for it in tried if os.path.isfile(it) and name in types_of(it)]
    found = found or [it for it in rust_files(crate) if name in types_of(it)]
    return found[0] if len(found) == 1 or (found and tried) else None


def head_at(lines, at):
    """The documentation and the head of the function that begins on this line."""
    indent = len(lines[at]) - len(lines[at].lstrip())
    first = at
    while first and lines[first - 1].lstrip().startswith(("///", "#[")):
        first -= 1
    is_last = re.compile(r"^ {%d}(\{|.*;$)|.* \{$" % indent)
    last = next(it for it in range(at, len(lines)) if is_last.match(lines[it]))
    doc = [it.strip()[4:] for it in lines[first:at] if it.lstrip().startswith("///")]
    return doc, [it[indent:] for it in lines[at:last]]


@functools.lru_cache(maxsize=None)
def functions_of(path):
    """The public functions of a file: the type whose method it is, or '', the name, documentation and head."""
    lines, owner, found = text_of(path).split("\n"), "", []
    for at, line in enumerate(lines):
        begun = IMPL.match(line)
        if begun:
            owner = "" if " for " in line else begun.group(1)
        elif line == "}":
            owner = ""
        head = HEAD.match(line)
        if head and (not head.group(1) or owner):
            found.append((owner if head.group(1) else "", head.group(2), *head_at(lines, at)))
    return found


def function(crate, name, owner=""):
    """The file, documentation and head of a public function or method of a crate."""
    for path in rust_files(crate):
        for own, called, doc, head in functions_of(path):
            if (own, called) == (owner, name):
                return path, doc, head
    raise SystemExit(f"promise: no function {name} in {crate}")


def public_calls(crate):
    """The public calls of a crate by the names that its lib.rt hands out: (owner, name), in the order of its files."""
    shown = source(crate, os.path.join(CRATES, crate, "src", "lib.rt")).rust
    for path in rust_files(crate):
        for owner, name, _, _ in functions_of(path):
            if (owner or name) in shown:
                yield owner, name
