"""Reads the definitions of specs/, and the types, traits and contracts of src/, and tells which of these each names.

It knows of the languages only how a definition, a type or a contract begins and ends, which words it binds itself, and
where a file takes the others from. A word that it can't find in the crates is the kit's, or a variable.
"""

import functools
import pathlib
import re
import typing

TOP = pathlib.Path(__file__).resolve().parent.parent
CRATES = TOP / "crates"

NAME = r"[^\s(){}\[\],;|.:]+"
HEAD = re.compile(rf"(?:(?:unfoldable|abbrev|pub|record|data) )+({NAME})|({NAME})(?: {NAME})* : ")
SPEC_IMPORT = re.compile(r"(?:pub |ghost )?use ([\w.]+?)(?:\.\{(.*)\}| as (\w+));?$")
RUST_IMPORT = re.compile(r"^ *(?:pub )?use ([\w:]+?)(?:::\{([^}]*)\}| as (\w+))?;", re.MULTILINE)
# Words of the language, which name nothing.
LANGUAGE = frozenset("Type Unit abbrev data elim else if in let pub record then unfoldable where".split())
RUST_ITEM = re.compile(r"^(?:pub(?:\(crate\))? )?(enum|struct|type|const|trait) (\w+)")


class Part(typing.NamedTuple):
    """The signature of a definition, or one of its clauses: its text, what stands before the `=`, and how many lines."""

    text: str
    left: str
    lines: int


class Item(typing.NamedTuple):
    """A definition, type, trait or contract. `bound` are words that mean nothing outside of it."""

    path: pathlib.Path
    name: str
    parts: typing.List[Part]
    bound: typing.FrozenSet[str]


# ---- words


def without_comments(text):
    return re.sub(r"(?m)(?:--|//).*$", "", re.sub(r'"[^"\n]*"', "", text))


def words(text):
    """The words of a text, a dotted one as a tuple of its parts."""
    for word in re.findall(r"[^\s(){}\[\],;|&<>!?]+", text):
        yield tuple(part for part in word.strip(".:").split(".") if part) or (word,)


def binders(text):
    """The words that a clause binds: by λ, by `let`, in a pattern of `elim`, and with their types in parentheses."""
    for names in re.findall(r"λ ([^.]*)\.", text) + re.findall(r"[\[|]([^↦|\[\]]*)↦", text):
        yield from (word[0] for word in words(names.split(" : ")[0]) if word[0][0].islower() or word[0] == "_")
    for names in re.findall(r"[({]([^(){}:]+) : ", text) + re.findall(r"\blet (\w+)", text):
        yield from names.split()


def without_fields(text):
    """A text without the names of fields, where a record is made or a field taken."""
    return re.sub(r"(?<=[{;])\s*\w+ = |(?<=\))\.\w+(?:\.\w+)*", " ", text)


def named_by(part, bound):
    """The words of a part that it doesn't bind."""
    text = without_comments(part.text)
    own = set(binders(text)) | {word[0] for word in words(part.left) if word[0][0].islower()} | bound
    return {word for word in words(without_fields(text)) if word[0] not in own}


# ---- specs


def part_of(lines):
    text = "\n".join(lines)
    code = without_comments(text)
    left = re.split(r"\s=\s", code + "\n")[0]
    return Part(text, "" if left == code + "\n" or " : " in left else left, sum(1 for line in lines if line.strip()))


def dedented(lines):
    """The lines with their modules' contents moved to the left, each with the words that its module binds."""
    bound = frozenset()
    for line in lines:
        if line.startswith("module _ "):
            bound = frozenset(binders(line))
        elif bound and (line.startswith("  ") or not line.strip()):
            yield line[2:], bound
        else:
            bound = frozenset()
            yield line, bound


def begins(line, current):
    """The name of the definition that begins at a line, if one does."""
    found = HEAD.match(line)
    name = found and (found.group(1) or found.group(2))
    return name if name and not (found.group(2) and name == current) else None


def constructors(item):
    """The constructors of a data type."""
    return re.findall(rf"(?m)^  (?:pub )?({NAME}) : ", item.parts[0].text) if " data " in f" {item.parts[0].text}" else []


def fields(text):
    """The fields of a record, which are words of its own."""
    return frozenset(re.findall(r"(?m)^  (?:pub )?(\w+) : ", text)) if re.search(r"(?m)^(?:\w+ )*record ", text) else frozenset()


def items_of(lines, path):
    """The definitions of a spec file, by their names and by those of their constructors."""
    found, name, comment, parts, around = {}, None, [], [], frozenset()

    def close():
        if name:
            made = [part_of(part) for part in parts]
            item = Item(path, name, made, around | fields(made[0].text))
            found.update({each: item for each in [name, *constructors(item)]})

    for line, bound in dedented(lines):
        if line.startswith("--"):
            comment.append(line)
        elif not line.strip() or SPEC_IMPORT.match(line) or line.startswith("pub mod "):
            comment = []
        elif begins(line, name):
            close()
            name, parts, comment, around = begins(line, name), [[*comment, line]], [], bound
        elif line.startswith(" ") or line.startswith("}"):
            parts[-1].append(line)
        else:
            parts.append([*comment, line])
            comment = []
    close()
    return found


def spec_imports(lines):
    """Where a file's words come from: each a module and a word there, or a module alone."""
    found = {}
    for line in lines:
        match = SPEC_IMPORT.match(line.strip())
        if not match:
            continue
        module, names, alias = match.groups()
        if alias:
            found[alias] = (module, None)
        for name in (names or "").split(","):
            source, _, own = name.strip().partition(" as ")
            found[own or source] = (module, source)
    return found


# ---- Rust


def block(lines, start):
    """The lines of an item from its first line to the end of its braces, or to its semicolon."""
    depth = 0
    for end in range(start, len(lines)):
        line = re.sub(r"'[{}]'", "", without_comments(lines[end]))
        depth += line.count("{") - line.count("}")
        if depth == 0 and (line.rstrip().endswith((";", "}"))):
            return lines[start : end + 1]
    return lines[start:]


def with_docs(lines, start):
    """The first line of the comments and attributes above a line."""
    while start and re.match(r"\s*(///|//|#\[)", lines[start - 1]):
        start -= 1
    return start


def seen_as(lines, name):
    """The lines that say what contracts see of a type, where it is not what it is made of."""
    for start, line in enumerate(lines):
        if re.match(rf"impl(<.*>)? Model for {name}\b", line):
            return [each for each in block(lines, start) if "ghost Value" in each]
    return None


def rust_item(path, lines, name):
    """A type, constant or trait of a file, if it is there."""
    for start, line in enumerate(lines):
        found = RUST_ITEM.match(line)
        if found and found.group(2) == name:
            seen = seen_as(lines, name)
            text = block(lines, start) if seen is None else seen
            shown = lines[with_docs(lines, start) : start] + text if seen is None else text
            return Item(path, name, [part_of(shown)._replace(left="")], frozenset())
    return None


def contracts(path, wanted=None):
    """The signatures and clauses of a file's public functions, or of some of them."""
    lines = lines_of(path)
    for start, line in enumerate(lines):
        found = re.match(r"\s*pub fn (\w+)", line)
        if found and (wanted is None or found.group(1) in wanted):
            end = next(n for n in range(start, len(lines)) if re.match(r"\s*\{(\}|$)|.*\) (-> .*)?\{$", lines[n]))
            text = [*lines[with_docs(lines, start) : end], lines[end].replace("{", "")]
            around = next((each for each in lines[start::-1] if line.startswith(" ") and each.startswith("impl")), "")
            parts = [part_of(text)._replace(left=""), Part(around, "", 0)]
            yield Item(path, found.group(1), parts, frozenset())


def rust_imports(text):
    """Where a file's Rust words come from: each a path of modules and a word there."""
    found = {}
    for path, names, alias in RUST_IMPORT.findall(text):
        for name in (names or path.rpartition("::")[2]).split(","):
            source, _, own = name.strip().partition(" as ")
            if source:
                found[alias or own or source] = (path if names else path.rpartition("::")[0], source)
    return found


# ---- files


@functools.lru_cache(None)
def lines_of(path):
    return path.read_text(encoding="utf-8").splitlines()


@functools.lru_cache(None)
def specs_of(path):
    return items_of(lines_of(path), path)


@functools.lru_cache(None)
def imports_of(path):
    return spec_imports(lines_of(path)), rust_imports("\n".join(lines_of(path)))


def in_specs(crate, modules, name):
    path = (CRATES / crate / "specs").joinpath(*modules).with_suffix(".antt")
    if not path.exists():
        return None
    if name in specs_of(path):
        return specs_of(path)[name]
    return from_import(imports_of(path)[0].get(name))


def in_rust(crate, modules, name):
    path = (CRATES / crate / "src").joinpath(*(modules or ["lib"])).with_suffix(".rt")
    if not path.exists():
        return None
    found = rust_item(path, lines_of(path), name)
    return found or from_path(crate, imports_of(path)[1].get(name))


def from_import(taken, inside=None):
    """The item that a spec import leads to; `inside` is the word behind the name of a whole module."""
    module, name = taken or ("", None)
    _, crate, kind, *modules = (module.split(".") + ["", "", ""])[: max(3, len(module.split(".")))]
    name = name or inside
    if not name or not (CRATES / crate).is_dir() or kind != "specs":
        return None
    if modules[:1] != ["declared"]:
        return in_specs(crate, modules, name)
    if modules[-1] == "TheConstants":
        return in_rust(crate, modules[1:-1], name)
    owner = modules[-2] if modules[-1] == "TheVariants" else modules[-1]
    files = modules[1:-2] if modules[-1] == "TheVariants" else modules[1:-1]
    return in_rust(crate, files, owner)


def from_path(crate, taken):
    """The item that a Rust path leads to, seen from a crate."""
    if not taken:
        return None
    first, *modules = taken[0].split("::")
    if first == "crate":
        return in_rust(crate, modules, taken[1])
    if (CRATES / first).is_dir():
        return in_rust(first, modules, taken[1])
    return in_rust(crate, [first, *modules], taken[1])


def item_of(word, path):
    """The item that a word of a file names, if it is one of the crates'."""
    specs, rust = imports_of(path)
    if path.suffix == ".antt" and word[0] in specs_of(path):
        return specs_of(path)[word[0]]
    if word[0] in specs:
        return from_import(specs[word[0]], word[1] if len(word) > 1 else None)
    if path.suffix == ".rt":
        crate = path.relative_to(CRATES).parts[0]
        return rust_item(path, lines_of(path), word[0]) or from_path(crate, rust.get(word[0]))
    return None


def kit_word(word, path):
    """The kit's module from which a file takes a word, and the word there."""
    module, name = imports_of(path)[0].get(word[0], ("", None))
    inside = re.fullmatch(r"Rattle\.(\w+)\.specs.*|mathlib.*|lib.*", module)
    return (module, name or word[-1]) if inside and not (CRATES / (inside.group(1) or "")).is_dir() else None


class Closure:
    """All that some items rest on: the parts of each item that count, which files name which, the kit's words, and words of
    definitions that are none of these and not bound, of which there should be none."""

    def __init__(self, roots, counts=lambda item, part: True):
        self.parts, self.files, self.kit, self.unknown = {}, {}, set(), set()
        left = list(roots)
        while left:
            item = left.pop()
            if (item.path, item.name) not in self.parts:
                self.parts[item.path, item.name] = [part for part in item.parts if counts(item, part)]
                left.extend(self.named(item))

    def named(self, item):
        """The items that an item names."""
        words = set().union(*(named_by(part, item.bound) for part in self.parts[item.path, item.name]))
        others = {word: item_of(word, item.path) for word in sorted(words)}
        kit = {word: kit_word(word, item.path) for word in words if not others[word]}
        self.files.setdefault(item.path, set()).update(other.path for other in others.values() if other)
        self.kit.update(found for found in kit.values() if found)
        if item.path.suffix == ".antt":
            left = {word[0] for word in kit if not kit[word]} - LANGUAGE
            self.unknown.update((item.path.name, word) for word in left if re.fullmatch(r"[A-Za-z]\w+", word))
        return [other for other in others.values() if other]

    def lines(self, path):
        """How many lines of a file count."""
        return sum(part.lines for (of, _), parts in self.parts.items() for part in parts if of == path)

    def names(self, path):
        return sorted(name for of, name in self.parts if of == path)
