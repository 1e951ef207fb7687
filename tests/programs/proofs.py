#!/usr/bin/env python3
"""Checks what pages say of proofs against the sources, and writes the index of all public calls.

    tests/programs/proofs.py             status 0 where all is there
    tests/programs/proofs.py --write     writes docs/proofs/INDEX.md, and makes each name of docs/PROOFS.md and docs/WRONG-BODIES.md as short as
                                         it is clear
    tests/programs/proofs.py --full      each name of these two pages with all its modules

Before names are changed by a script: `--full`. Afterwards: `--write`.

- Each `crate::item` is one item of that crate. Modules between the two may be left out where the item is the only one; a module counts
  only where nothing else has the name.
- A table with the columns Call and Clauses names only clauses that the contract of each call of the row has. So does the text of each page
  that has statements of proofs: `crate::item` (clause `x`), or `crate::item`, clauses `x` and `y`.
- Each `NAME.edit` lies in the must-fail folder of exactly one crate; each `crate/..` in backticks is a file or folder.
- docs/PROOFS.md names each edit of the repository.
- docs/proofs/INDEX.md has each public call of each library, with all of its clauses.
"""
import collections
import os
import re
import sys

sys.dont_write_bytecode = True
sys.path.insert(0, os.path.join(os.path.dirname(os.path.abspath(__file__)), "..", "..", "bench"))
from laying import OUTSIDE

TOP = os.path.realpath(os.path.join(os.path.dirname(os.path.abspath(__file__)), "..", ".."))
CRATES = os.path.join(TOP, "crates")
NAME = re.compile(r"`([a-z]\w*(?:::\w+)+)`")
KINDS = r"(?:fn|struct|enum|trait|mod|type|const|static|union)"

# where: the modules and, of a method, the type or trait; place: the number of the line in the file
Item = collections.namedtuple("Item", "name kind where clauses trait path place")


def read(path):
    with open(path, encoding="utf-8") as file:
        return file.read()


def files_of(crate):
    for folder, _, names in sorted(os.walk(os.path.join(CRATES, crate, "src"))):
        for name in sorted(names):
            if name.endswith(".rt"):
                yield os.path.join(folder, name)


def modules_of(crate, path):
    words = os.path.relpath(path, os.path.join(CRATES, crate, "src"))[:-3].split(os.sep)
    return [word for word in words if word not in ("lib", "main")]


def contract_at(lines, at):
    """The clauses of the function whose first line is there, each with its lines, and the line behind the contract. A clause without
    a name counts as `ensures` or `requires`."""
    clauses, depth, begins = [], 0, None
    for number in range(at, len(lines)):
        line = lines[number].strip()
        if depth == 0:
            clause = re.match(r"(ensures|requires)(?: (\w+))? \{", line)
            if clause:
                clauses.append([clause.group(2) or clause.group(1), number, number])
            elif number > at and re.match(r"\{|\}|pub |fn |#\[|///", line):
                return clauses, number
            elif not line.startswith("//") and line.endswith(("{}", ";", "{")):
                return clauses, number + 1
            if not clause:
                continue
        depth += line.count("{") - line.count("}")
        clauses[-1][2] = number
        if depth == 0 and line.endswith(";"):
            return clauses, number + 1
    return clauses, len(lines)


def owner_in(head):
    """The type of an `impl` line, and the trait if there is one."""
    head = re.sub(r"^(?:pub )?(?:unsafe )?impl\s*", "", head)
    if head.startswith("<"):
        depth = 0
        for place, letter in enumerate(head):
            depth += (letter == "<") - (letter == ">" and head[place - 1] != "-")
            if depth == 0:
                head = head[place + 1 :]
                break
    parts = re.split(r" for ", head.strip(), maxsplit=1)
    words = [re.match(r"[\w:]*", part.strip()).group(0).split("::")[-1] for part in parts]
    return (words[-1], words[0]) if len(words) == 2 else (words[0], None)


def items_in(crate):
    for path in files_of(crate):
        modules = modules_of(crate, path)
        lines = read(path).split("\n")
        owner = trait = None
        if modules:
            yield Item(modules[-1], "mod", modules[:-1], [], None, path, 0)
        for at, line in enumerate(lines):
            if re.match(r"(?:unsafe )?impl\b", line):
                owner, trait = owner_in(line if "{" in line else " ".join(lines[at : at + 4]))
            found = re.match(r"(?:pub )?trait (\w+)", line)
            if found:
                owner, trait = found.group(1), None
                yield Item(found.group(1), "trait", modules, [], None, path, at)
                continue
            if line.startswith("}"):
                owner = trait = None
            found = re.match(r"\s*(?:pub(?:\([^)]*\))? )?(" + KINDS + r") (\w+)", line)
            if found:
                kind, name = found.groups()
                inner = line.startswith(" ")
                where = modules + ([owner] if owner and inner else [])
                clauses = [clause[0] for clause in contract_at(lines, at)[0]] if kind == "fn" else []
                yield Item(name, kind, where, clauses, trait if inner else None, path, at)


def passed_on(crate):
    """The names that a crate passes on by `pub use`."""
    names = set()
    for path in files_of(crate):
        for use in re.findall(r"^pub use ([^;]*);", read(path), re.MULTILINE):
            names.update(re.findall(r"(\w+)(?=\s*[,}]|$)", use))
    return names


class Sources:
    def __init__(self):
        self.crates = sorted(name for name in os.listdir(CRATES) if os.path.isdir(os.path.join(CRATES, name, "src")))
        self.items = {}
        self.texts = {}

    def lines(self, path):
        if path not in self.texts:
            self.texts[path] = read(path).split("\n")
        return self.texts[path]

    def of(self, crate):
        if crate not in self.items:
            self.items[crate] = list(items_in(crate))
        return self.items[crate]

    def found(self, path):
        """The items that a path may name."""
        crate, *middle, last = path.split("::")
        fits = []
        for item in self.of(crate):
            rest = iter(item.where)
            typed = not middle or not middle[-1][0].isupper() or (item.where and item.where[-1] == middle[-1])
            if item.name == last and typed and all(word in rest for word in middle):
                fits.append(item)
        fits = [item for item in fits if item.kind != "mod"] or fits
        exact = [item for item in fits if list(item.where) == middle]
        if len(exact) == 1:
            return exact
        # A name that is public and, elsewhere in the crate, private is the public one's.
        public = [item for item in fits if self.lines(item.path)[item.place].lstrip().startswith("pub ")]
        return public if len(public) == 1 else fits

    def clauses(self, item):
        """Those of the item, or of the trait's method where it writes none."""
        if item.clauses or not item.trait:
            return item.clauses
        for crate in self.crates:
            for other in self.of(crate):
                if other.name == item.name and other.where and other.where[-1] == item.trait and other.trait is None and other.clauses:
                    return other.clauses
        return []


def name_faults(page, sources):
    for name in sorted(set(NAME.findall(page))):
        crate = name.split("::")[0]
        # What stands outside of crates/ has no promise here; names.py looks whether it is there.
        if crate in OUTSIDE:
            continue
        if crate not in sources.crates:
            yield f"no crate of that name: {name}"
            continue
        found = sources.found(name)
        kinds = {(item.kind, tuple(item.where)) for item in found}
        if not found and not (name.count("::") == 1 and name.split("::")[1] in passed_on(crate)):
            yield f"no such item: {name}"
        elif len(kinds) > 1:
            yield f"more than one: {name}: " + ", ".join("::".join(where) for _, where in sorted(kinds))


def clause_faults(page, sources):
    is_table = False
    for line in page.split("\n"):
        cells = [cell.strip() for cell in line.strip("|").split(" | ")] if line.startswith("|") else []
        if not cells:
            is_table = False
        elif [cell.strip() for cell in cells[:2]] == ["Call", "Clauses"]:
            is_table = True
        elif is_table and not set(line) <= set("|- "):
            for name in NAME.findall(cells[0]):
                for item in sources.found(name)[:1] if name.split("::")[0] in sources.crates else []:
                    has = sources.clauses(item)
                    for clause in re.findall(r"`(\w+)`", cells[1]):
                        if clause not in has:
                            yield f"{name} has no clause {clause}, but {', '.join(has) or 'none'}"


def edits():
    found = collections.defaultdict(list)
    for crate in sorted(os.listdir(CRATES)):
        folder = os.path.join(CRATES, crate, "must-fail")
        for name in sorted(os.listdir(folder)) if os.path.isdir(folder) else []:
            found[name].append(crate)
    return found


def file_faults(page):
    lie = edits()
    named = set(re.findall(r"`(\w+\.edit)`", page))
    for name in sorted(named):
        if len(lie.get(name, [])) != 1:
            yield f"{name} lies in {len(lie.get(name, []))} crates"
    for path in sorted(set(re.findall(r"`([\w.]+/[\w./]+)`", page))):
        if not any(os.path.exists(os.path.join(top, path)) for top in (TOP, CRATES)):
            yield f"no such file: {path}"


# What joins names or clauses in a list.
AND = r"(?:, | and |, and )"
CLAUSED = re.compile(r"`([a-z]\w*(?:::\w+)+)`(?: \(|, )clauses? ((?:`\w+`" + AND + r"?)+)")


def prose_clause_faults(page, sources):
    """The clauses that a sentence names of a call, and the call lacks."""
    text = re.sub(r"\s+", " ", page)
    for name, clauses in CLAUSED.findall(text):
        for item in sources.found(name)[:1] if name.split("::")[0] in sources.crates else []:
            has = sources.clauses(item)
            for clause in re.findall(r"`(\w+)`", clauses):
                if clause not in has:
                    yield f"{name} has no clause {clause}, but {', '.join(has) or 'none'}"


def comment_above(lines, at):
    """The first sentence of the doc comment above a line, without line breaks."""
    first = at
    while first > 0 and lines[first - 1].strip().startswith(("///", "#[")):
        first -= 1
    text = " ".join(line.strip()[3:].strip() for line in lines[first:at] if line.strip().startswith("///"))
    text = text.split("  ")[0]
    sentence = re.match(r"(.*?[.:!?])(?: [A-Z`#].*)?$", text)
    return (sentence.group(1) if sentence else text).replace("|", "\\|")


def is_library(crate):
    return os.path.exists(os.path.join(CRATES, crate, "src", "lib.rt")) and not crate.startswith("test")


def listed_crates():
    with open(os.path.join(TOP, "crates.txt"), encoding="utf-8") as file:
        return [line.split(":")[0].strip() for line in file if ":" in line and not line.startswith("#")]


def is_public(item, lines):
    """Whether an item is seen by other crates: it is `pub`, or the method of a trait or of a trait's implementation."""
    return re.match(r"\s*pub ", lines[item.place]) is not None


def rows_of(crate, sources):
    for item in sources.of(crate):
        if item.kind != "fn":
            continue
        lines = sources.lines(item.path)
        in_trait = item.where and any(other.kind == "trait" and other.name == item.where[-1] for other in sources.of(crate))
        if not is_public(item, lines) and not in_trait:
            continue
        clauses = ", ".join(f"`{clause}`" for clause in item.clauses if clause != "requires") or "none"
        wants = ", ".join(sorted({"a premise"} if "requires" in item.clauses else set()))
        what = comment_above(lines, item.place)
        yield f"| `{short_name(crate, item, sources)}` | {clauses} | {what}{' *(' + wants + ')*' if wants else ''} |"


INDEX_HEAD = """# Each public call, with all of its clauses

`tests/programs/proofs.py --write` wrote this page from the sources; no line of it is written by hand. docs/PROOFS.md says what the promises are,
and which of these calls carry them. The gate proves every clause of every call.

A clause is a named `ensures`; `ensures` stands for one without a name, and `none` for a call that is only proved to be safe. A premise is a
`requires`. A call without a body is a law: its clause is a statement over definitions. The sentence is the first of the call's own comment.
"""


def index(sources):
    parts = [INDEX_HEAD]
    for crate in listed_crates():
        rows = list(rows_of(crate, sources)) if is_library(crate) else []
        if rows:
            parts.append(f"\n## {crate}\n\n| Call | Clauses | What it does |\n|---|---|---|\n" + "\n".join(rows) + "\n")
    return "".join(parts)


def full_name(crate, item):
    return "::".join([crate, *item.where, item.name])


def short_name(crate, item, sources):
    """The shortest name that is clear: with the type of a method, and with as few modules as will do."""
    is_method = bool(item.where) and item.where[-1][0].isupper()
    modules, owner = (item.where[:-1], item.where[-1:]) if is_method else (item.where, [])
    for chosen in [[], *([module] for module in modules), *([modules[0], module] for module in modules[1:])]:
        name = "::".join([crate, *chosen, *owner, item.name])
        if sources.found(name) == [item]:
            return name
    return full_name(crate, item)


def named(name, sources, is_full):
    crate = name.split("::")[0]
    found = sources.found(name) if crate in sources.crates else []
    if len(found) != 1:
        return name
    return full_name(crate, found[0]) if is_full else short_name(crate, found[0], sources)


def rewritten(page, sources, is_full):
    return NAME.sub(lambda name: f"`{named(name.group(1), sources, is_full)}`", page)


def write(path, text):
    os.makedirs(os.path.dirname(path), exist_ok=True)
    with open(path, "w", encoding="utf-8") as file:
        file.write(text)


DOCS = os.path.join(TOP, "docs")
INDEX = os.path.join(DOCS, "proofs", "INDEX.md")
PAGES = [os.path.join(DOCS, name) for name in ("PROOFS.md", "WRONG-BODIES.md")]
# Pages that name calls and clauses beside other things.
DECISIONS = sorted(os.path.join("decisions", name) for name in os.listdir(os.path.join(DOCS, "decisions")))
OTHERS = [os.path.join(TOP, "README.md"), *(os.path.join(DOCS, name) for name in ("ARCHITECTURE.md", *DECISIONS, "GLOSSARY.md"))]


def page_faults(path, sources):
    page = read(path)
    yield from prose_clause_faults(page, sources)
    if path in PAGES:
        yield from name_faults(page, sources)
        yield from clause_faults(page, sources)
        yield from file_faults(page)


def edit_faults(pages):
    named_edits = {name for page in pages for name in re.findall(r"`(\w+\.edit)`", page)}
    return [f"not named: {name} of {crates[0]}" for name, crates in sorted(edits().items()) if name not in named_edits]


def main(words):
    sources = Sources()
    if words and words[0] in ("--write", "--full"):
        for path in PAGES:
            write(path, rewritten(read(path), sources, words[0] == "--full"))
        if words[0] == "--full":
            return 0
        write(INDEX, index(sources))
    faults = [f"{os.path.relpath(path, TOP)}: {fault}" for path in PAGES + OTHERS for fault in page_faults(path, sources)]
    faults += edit_faults([read(path) for path in PAGES])
    if not os.path.exists(INDEX) or read(INDEX) != index(sources):
        faults.append("docs/proofs/INDEX.md is not that of the sources: proofs.py --write")
    for fault in faults:
        print(fault)
    names = {name for path in PAGES for name in NAME.findall(read(path))}
    calls = read(INDEX).count("\n| `") if os.path.exists(INDEX) else 0
    print(f"{len(names)} names, {calls} public calls, {len(faults)} faults")
    return 1 if faults or len(names) < 100 or calls < 1000 else 0


if __name__ == "__main__":
    sys.exit(main(sys.argv[1:]))
