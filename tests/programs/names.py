#!/usr/bin/env python3
"""Looks whether what a page names in backticks is there: crates, their items, paths, and words of the tree.

    tests/programs/names.py [PAGE..]     all pages where none is given; status 0 where all of it is there

docs/gate-times.md is left out: it names the crates that there were when it was measured.
"""
import os
import re
import sys

sys.dont_write_bytecode = True
sys.path.insert(0, os.path.join(os.path.dirname(os.path.abspath(__file__)), "..", "..", "bench"))
from laying import OUTSIDE

TOP = os.path.normpath(os.path.join(os.path.dirname(os.path.abspath(__file__)), "..", ".."))
CRATES = os.path.join(TOP, "crates")
# Words of the system, of ports and of other programs, and forms of dates, which no file of the tree has.
FOREIGN = {
    "curl", "epoll", "fdatasync", "free", "iconv", "lscpu", "malloc", "memcpy", "perf", "strace", "sqlite3",
    "new_transmitter", "new_receiver", "read_pdu", "busy_timeout", "Wary", "YYMMDDhhmm", "YYMMDDhhmmss", "YYMMDDhhmmsstnnp",
    "stunnel4", "CAfile",
    "serde_json", "http_server", "always_served", "record_line",
    "drbdadm", "fencing", "fence_ipmilan", "fence_virsh", "fence_vmware_rest", "nobarrier", "ring1_addr", "soft", "StandAlone",
}
BUILT = ("out/", "/out/")
TOP_PAGES = ("README.md", "CONTRIBUTING.md", "tests/README.md")
IDENTIFIER = r"[A-Za-z_][A-Za-z0-9_]*"


def text_of(path):
    with open(path, encoding="utf-8", errors="replace") as file:
        return file.read()


def files_under(*places):
    for place in places:
        for folder, _, names in os.walk(os.path.join(TOP, place)):
            yield from (os.path.join(folder, name) for name in names)


def code_of(path):
    """The text of a file without the lines that are comments."""
    return re.sub(r"^\s*(//|--|#).*$", "", text_of(path), flags=re.MULTILINE)


def words_of(paths):
    return {word for path in paths for word in re.findall(IDENTIFIER, code_of(path))}


class Tree:
    def __init__(self):
        # The folder of each crate, also of those whose sources stand outside of crates/ and have other endings.
        self.crates = {name: os.path.join("crates", name) for name in os.listdir(CRATES) if os.path.isdir(os.path.join(CRATES, name, "src"))}
        self.crates |= OUTSIDE
        sources = [path for path in files_under("crates", *OUTSIDE.values()) if path.endswith((".rt", ".antt", ".rattle", ".logic"))]
        scripts = list(files_under("tests", "bench", "demo")) + [os.path.join(TOP, name) for name in ("Makefile", "HANDLES")]
        self.words = words_of(sources + scripts) | {os.path.basename(path) for path in sources}
        self.words |= {os.path.basename(path).rsplit(".", 1)[0] for path in sources} | set(self.crates)
        self.known = {}

    def words_in(self, crate):
        """The words of a crate's sources and specs: its items, their fields and variants, its modules."""
        if crate not in self.known:
            self.known[crate] = words_of(files_under(f"{self.crates[crate]}/src", f"{self.crates[crate]}/specs"))
        return self.known[crate]

    def declares(self, crate, name):
        """Whether the crate declares the name: as an item, a module, a field or variant, a passed-on name, or a law."""
        return name in self.words_in(crate)

    def module(self, crate, names):
        path = os.path.join(TOP, self.crates[crate], "src", *names)
        return os.path.isdir(path) or os.path.isfile(path + ".rt") or os.path.isfile(path + ".rattle")

    def fault_of_path(self, names):
        crate, rest = names[0], names[1:]
        if crate in self.crates:
            if rest and not self.module(crate, rest[:1]) and not self.declares(crate, rest[0]):
                return f"{crate} has no {rest[0]}"
            absent = [name for name in rest[1:] if not self.declares(crate, name)]
            return f"{crate} has no {absent[0]}" if absent else None
        if re.match(r"(sms|smsc|smpp|test|lab)_", crate) and crate not in self.words:
            return f"there is no crate {crate}"
        absent = [name for name in names if name not in self.words]
        return f"no word {absent[0]} in the tree" if absent else None

    def fault_of_file(self, name):
        name = name.strip("/").split(" ")[0].split("/*")[0]
        if any(part in name for part in BUILT):
            return None
        places = (TOP, CRATES, os.path.join(TOP, "docs"))
        return None if any(os.path.exists(os.path.join(place, name)) for place in places) else f"no file {name}"

    def fault_of(self, token):
        token = re.sub(r"\(.*\)$", "", token.strip())
        if token in FOREIGN or re.fullmatch(r"[0-9a-f]{16}", token) or re.search(r"\b(NAME|MODULE|FUNCTION)\b", token):
            return None
        if re.fullmatch(rf"{IDENTIFIER}(::{IDENTIFIER})*", token):
            return self.fault_of_path(token.split("::"))
        if re.match(r"(crates|docs|tests|bench|demo|specs|src|[a-z0-9_]+/(specs|src|proofs))/", token) and not token.startswith(("specs", "src")):
            return self.fault_of_file(token)
        return None


def main():
    pages = sys.argv[1:] or sorted(path for path in files_under("docs") if path.endswith(".md") and os.path.basename(path) != "gate-times.md")
    pages += [] if sys.argv[1:] else [path for path in (os.path.join(TOP, name) for name in TOP_PAGES) if os.path.exists(path)]
    tree, count, faults = Tree(), 0, []
    for page in pages:
        text = re.sub(r"^```.*?^```$", "", text_of(page), flags=re.DOTALL | re.MULTILINE)
        for token in re.findall(r"`([^`\n]+)`", text):
            count += 1
            fault = tree.fault_of(token)
            if fault:
                faults.append(f"{os.path.relpath(page, TOP)}: `{token}`: {fault}")
    for fault in faults:
        print(fault)
    print(f"{count} names, {len(faults)} that aren't there")
    return 1 if faults or count == 0 else 0


if __name__ == "__main__":
    sys.exit(main())
