#!/usr/bin/env python3
"""Lists the files that a reader of one module of specs/ has to know, with their lines.

    tests/programs/closure.py                      those of the plain headline; status 1 where they are more than 30 or have more than 1,800 lines
    tests/programs/closure.py MODULE..             those of these modules, as Rattle.sms_world.specs.headline.Headline

A file counts where another of the list imports it. Types that the compiler writes out of Rust (`declared`) and the standard library do not.
"""
import os
import re
import sys

CRATES = os.path.join(os.path.dirname(os.path.abspath(__file__)), "..", "..", "crates")
PLAIN = "Rattle.sms_world.specs.headline.PlainHeadline"
FILES, LINES = 30, 1800


def path_of(module):
    _, crate, *rest = module.split(".")
    path = os.path.join(CRATES, crate, *rest) + ".antt"
    return path if os.path.isfile(path) else None


def text_of(path):
    with open(path, encoding="utf-8") as file:
        return file.read()


def closure(modules):
    found, waiting = {}, list(modules)
    while waiting:
        module = waiting.pop()
        path = path_of(module)
        if path is None or module in found:
            continue
        text = text_of(path)
        found[module] = text.count("\n")
        waiting += re.findall(r"^(?:unfoldable )?(?:pub )?use (Rattle(?:\.\w+)+)\.\{", text, re.M)
    return found


def main(modules):
    found = closure(modules or [PLAIN])
    if not found:
        sys.exit(f"no such module: {' '.join(modules)}")
    for module in sorted(found):
        print(f"{found[module]:5} {module}")
    files, lines = len(found), sum(found.values())
    print(f"{lines:5} lines in {files} files")
    sys.exit(not modules and (files > FILES or lines > LINES))


main(sys.argv[1:])
