#!/usr/bin/env python3
"""Looks whether docs/PLAY.md shows scripts and ladders as they are stored, letter by letter.

    tests/programs/pages.py     status 0 where it does
"""
import os
import re
import sys

TOP = os.path.join(os.path.dirname(os.path.abspath(__file__)), "..", "..")
DATA = os.path.join(TOP, "tests", "lab", "data")


def text_of(*path):
    with open(os.path.join(*path)) as file:
        return file.read()


def unlike():
    """The blocks of the page that are no stored script or ladder, and the stored ladders of which it shows only half."""
    blocks = re.findall(r"^```\n(.*?)^```$", text_of(TOP, "docs", "PLAY.md"), re.DOTALL | re.MULTILINE)
    shown = [block for block in blocks if not block.startswith(("smsim ", "tshark "))]
    stored = {text_of(DATA, name): name for name in sorted(os.listdir(DATA)) if name.endswith((".script", ".ladder"))}
    names = [stored.get(block, f"a block that is stored nowhere:\n{block}") for block in shown]
    halves = [name for name in names if name in stored.values() and sum(other.split(".")[0] == name.split(".")[0] for other in names) != 2]
    return [name for name in names if name not in stored.values()] + [f"{name} alone" for name in halves], len(names)


def main():
    faults, count = unlike()
    for fault in faults:
        print(fault)
    print(f"{count} blocks, {len(faults)} unlike what is stored")
    return 1 if faults or count < 8 else 0


if __name__ == "__main__":
    sys.exit(main())
