#!/usr/bin/env python3
"""Compares each crate's line of crates.txt with the crates that its files name.

Usage: tools/deps.py        says on standard error which crates a line has that no file names, and which it lacks

A line that lists more than it needs makes the crate's proof wait for crates that it doesn't use, and `rt` walk through
them all. A file of code names a crate by a path or an import, a file of definitions or proofs by `Rattle.CRATE.`.
"""

from __future__ import annotations

import re
import sys
from pathlib import Path

TOP = Path(__file__).resolve().parent.parent
# Where a crate's own files are; what `rt` makes is in `out/`.
FOLDERS = ("src", "specs", "proofs")
BARE = re.compile(r"//.*|--.*")
NAMES = re.compile(r"(?<=\bRattle\.)\w+|\b\w+(?=::)|(?<=\buse )\w+(?=;| as )")


def lines() -> dict[str, list[str]]:
    """The crates of crates.txt, each with what its line lists."""
    found = {}
    for line in (TOP / "crates.txt").read_text().splitlines():
        name, colon, listed = line.partition("#")[0].partition(":")
        if colon:
            found[name.split()[0]] = listed.split()
    return found


def named(crate: str) -> set[str]:
    """The words in a crate's files that may be crates."""
    words: set[str] = set()
    for folder in FOLDERS:
        for path in sorted((TOP / "crates" / crate / folder).rglob("*")):
            if path.suffix in (".rt", ".antt"):
                words |= set(NAMES.findall(without_comments(path)))
    return words


def without_comments(path: Path) -> str:
    return "\n".join(BARE.sub("", line) for line in path.read_text().splitlines())


def main() -> int:
    listed = lines()
    wrong = 0
    for crate, crates in listed.items():
        words = named(crate)
        for other in crates:
            if other not in words:
                wrong += 1
                print(f"crates.txt: {crate} lists {other}, which none of its files names", file=sys.stderr)
        for other in sorted((words & listed.keys()) - set(crates) - {crate}):
            wrong += 1
            print(f"crates.txt: {crate} names {other}, and its line doesn't list it", file=sys.stderr)
    if not wrong:
        print(f"deps: each of {len(listed)} lines of crates.txt lists what its crate names, and no more")
    return 1 if wrong else 0


if __name__ == "__main__":
    sys.exit(main())
