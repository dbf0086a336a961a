#!/usr/bin/env python3
"""Reports the words of docs/STYLE.md, "Old words", that pages and the comments of crates still have.

Usage: tools/style.py [PAGE ..]   all pages and crates, or those that are named

What is in backquotes, in quotation marks, in italics or in a block of code is passed over, and so are the names of
must-fail edits, "stands for" and "stands in for", and rows of docs/TRUST.md with the first line of a file. Of a file of
Rattle the lines of `///` and `//!` are read.
"""

import re
import sys
from pathlib import Path

TOP = Path(__file__).resolve().parent.parent
ALLOWED = re.compile(r"\b(?:stand|stands|stood)(?= for\b| in for\b)", re.I)
QUOTED = r'`[^`]*`|"[^"]*"|(?<![\w*])\*[^*\s][^*]*\*(?![\w*])'
COMMENT = re.compile(r"\s*//[/!](.*)")
LISTED = re.compile(r"\| `(?:crates|kit)/[^`]*` \| [0-9]+ \|")


def rules():
    """The old words, each with the new ones, the longest first."""
    found = []
    for line in (TOP / "docs/STYLE.md").read_text(encoding="utf-8").split("| Word |")[0].splitlines():
        cells = [cell.strip() for cell in line.strip("|").split("|")]
        if len(cells) == 2:
            found += [(word, cells[1]) for word in re.findall(r'"([^"]+)"', cells[0])]
    return sorted(found, key=lambda rule: -len(rule[0]))


def edits():
    """The names of the must-fail edits, as pages write them, the longest first."""
    names = {path.stem.replace("_", " ") for path in TOP.glob("crates/*/must-fail/*.edit")}
    return sorted(names, key=lambda name: (-len(name), name))


class Style:
    """Finds old words in lines."""

    def __init__(self):
        self.new = {old.lower(): new for old, new in rules()}
        names = [r"\b" + re.escape(name) + r"\b" for name in edits()]
        self.passed = re.compile("|".join([QUOTED, *names]), re.I)
        self.old = re.compile(r"\b(?:" + "|".join(re.escape(old) for old, _ in rules()) + r")\b", re.I)

    def of_line(self, line):
        """The old words of a line, each with the new ones."""
        line = ALLOWED.sub("", self.passed.sub(" ` ", line))
        return [(word, self.new[word.lower()]) for word in self.old.findall(line)]

    def of_file(self, path):
        """The old words of a file, each with its line's number."""
        code = False
        for number, line in enumerate(path.read_text(encoding="utf-8").splitlines(), 1):
            if path.suffix == ".rt":
                comment = COMMENT.match(line)
                line = comment[1] if comment else ""
            elif line.startswith("```"):
                code = not code
            if not code and not LISTED.match(line):
                for old, new in self.of_line(line):
                    yield number, old, new


def files():
    """The pages, and the sources of crates."""
    pages = [TOP / "README.md", TOP / "CONTRIBUTING.md", TOP / "docs/parblock.1", TOP / "examples/README.md"]
    pages += sorted(TOP.glob("docs/*.md")) + sorted(TOP.glob("crates/*/README.md"))
    crates = (path for crate in sorted(TOP.glob("crates/*")) for path in sorted(crate.glob("**/*.rt")))
    return pages + [path for path in crates if "out" not in path.relative_to(TOP).parts]


def main(names):
    style, count = Style(), 0
    chosen = [Path(name) for name in names] or files()
    for path in chosen:
        try:
            found = list(style.of_file(path))
        except (OSError, UnicodeDecodeError) as error:
            sys.exit(f"style: cannot read {path}: {error}")
        for number, old, new in found:
            print(f"{path.relative_to(TOP) if not names else path}:{number}: \"{old}\"; write instead: {new}", file=sys.stderr)
        count += len(found)
    print(f"style: {len(chosen)} files have {count or 'no'} old words")
    return 1 if count else 0


if __name__ == "__main__":
    sys.exit(main(sys.argv[1:]))
