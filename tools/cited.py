#!/usr/bin/env python3
"""Reports which definitions a page names that aren't in the files where it says that they are.

Usage: tools/cited.py PAGE

A cell of a table names them as "CRATE, FILE: `NAME`, `NAME`; FILE: `NAME`", where FILE is a file of that crate's specs/
without its ending. Under a heading with "(crate `CRATE`)" the crate is left out.
"""

import re
import sys
from pathlib import Path

CRATES = Path(__file__).resolve().parent.parent / "crates"
HEADING = re.compile(r"\(crate `(\w+)`\)")
CITED = re.compile(r"(?:(\w+), )?\b([A-Z]\w+): ((?:`[^`]+`(?:, )?)+)")


def named(page):
    """Each name that a page's tables cite: its line, the crate, the file and the name."""
    here = None
    for number, line in enumerate(page.splitlines(), 1):
        if line.startswith("#"):
            heading = HEADING.search(line)
            here = heading and heading.group(1)
        for cell in line.split(" | ") if line.startswith("|") else []:
            crate = here
            for before, file, names in CITED.findall(cell):
                crate = before if (CRATES / before).is_dir() and before else crate
                for name in re.findall(r"`([^`]+)`", names) if crate else []:
                    yield number, crate, file, name


def declares(path, name):
    """Whether a file declares this name, as a definition, a field or a constructor."""
    before, after = r"(?<![^\s(])", r"(?![^\s)])"
    return path.is_file() and re.search(rf"^.*{before}{re.escape(name)}{after}.* :", path.read_text(), re.M)


def main(arguments):
    if len(arguments) != 1:
        sys.exit("usage: tools/cited.py PAGE")
    try:
        cited = list(named(Path(arguments[0]).read_text()))
    except (OSError, UnicodeDecodeError) as error:
        sys.exit(f"cited: cannot read {arguments[0]}: {error}")
    if not cited:
        sys.exit(f"cited: {arguments[0]} names no definition")
    wrong = [(n, c, f, x) for n, c, f, x in cited if not declares(CRATES / c / "specs" / f"{f}.antt", x)]
    for number, crate, file, name in wrong:
        print(f"{arguments[0]}:{number}: {crate}/specs/{file}.antt doesn't declare {name}", file=sys.stderr)
    if wrong:
        return 1
    print(f"cited: {arguments[0]} names {len(cited)} definitions where they are")
    return 0


sys.exit(main(sys.argv[1:]))
