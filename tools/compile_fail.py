#!/usr/bin/env python3
"""Tries the edits of crates/*/compile-fail, each of which the compiler has to refuse.

What a type rules out never comes to the prover, so these are no must-fail edits. Such a file has a line `error: CODE`, the
compiler's name of the error, and then the lines of a must-fail edit. Each is made in a copy of the checkout, and fails
where the crate checks all the same or another error comes.

Usage: tools/compile_fail.py
"""

import shutil
import subprocess
import sys
import tempfile
from pathlib import Path

TOP = Path(__file__).resolve().parent.parent
FRAME = ["HANDLES", "crates.txt"]


def read_edit(path):
    """The error that has to come, the file, and the pairs of texts."""
    error, file, pairs = None, None, []
    for line in path.read_text().splitlines():
        key, _, text = line.partition(": ")
        if key == "error":
            error = text
        elif key == "file":
            file = text
        elif key == "old":
            pairs.append([text, ""])
        elif key == "new":
            pairs[-1][1] = text
    return error, file, pairs


def make_edit(path, pairs):
    """Makes the edit in the file; says what is wrong with it, if anything is."""
    text = path.read_text()
    for old, new in pairs:
        if text.count(old) != 1:
            return f"an 'old:' text is there {text.count(old)} times, and not once"
        text = text.replace(old, new)
    path.write_text(text)
    return None


def copy_to(folder):
    """Copies what rt reads, without what it made."""
    for name in FRAME:
        shutil.copy(TOP / name, folder)
    shutil.copytree(TOP / "crates", folder / "crates", ignore=shutil.ignore_patterns("out"))


def failure(edit, folder):
    """What is wrong where the edit isn't refused as it has to be, or None."""
    crate = edit.parent.parent.name
    error, file, pairs = read_edit(edit)
    changed = folder / "crates" / crate / file
    kept = changed.read_text()
    wrong = make_edit(changed, pairs)
    if wrong:
        return wrong
    ran = subprocess.run(["rt", "check"], cwd=folder / "crates" / crate, capture_output=True, text=True)
    changed.write_text(kept)
    if ran.returncode == 0:
        return "it was not refused"
    if f"error[{error}]" not in ran.stdout + ran.stderr:
        return f"it was refused, and not with {error}: {(ran.stdout + ran.stderr)[-300:]}"
    return None


def main():
    edits = sorted(TOP.glob("crates/*/compile-fail/*.edit"))
    failed = 0
    with tempfile.TemporaryDirectory() as made:
        copy_to(Path(made))
        for edit in edits:
            wrong = failure(edit, Path(made))
            failed += wrong is not None
            print(f"compile-fail {edit.relative_to(TOP)}: {wrong or 'refused, as it has to be'}")
    print(f"{len(edits) - failed} refused, {failed} failed")
    return 1 if failed or not edits else 0


if __name__ == "__main__":
    sys.exit(main())
