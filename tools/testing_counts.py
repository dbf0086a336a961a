#!/usr/bin/env python3
"""Counts what tests this program, from the checkout, for docs/TESTING.md.

Usage: tools/testing_counts.py                  prints the table
       tools/testing_counts.py --write PAGE     puts it between the page's markers
       tools/testing_counts.py --check PAGE     compares it with the page, and fails where they differ
"""

import re
import sys
from pathlib import Path

TOP = Path(__file__).resolve().parent.parent
CRATES = TOP / "crates"
BEGIN, END = "<!-- counted -->", "<!-- end of counted -->"
TEST = re.compile(r"^\s*#\[test\]", re.M)
FUNCTION = re.compile(r"^\s*(?:pub(?:\([a-z]+\))? )?(?:const )?fn \w+", re.M)
SECTION = re.compile(r"^== ", re.M)


def listed():
    """The crates of crates.txt, each with those that it uses."""
    uses = {}
    for line in (TOP / "crates.txt").read_text().splitlines():
        if re.match(r"[a-z]", line):
            name, _, others = line.partition(":")
            uses[name] = others.split()
    return uses


def below(uses, name):
    """The crates that this one needs, itself among them."""
    found, left = set(), [name]
    while left:
        here = left.pop()
        if here not in found:
            found.add(here)
            left += uses.get(here, [])
    return found


def files(pattern, crates):
    return [path for name in sorted(crates) for path in sorted((CRATES / name).glob(pattern))]


def is_test(path):
    """Whether a file of code holds tests alone."""
    inside = path.relative_to(CRATES).parts
    return "tests" in inside[:-1] or inside[-1] == "tests.rt"


def lines(paths):
    return sum(path.read_text().count("\n") for path in paths)


def matches(pattern, paths):
    return sum(len(pattern.findall(path.read_text())) for path in paths)


def typed():
    """The commands that pages type along: lines `$ COMMAND` in blocks ```console."""
    count = 0
    for page in (TOP / "README.md", TOP / "docs" / "TUTORIAL.md"):
        inside = False
        for line in page.read_text().splitlines():
            if line.startswith("```"):
                inside = line == "```console"
            elif inside and line.startswith("$ "):
                count += 1
    return count


def readings():
    """The rows of the table of wrong readings."""
    part = (TOP / "docs" / "DEFINITIONS.md").read_text().split("### Wrong readings", 1)[1]
    table = re.search(r"(?:^\|.*\n)+", part, re.M).group(0)
    return table.count("\n") - 2


def fault_rows():
    text = (CRATES / "par_faults" / "stdin").read_text()
    return sum(" => " in line and not line.startswith("#") for line in text.splitlines())


def counted():
    """The rows of the table: what is counted, how much, and from where."""
    uses = listed()
    program = below(uses, "par_cli")
    code = [path for path in files("src/**/*.rt", uses) if not is_test(path)]
    ours = [path for path in code if path.relative_to(CRATES).parts[0] in program]
    tests = [path for path in files("src/**/*.rt", uses) if is_test(path)]
    tested = {path.relative_to(CRATES).parts[0] for path in code + tests if TEST.search(path.read_text())}
    edits = files("must-fail/*.edit", uses)
    examples = TOP / "examples"
    tool_tests = sorted((TOP / "tools").glob("test_*.py"))
    return [
        ("Crates", len(uses), "`crates.txt`"),
        ("of which the program needs", len(program), "`par_cli` and all below it"),
        ("Lines of the program's code", lines(ours), "`src/` of these, without their tests"),
        ("Functions of these, each proved", matches(FUNCTION, ours), "there"),
        ("Lines of definitions", lines(files("specs/**/*.antt", uses)), "`specs/`"),
        ("Lines of proofs", lines(files("proofs/**/*.antt", uses)), "`proofs/`, beside what the code says itself"),
        ("Lines of code that serves tests", lines(tests) + lines(code) - lines(ours), "the other crates, and all `src/tests`"),
        ("Must-fail edits", len(edits), f"`must-fail/` of {len({path.parts[-3] for path in edits})} crates"),
        ("Documents with their whole text or refusal", matches(SECTION, [CRATES / "par_texts" / "stdin"]), "sections of `crates/par_texts/stdin`"),
        ("Documents with their first fault, or none", fault_rows(), "rows of `crates/par_faults/stdin`"),
        ("Tests in code", matches(TEST, code + tests), f"`#[test]` in {len(tested)} crates"),
        ("Documents of `examples/`", len(list(examples.glob("*.json"))), f"with {len(list(examples.glob('*.out')))} texts and {len(list(examples.glob('*.err')))} refusals"),
        ("Wrong readings, each with a document that gives it away", readings(), "docs/DEFINITIONS.md"),
        ("Commands typed along", typed(), "README.md and docs/TUTORIAL.md"),
        ("Tests of the launcher", matches(re.compile(r"^check ", re.M), [TOP / ".ci" / "launcher"]), "`.ci/launcher`"),
        ("Tests of the tools", matches(re.compile(r"^    def test_", re.M), tool_tests), ", ".join(f"`tools/{path.name}`" for path in tool_tests)),
    ]


def table():
    rows = ["| What | How many | Where |", "|---|---|---|"]
    counts = {what: count for what, count, _ in counted()}
    code = counts["Lines of the program's code"]
    said, proved = (counts[f"Lines of {what}"] / code for what in ("definitions", "proofs"))
    rows += [f"| {what} | {count:,} | {where} |" for what, count, where in counted()]
    return "\n".join(rows) + f"\n\nSo to each line of the program's code there are {said:.1f} lines of definitions and {proved:.1f} of proofs."


def put_in(page, text):
    """The page with this text between its markers."""
    before, _, rest = page.partition(BEGIN)
    _, found, after = rest.partition(END)
    if not found:
        raise ValueError(f"no {BEGIN} and {END}")
    return f"{before}{BEGIN}\n{text}\n{END}{after}"


def main(words):
    if not words:
        print(table())
        return 0
    if len(words) != 2 or words[0] not in ("--write", "--check"):
        print(__doc__.split("\n\n", 1)[1].rstrip(), file=sys.stderr)
        return 2
    page = Path(words[1])
    old = page.read_text()
    new = put_in(old, table())
    if words[0] == "--write":
        page.write_text(new)
        return 0
    if old == new:
        print(f"counts: {page} has those of the checkout")
        return 0
    for line in sorted(set(new.splitlines()) - set(old.splitlines())):
        print(f"counts: {page} lacks: {line}", file=sys.stderr)
    print(f"counts: tools/testing_counts.py --write {page} writes them", file=sys.stderr)
    return 1


if __name__ == "__main__":
    try:
        sys.exit(main(sys.argv[1:]))
    except (OSError, ValueError) as error:
        sys.exit(f"testing_counts: {error}")
