#!/usr/bin/env python3
"""Explores three documents of examples/ and writes the sums into a page, between its two markers.

    tools/testing_explored.py --jobs 4 --write docs/TESTING.md

The sums are the same on each machine. A broken promise is kept as a file and ends the tool with status 1; then, and after
Ctrl-C, nothing is written.
"""

import argparse
import os
import sys
from pathlib import Path
from typing import List, Tuple

import exploration
from documents import parse
from program import TOP, Program, Unusable, find_program
from schedules import Plan

BEGIN = "<!-- explored -->"
END = "<!-- end of explored -->"
DOCUMENTS = ("whole", "lying_orderer", "false_majority")
HEAD = (
    "| Document | Runs | Within the bounds | Every block promised | Outside the bounds | Halted runs | Completed blocks, ledgers | Broken promises |\n"
    "|---|---|---|---|---|---|---|---|"
)


def shares(seeds: int) -> List[int]:
    """How many seeds each document gets, together as many as these."""
    return [(seeds + place) // len(DOCUMENTS) for place in reversed(range(len(DOCUMENTS)))]


def explore(program: Program, name: str, seeds: int, jobs: int) -> exploration.Sums:
    """The sums of a document with its own liars. Unusable where a promise is broken."""
    text = program.read(str(TOP / "examples" / (name + ".json")))
    study = exploration.study(program, text, Plan(liars=tuple(parse(text)["faulty"])))
    bar, sums = exploration.Bar(seeds), exploration.Sums()
    for outcome in exploration.explore(study, range(1, seeds + 1), jobs, bar, sums):
        if outcome.broken is not None:
            path = exploration.keep(study, outcome, Path("."), name)
            raise Unusable(f"{name}, seed {outcome.seed}: {outcome.broken}; kept as {path}", 1)
    bar.end()
    return sums


def row(name: str, sums: exploration.Sums) -> str:
    """The line of a document in the table."""
    peers = "; ".join(
        f"`{peer}` {part.least} to {part.most} of {sums.blocks}, {len(part.ledgers)}" for peer, part in sums.peers.items()
    )
    within = sums.tame + sums.calm
    cells = (f"`{name}`", sums.runs, within, sums.whole, sums.runs - within, sums.halted, peers, len(sums.broken))
    return "| " + " | ".join(map(str, cells)) + " |"


def table(rows: List[Tuple[str, exploration.Sums]]) -> str:
    """What stands between the markers."""
    runs = sum(sums.runs for _, sums in rows)
    plan = Plan()
    said = (
        f"{runs} drawn schedules of {len(rows)} documents, each played with 1 and with 16 workers. A delivery is lost with chance "
        f"{plan.lose}, and repeated with chance {plan.repeat}. In the column before the last, each peer has the least and the "
        "greatest number of its completed blocks, and how many ledgers it had."
    )
    return "\n".join([said, "", HEAD, *(row(name, sums) for name, sums in rows)])


def replaced(page: str, inside: str) -> str:
    """The page with this between its markers."""
    if page.count(BEGIN) != 1 or page.count(END) != 1 or page.index(BEGIN) > page.index(END):
        raise Unusable(f"the page hasn't the lines {BEGIN} and {END}, each once")
    return f"{page.partition(BEGIN)[0]}{BEGIN}\n\n{inside}\n\n{END}{page.partition(END)[2]}"


def options(words: List[str]) -> argparse.Namespace:
    """The words of the command line."""
    parser = argparse.ArgumentParser(prog="testing_explored.py", description=(__doc__ or "").partition("\n")[0])
    parser.add_argument("--jobs", type=int, default=os.cpu_count() or 1, metavar="N", help="how many runs at once")
    parser.add_argument("--seeds", type=int, default=10000, metavar="N", help="the seeds of all documents, 10000 if not given")
    parser.add_argument("--write", type=Path, required=True, metavar="PAGE", help="the page with the markers")
    parser.add_argument("--program", metavar="PATH", help="the program, out/parblock if not given")
    return parser.parse_args(words)


def main(words: List[str]) -> int:
    """The tool; the status to end with."""
    given = options(words)
    try:
        program = find_program(given.program)
        page = given.write.read_text(encoding="utf-8")
        replaced(page, "")
        names = zip(DOCUMENTS, shares(max(given.seeds, len(DOCUMENTS))))
        rows = [(name, explore(program, name, seeds, max(given.jobs, 1))) for name, seeds in names]
        given.write.write_text(replaced(page, table(rows)), encoding="utf-8")
    except OSError as error:
        print(f"testing_explored: {given.write}: {error.strerror}", file=sys.stderr)
        return 2
    except Unusable as error:
        print(f"testing_explored: {error}", file=sys.stderr)
        return error.status
    except KeyboardInterrupt:
        print("\ntesting_explored: stopped; nothing is written", file=sys.stderr)
        return 130
    return 0


if __name__ == "__main__":
    sys.exit(main(sys.argv[1:]))
