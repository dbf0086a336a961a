"""Explores what can happen to a document: runs drawn schedules, checks what docs/FORMAT.md promises of each, and sums up."""

import hashlib
import sys
import time
from concurrent.futures import FIRST_COMPLETED, Future, ThreadPoolExecutor, wait
from dataclasses import dataclass, field
from pathlib import Path
from typing import Dict, Iterator, List, Optional, Set, TextIO

from documents import Bounds, Document, agreed_blocks, bounds_of, dump, parse, rejects
from program import PeerPart, Printed, Program, Unusable, parse_run, written
from schedules import Plan, Reference, draw


class Broken(Exception):
    """A promise of the program that a run broke, in a line."""


@dataclass(frozen=True)
class Study:
    """A document to explore, the program, and what holds of the document without faults."""

    program: Program
    document: Document
    plan: Plan
    reference: Reference
    rejected: List[str]

    def draw(self, seed: int) -> Document:
        """The document of a seed."""
        return draw(self.document, self.reference, self.plan, seed)


@dataclass(frozen=True)
class Outcome:
    """What came of one seed: its bounds, what was printed, and the promise that was broken, or nothing."""

    seed: int
    bounds: Bounds
    has_all: bool
    printed: Optional[Printed]
    broken: Optional[str]


def study(program: Program, text: str, plan: Plan) -> Study:
    """What there is to know of a document before it is explored. Unusable where a liar is no node of it."""
    document = parse(text)
    for name in plan.liars:
        if name not in document["orderers"] + document["peers"]:
            raise Unusable(f"no orderer or peer is named {name}")
    blocks = agreed_blocks(document)
    calm = {**document, "faulty": [], "schedule": [{"do": "all"}]}
    answer = program.run(dump(calm).encode(), "run", "--workers", "1")
    if answer.status != 0:
        raise Unusable(answer.said.strip() or f"the program ended with status {answer.status}", max(answer.status, 1))
    printed = parse_run(answer.text)
    ledger = printed.peers[0].ledger
    sizes = [1 if block.config is not None else len(block.items) for block in blocks]
    if [len(block) - 1 for block in ledger] != sizes:
        raise Unusable("the blocks without faults aren't those of docs/FORMAT.md, 'Cutting'", 1)
    return Study(program, document, plan, Reference(blocks, ledger, printed.messages), rejects(document))


def explore_seed(study: Study, seed: int) -> Outcome:
    """Plays the schedule of a seed, with 1 and with 16 workers, and checks what is promised of it."""
    document = study.draw(seed)
    bounds = bounds_of(document, study.reference.blocks)
    has_all = {"do": "all"} in document["schedule"]
    printed = None
    try:
        text = play(study.program, dump(document).encode(), set(document["faulty"]))
        printed = parse_run(text)
        check_text(study, document, printed)
        check_promises(study, bounds, has_all, printed)
    except (Broken, ValueError) as error:
        return Outcome(seed, bounds, has_all, printed, str(error))
    return Outcome(seed, bounds, has_all, printed, None)


def play(program: Program, document: bytes, faulty: Set[str]) -> str:
    """The text of a document, which 1 and 16 workers print alike, and with no honest node in the evidence after it."""
    one = program.run(document, "run", "--workers", "1")
    if one.status != 0:
        raise Broken(f"status {one.status}: {one.said.strip()}")
    many = program.run(document, "run", "--workers", "16", "--evidence")
    if many.status != 0 or not many.text.startswith(one.text):
        raise Broken("1 and 16 workers print different texts")
    for line in many.text[len(one.text) :].splitlines():
        words = line.split(" ")
        if words[0] != "evidence" or words[3] not in faulty:
            raise Broken(f"an honest node is named: {line}")
    return one.text


def check_text(study: Study, document: Document, printed: Printed) -> None:
    """Checks what holds of each text, whoever is faulty."""
    honest = [name for name in document["peers"] if name not in document["faulty"]]
    if printed.rejected != study.rejected or printed.blocks != len(study.reference.blocks):
        raise Broken("other requests are rejected, or other blocks cut, than docs/FORMAT.md says")
    if [peer.name for peer in printed.peers] != honest:
        raise Broken("the peers aren't those that aren't faulty")
    start = dict(document["records"])
    for peer in printed.peers:
        if peer.completed != len(peer.ledger):
            raise Broken(f"{peer.name} completed {peer.completed} and has {len(peer.ledger)} blocks")
        if peer.state != written(peer.ledger, start):
            raise Broken(f"the state of {peer.name} isn't what its blocks wrote")
    check_counts(document, printed)


def check_counts(document: Document, printed: Printed) -> None:
    """Checks the last two lines, as far as the schedule alone says them."""
    said = sum(event["do"] in ("block", "commit") for event in document["schedule"])
    orderers = sum(name not in document["faulty"] for name in document["orderers"])
    if printed.messages < printed.blocks * orderers + said:
        raise Broken(f"{printed.messages} messages, fewer than were sent")
    deliveries = [event for event in document["schedule"] if event["do"] == "deliver"]
    lost = sum(event["to"] in document["faulty"] or event["msg"] > printed.messages for event in deliveries)
    if not lost <= printed.idle <= len(deliveries):
        raise Broken(f"{printed.idle} idle deliveries, of which {lost} at least came to nobody")


def check_promises(study: Study, bounds: Bounds, has_all: bool, printed: Printed) -> None:
    """Checks what holds within the bounds: the clauses `serial`, `calm` and `whole`."""
    if not bounds.calm:
        return
    for peer in printed.peers:
        if peer.halted is not None:
            raise Broken(f"{peer.name} halted within the bounds: {peer.halted}")
        if peer.ledger != study.reference.ledger[: peer.completed]:
            raise Broken(f"the blocks of {peer.name} aren't the first of the one chain")
        if bounds.tame and bounds.staffed and has_all and peer.completed != printed.blocks:
            raise Broken(f"{peer.name} completed {peer.completed} of {printed.blocks} blocks, with enough honest nodes and an all")


@dataclass
class PeerSums:
    """The sums of one peer: least and greatest number of completed blocks, halts, and its ledgers."""

    least: int
    most: int
    halts: int = 0
    ledgers: Set[str] = field(default_factory=set)

    def add(self, part: PeerPart) -> None:
        """Takes one more run."""
        self.least, self.most = min(self.least, part.completed), max(self.most, part.completed)
        self.halts += part.halted is not None
        self.ledgers.add(hashlib.sha256(repr(part.ledger).encode()).hexdigest())


@dataclass
class Sums:
    """The sums over all runs so far."""

    blocks: int = 0
    runs: int = 0
    tame: int = 0
    calm: int = 0
    whole: int = 0
    halted: int = 0
    halted_within: int = 0
    first_halt: Optional[int] = None
    peers: Dict[str, PeerSums] = field(default_factory=dict)
    broken: List[Outcome] = field(default_factory=list)

    def add(self, outcome: Outcome) -> None:
        """Takes one more run."""
        self.runs += 1
        self.tame += outcome.bounds.tame
        self.calm += outcome.bounds.calm and not outcome.bounds.tame
        self.whole += outcome.bounds.tame and outcome.bounds.staffed and outcome.has_all
        if outcome.broken is not None:
            self.broken.append(outcome)
        if outcome.printed is None:
            return
        for part in outcome.printed.peers:
            self.peers.setdefault(part.name, PeerSums(part.completed, part.completed)).add(part)
        if any(part.halted is not None for part in outcome.printed.peers):
            self.halted += 1
            self.halted_within += outcome.bounds.calm
            self.first_halt = outcome.seed if self.first_halt is None else min(self.first_halt, outcome.seed)

    def lines(self) -> List[str]:
        """The sums as lines."""
        rows = [
            f"runs {self.runs}",
            f"tame {self.tame}",
            f"calm, not tame {self.calm}",
            f"outside the bounds {self.runs - self.tame - self.calm}",
            f"every block promised {self.whole}",
        ]
        for name, sums in self.peers.items():
            rows.append(
                f"peer {name} completed {sums.least} to {sums.most} of {self.blocks}, ledgers {len(sums.ledgers)}, halts {sums.halts}"
            )
        rows.append(f"halted runs {self.halted}, within the bounds {self.halted_within}" + self.halt_seed())
        return rows + [f"broken promises {len(self.broken)}"]

    def halt_seed(self) -> str:
        """Which seed halts first."""
        return "" if self.first_halt is None else f", the first of seed {self.first_halt}"


@dataclass
class Bar:
    """A bar of progress, on a terminal only."""

    whole: int
    out: TextIO = sys.stderr
    shown: float = 0.0

    def show(self, done: int) -> None:
        """Shows how much is done, at most ten times a second."""
        now = time.monotonic()
        if self.out.isatty() and (now - self.shown > 0.1 or done == self.whole):
            self.shown = now
            full = 40 * done // max(self.whole, 1)
            self.out.write(f"\r[{'#' * full}{'.' * (40 - full)}] {done} of {self.whole}")
            self.out.flush()

    def end(self) -> None:
        """Leaves the line of the bar."""
        if self.out.isatty() and self.shown:
            self.out.write("\n")


def outcomes(study: Study, seeds: range, jobs: int) -> Iterator[Outcome]:
    """The outcomes of seeds, several at once, each as soon as it and those before it are there."""
    left = iter(seeds)
    with ThreadPoolExecutor(jobs) as pool:
        running: Dict[int, "Future[Outcome]"] = {}
        upcoming = seeds.start
        try:
            while True:
                while len(running) < 2 * jobs:
                    seed = next(left, None)
                    if seed is None:
                        break
                    running[seed] = pool.submit(explore_seed, study, seed)
                if not running:
                    return
                wait(running.values(), return_when=FIRST_COMPLETED)
                while upcoming in running and running[upcoming].done():
                    yield running.pop(upcoming).result()
                    upcoming += 1
        finally:
            for future in running.values():
                future.cancel()


def explore(study: Study, seeds: range, jobs: int, bar: Bar, sums: Sums) -> Iterator[Outcome]:
    """Explores seeds into the sums, up to the first broken promise, and gives each outcome that is worth a file."""
    sums.blocks = len(study.reference.blocks)
    for outcome in outcomes(study, seeds, jobs):
        first_halt = sums.first_halt
        sums.add(outcome)
        bar.show(sums.runs)
        if outcome.broken is not None or sums.first_halt != first_halt:
            yield outcome
        if outcome.broken is not None:
            return


def keep(study: Study, outcome: Outcome, folder: Path, name: str) -> Path:
    """Keeps the document of an outcome as a file."""
    what = "broken" if outcome.broken is not None else "halted"
    try:
        folder.mkdir(parents=True, exist_ok=True)
        path = folder / f"{name}.{outcome.seed}.{what}.json"
        path.write_text(dump(study.draw(outcome.seed)))
    except OSError as error:
        raise Unusable(f"{folder}: {error.strerror}", 1) from error
    return path
