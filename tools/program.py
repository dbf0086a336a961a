"""The program that the tools run: where it is, a run of it, and what it printed as values."""

import os
import subprocess
import sys
from dataclasses import dataclass, field
from pathlib import Path
from typing import Dict, List, Optional

TOP = Path(__file__).resolve().parent.parent
BUILD = "./parblock none"


class Unusable(Exception):
    """What keeps a tool from its work, in a line, with the status to end with."""

    def __init__(self, line: str, status: int = 2) -> None:
        super().__init__(line)
        self.status = status


@dataclass(frozen=True)
class Answer:
    """What one run of the program gave: its status, what it printed, and what it said on standard error."""

    status: int
    text: str
    said: str


@dataclass(frozen=True)
class Program:
    """The program at a path."""

    path: Path

    def run(self, document: bytes, *words: str) -> Answer:
        """Runs the program with these words. It is in a session of its own, so that Ctrl-C ends the tool alone."""
        try:
            done = subprocess.run(
                [str(self.path), *words], input=document, stdout=subprocess.PIPE, stderr=subprocess.PIPE, start_new_session=True
            )
        except OSError as error:
            raise Unusable(f"{self.path}: {error.strerror}", 70) from error
        return Answer(done.returncode, done.stdout.decode("utf-8", "replace"), done.stderr.decode("utf-8", "replace"))

    def refusal(self, document: bytes) -> Optional[Unusable]:
        """Why the program refuses these bytes, or nothing. `graph` checks a document as `run` does, and plays nothing."""
        answer = self.run(document, "graph")
        if answer.status == 0:
            return None
        return Unusable(answer.said.strip() or f"the program ended with status {answer.status}", max(answer.status, 1))

    def read(self, path: str) -> str:
        """The text of a document that the program takes; one that it refuses is refused with its line and status."""
        try:
            document = sys.stdin.buffer.read() if path == "-" else Path(path).read_bytes()
        except OSError as error:
            raise Unusable(f"{path}: {error.strerror}") from error
        refusal = self.refusal(document)
        if refusal is not None:
            raise refusal
        return document.decode("utf-8")


def find_program(given: Optional[str]) -> Program:
    """The program that was given by option or by PARBLOCK_PROGRAM, or else the launcher's."""
    chosen = given or os.environ.get("PARBLOCK_PROGRAM")
    path = Path(chosen).resolve() if chosen else TOP / "out" / "parblock"
    if not (path.is_file() and os.access(path, os.X_OK)):
        raise Unusable(f"no program at {path}; '{BUILD}' at the top of the checkout builds it", 70)
    return Program(path)


@dataclass
class PeerPart:
    """The lines of one peer in the text of a run."""

    name: str
    completed: int
    ledger: List[List[str]] = field(default_factory=list)
    state: Dict[str, int] = field(default_factory=dict)
    halted: Optional[str] = None

    def lines(self) -> List[str]:
        """The lines as docs/FORMAT.md has them."""
        rows = [f"peer {self.name} completed {self.completed}"]
        rows += [line for block in self.ledger for line in block]
        rows.append(f"state {len(self.state)}")
        rows += [f"value {record} {self.state[record]}" for record in sorted(self.state)]
        return rows + ([self.halted] if self.halted else [])


@dataclass
class Printed:
    """The text of a run, as values."""

    blocks: int = 0
    rejected: List[str] = field(default_factory=list)
    peers: List[PeerPart] = field(default_factory=list)
    messages: int = 0
    idle: int = 0

    def text(self) -> str:
        """The text as docs/FORMAT.md has it."""
        rows = [*self.rejected, f"blocks {self.blocks}"]
        rows += [line for peer in self.peers for line in peer.lines()]
        rows += [f"messages {self.messages}", f"idle {self.idle}"]
        return "".join(row + "\n" for row in rows)


def parse_line(printed: Printed, line: str) -> None:
    """Takes one more line of a run."""
    words = line.split(" ")
    if words[0] == "rejected":
        printed.rejected.append(line)
    elif words[0] in ("blocks", "messages", "idle"):
        setattr(printed, words[0], int(words[1]))
    elif words[0] == "peer":
        printed.peers.append(PeerPart(words[1], int(words[3])))
    elif words[0] == "block":
        printed.peers[-1].ledger.append([line])
    elif words[0] in ("txn", "config"):
        printed.peers[-1].ledger[-1].append(line)
    elif words[0] == "value":
        printed.peers[-1].state[words[1]] = int(words[2])
    elif words[0] == "halted":
        printed.peers[-1].halted = line
    elif words[0] != "state":
        raise ValueError(f"no line of run: {line}")


def parse_run(text: str) -> Printed:
    """Reads what `run` printed. ValueError where it isn't the text of a run, in the order of docs/FORMAT.md."""
    printed = Printed()
    try:
        for line in text.splitlines():
            parse_line(printed, line)
    except IndexError as error:
        raise ValueError(f"no text of run: {text[:80]!r}") from error
    if printed.text() != text:
        raise ValueError("the lines aren't in their order")
    return printed


def written(ledger: List[List[str]], start: Dict[str, int]) -> Dict[str, int]:
    """The values other than 0 that the outcomes of a ledger make of starting values."""
    values = dict(start)
    for line in (line for block in ledger for line in block[1:]):
        words = line.split(" ")
        if words[0] == "txn" and words[4] == "commit":
            pairs = (pair.rsplit("=", 1) for pair in words[5:])
            values.update({record: int(value) for record, value in pairs if value != "-"})
    return {record: value for record, value in values.items() if value}
