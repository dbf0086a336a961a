"""Makes a document smaller while a condition holds of it, up to one from which nothing more can go.

What can go: an entry of any list, a key that may be left out, an operation or a statement of a contract; and each number
can become less. What refers to an entry that goes is brought in order: items and messages are numbered anew, the events
of a node go with it, and a threshold is at most the count of those that it is about.
"""

import copy
import re
from typing import Any, Callable, Iterator, List, Tuple

from documents import Document, agreed_blocks, dump, is_config

Path = Tuple[Any, ...]
Condition = Callable[[Document], bool]

ROOT_LISTS = ("schedule", "stream", "faulty", "peers", "orderers", "apps", "records")
LEFT_OUT = ("prev", "preds")
LEAST = {"bytes": 2048, "quorum": 1, "tau": 1, "msg": 1, "number": 1, "block": 1, "txn": 1, "txns": 1}
STATEMENT = re.compile(r"[^;{}]+;")


def at(document: Document, path: Path) -> Any:
    """What stands at a path."""
    value: Any = document
    for key in path:
        value = value[key]
    return value


def walk(value: Any, path: Path = ()) -> Iterator[Tuple[Path, Any]]:
    """Each value in a document with its path, an outer one before those in it."""
    yield path, value
    inner = value.items() if isinstance(value, dict) else enumerate(value) if isinstance(value, list) else ()
    for key, entry in inner:
        yield from walk(entry, path + (key,))


def list_paths(document: Document) -> List[Path]:
    """The paths of all lists, the root's first."""
    inner = [path for path, value in walk(document) if isinstance(value, list) and len(path) > 1]
    return [(key,) for key in ROOT_LISTS] + [path for path in inner if path[:1] != ("records",)]


def initial_messages(document: Document) -> List[Tuple[int, str]]:
    """Block and orderer of each message that is sent before the first event."""
    honest = [name for name in document["orderers"] if name not in document["faulty"]]
    return [(block.number, name) for block in agreed_blocks(document) for name in honest]


def renumber_messages(before: Document, after: Document) -> None:
    """Numbers the deliveries of a changed document anew, where other messages are sent before the first event."""
    old, new = initial_messages(before), initial_messages(after)
    places = {message: place for place, message in enumerate(new, 1)}
    events = []
    for event in after["schedule"]:
        msg = event.get("msg", 0)
        if event["do"] != "deliver" or msg > len(old):
            events.append({**event, "msg": msg - len(old) + len(new)} if msg else event)
        elif old[msg - 1] in places:
            events.append({**event, "msg": places[old[msg - 1]]})
    after["schedule"] = events


def renumber_items(document: Document, first: int, last: int) -> None:
    """Numbers the items in false blocks anew, where those from `first` up to `last`, from 0, are gone."""
    events = []
    for event in document["schedule"]:
        if event["do"] == "block":
            left = [item for item in event["txns"] if not first < item <= last]
            if len(left) < len(event["txns"]):
                event.pop("preds", None)
            event["txns"] = [item - (last - first) if item > last else item for item in left]
        if event["do"] != "block" or event["txns"]:
            events.append(event)
    document["schedule"] = events


def forget(document: Document, names: List[str]) -> None:
    """Takes nodes out of the lists of faulty nodes and agents, and out of the schedule."""
    document["faulty"] = [name for name in document["faulty"] if name not in names]
    for entry in document["apps"] + [item for item in document["stream"] if is_config(item)]:
        entry["agents"] = [name for name in entry["agents"] if name not in names]
    document["schedule"] = [event for event in document["schedule"] if not {event.get("from"), event.get("to")} & set(names)]


def repair(document: Document) -> None:
    """Brings thresholds and graphs in order with the lists that they are about."""
    document["quorum"] = min(document["quorum"], len(document["orderers"]))
    for entry in document["apps"] + [item for item in document["stream"] if is_config(item)]:
        entry["tau"] = min(entry["tau"], len(entry["agents"]))
    for event in document["schedule"]:
        if len(event.get("preds", [])) not in (0, len(event.get("txns", []))):
            del event["preds"]


def shorten_votes(document: Document, writes: List[str], gone: List[str]) -> None:
    """Takes the values of records that are no more in a write set out of the votes that are as long as it was."""
    kept = [place for place, record in enumerate(sorted(writes)) if record not in gone]
    for vote in (vote for event in document["schedule"] for vote in event.get("votes", [])):
        if len(vote.get("out", [])) == len(writes):
            vote["out"] = [vote["out"][place] for place in kept]


def change_alike(document: Document, old: Any, new: Any) -> None:
    """Changes all votes that are like an old one into a new one."""
    for event in document["schedule"]:
        if "votes" in event:
            event["votes"] = [copy.deepcopy(new) if vote == old else vote for vote in event["votes"]]


def without_events(document: Document, first: int, last: int) -> Iterator[Document]:
    """Without some events: as they are, and with the messages behind the false ones numbered anew."""
    less = copy.deepcopy(document)
    del less["schedule"][first:last]
    yield less
    false = [event["do"] in ("block", "commit") for event in document["schedule"]]
    gone = sum(false[first:last])
    if gone:
        shifted = copy.deepcopy(less)
        start = len(initial_messages(document)) + sum(false[:first])
        shifted["schedule"] = [event for event in shifted["schedule"] if not start < event.get("msg", 0) <= start + gone]
        for event in shifted["schedule"]:
            if event.get("msg", 0) > start:
                event["msg"] -= gone
        yield shifted


def without(document: Document, path: Path, first: int, last: int) -> Iterator[Document]:
    """The document without the entries from `first` up to `last` of a list, in one way or more."""
    if path == ("schedule",):
        yield from without_events(document, first, last)
        return
    less = copy.deepcopy(document)
    gone = at(less, path)[first:last]
    del at(less, path)[first:last]
    if path == ("stream",):
        renumber_items(less, first, last)
    elif path in (("peers",), ("orderers",)):
        forget(less, gone)
    elif path == ("faulty",):
        less["schedule"] = [event for event in less["schedule"] if event.get("from") not in gone]
    repair(less)
    yield less
    if path in (("stream",), ("orderers",), ("faulty",)):
        numbered = copy.deepcopy(less)
        renumber_messages(document, numbered)
        yield numbered
    if path[0] == "stream" and path[-1] == "writes":
        shorten_votes(less, at(document, path), gone)
        yield less


def is_empty(document: Document) -> bool:
    """Whether a list is empty that may not be, so that the program need not be asked."""
    lists = [document[key] for key in ("orderers", "peers", "apps")]
    lists += [entry["agents"] for entry in document["apps"] + [item for item in document["stream"] if is_config(item)]]
    return not all(lists + [event["txns"] for event in document["schedule"] if event["do"] == "block"])


def contract_cuts(contract: str) -> Iterator[str]:
    """The contract without one of its operations, and without one of its statements."""
    starts = [found.start() for found in re.finditer(r"\bop\b", contract)] + [len(contract)]
    for begin, end in zip(starts, starts[1:]):
        yield contract[:begin] + contract[end:]
    for found in STATEMENT.finditer(contract):
        yield contract[: found.start()] + contract[found.end() :]


def lesser(number: int, least: int) -> Iterator[int]:
    """Lesser numbers, the least first."""
    step = number - least
    while step > 0:
        yield number - step
        step //= 2


class Shrinker:
    """A document that becomes smaller, the condition that holds of it, and what was tried before."""

    def __init__(self, document: Document, holds: Condition, show: Callable[[int, int], None]) -> None:
        self.document = document
        self.holds = holds
        self.show = show
        self.tried = {dump(document)}

    def take(self, candidates: Iterator[Document]) -> bool:
        """Takes the first candidate of which the condition holds; whether there is one."""
        for candidate in candidates:
            text = dump(candidate)
            if text in self.tried or is_empty(candidate):
                continue
            self.tried.add(text)
            if self.holds(candidate):
                self.document = candidate
                self.show(len(text), len(self.tried))
                return True
        return False

    def entries(self, path: Path) -> bool:
        """Takes entries out of a list: many at once, then fewer; whether any went."""
        size, taken = self.length(path), False
        while size:
            last = self.length(path)
            while last > 0:
                first = max(last - size, 0)
                taken = self.take(without(self.document, path, first, last)) or taken
                last = min(first, self.length(path))
            size //= 2
        return taken

    def length(self, path: Path) -> int:
        """How many entries a list has; none where it went as a whole."""
        try:
            return len(at(self.document, path))
        except (KeyError, IndexError):
            return 0

    def lists(self) -> bool:
        """Takes entries out of every list; whether any went. Where one went, the paths are looked for anew."""
        taken, done = False, 0
        while done < len(list_paths(self.document)):
            taken = self.entries(list_paths(self.document)[done]) or taken
            done += 1
        return taken

    def changed(self, path: Path, values: Iterator[Any]) -> bool:
        """Puts the first of the values that does at a path; whether one does."""

        def candidates() -> Iterator[Document]:
            for value in values:
                less = copy.deepcopy(self.document)
                at(less, path[:-1])[path[-1]] = value
                yield less
                if path[2:3] == ("votes",):
                    change_alike(less, at(self.document, path[:4]), at(less, path[:4]))
                    yield less

        return self.take(candidates())

    def keys(self) -> bool:
        """Takes out keys that may be left out; whether any went."""
        taken = False
        for path, _ in list(walk(self.document)):
            if path[-1:] and path[-1] in LEFT_OUT:
                less = copy.deepcopy(self.document)
                del at(less, path[:-1])[path[-1]]
                taken = self.take(iter([less])) or taken
        return taken

    def contracts(self) -> bool:
        """Takes operations and statements out of contracts; whether any went."""
        taken = False
        for index in range(len(self.document["apps"])):
            path = ("apps", index, "contract")
            while self.changed(path, contract_cuts(at(self.document, path))):
                taken = True
        return taken

    def numbers(self) -> bool:
        """Makes numbers less; whether any became less."""
        taken = False
        for path, value in list(walk(self.document)):
            while isinstance(value, int) and path != ("version",) and self.changed(path, lesser(value, LEAST.get(path[-1], 0))):
                value, taken = at(self.document, path), True
        return taken

    def run(self) -> None:
        """Makes the document smaller until a whole round takes nothing more."""
        while any([self.lists(), self.keys(), self.contracts(), self.numbers()]):
            pass
