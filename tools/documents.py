"""Documents as docs/FORMAT.md has them: the agreed blocks of a stream, and the bounds of the headline.

Computed from the page and not from the program, so that the tools compare the two.
"""

import json
import re
from dataclasses import dataclass, field
from typing import Any, Dict, List, Optional, Set

Document = Dict[str, Any]
Item = Any

OPERATION = re.compile(r"\bop\s+([a-z][a-z0-9_]*)\s*\(([^)]*)\)")
GREATEST_SET = 16
LISTS = ("records", "apps", "stream", "schedule")


@dataclass
class Block:
    """An agreed block: the stream's items in it, from 1, and a configuration or none."""

    number: int
    items: List[int] = field(default_factory=list)
    config: Optional[Item] = None


@dataclass
class Bounds:
    """Which bounds of docs/FORMAT.md, "Who may fail", a document keeps, with the reasons where it doesn't."""

    tame: bool = True
    calm: bool = True
    staffed: bool = True
    why: List[str] = field(default_factory=list)

    def count(self, place: str, names: List[str], needed: int, faulty: Set[str], speakers: Set[str]) -> None:
        """Counts the faulty ones among the names, of whom so many have to agree."""
        false, speaking = sum(name in faulty for name in names), sum(name in speakers for name in names)
        self.calm = self.calm and speaking < needed
        if false >= needed:
            self.tame = False
            self.why.append(f"{false} faulty {place}, where {needed} have to agree")
        if len(names) - false < needed:
            self.staffed = False
            self.why.append(f"{len(names) - false} honest {place}, where {needed} have to agree")


def parse(text: str) -> Document:
    """The document that a text says, which the program has taken."""
    return json.loads(text)


def dump(document: Document) -> str:
    """A document as a text with a line for each key, record, application, item and event."""
    rows = []
    for key, value in document.items():
        if key in LISTS and value:
            inner = ",\n".join("  " + json.dumps(entry) for entry in value)
            rows.append(f" {json.dumps(key)}: [\n{inner}\n ]")
        else:
            rows.append(f" {json.dumps(key)}: {json.dumps(value)}")
    return "{\n" + ",\n".join(rows) + "\n}\n"


def operations(contract: str) -> Dict[str, List[str]]:
    """The operations of a contract, each with the kinds of its parameters."""
    found = {}
    for name, params in OPERATION.findall(contract):
        found[name] = [param.split(":")[1].strip() for param in params.split(",") if param.strip()]
    return found


def is_config(item: Item) -> bool:
    """Whether an item of the stream is a configuration."""
    return isinstance(item, dict) and "config" in item


def reject_reason(document: Document, request: Item) -> Optional[str]:
    """The first reason to reject a request, by docs/FORMAT.md, "Cutting"."""
    app = next((app for app in document["apps"] if app["name"] == request["app"]), None)
    if app is None:
        return "unknown_app"
    if request["client"] not in app["clients"]:
        return "client_not_allowed"
    kinds = operations(app["contract"]).get(request["op"])
    if kinds is None:
        return "unknown_op"
    if len(kinds) != len(request["args"]):
        return "arg_count"
    if any((kind == "record") != isinstance(arg, str) for kind, arg in zip(kinds, request["args"])):
        return "arg_kind"
    if max(len(request["reads"]), len(request["writes"])) > GREATEST_SET:
        return "set_too_large"
    return None


def rejects(document: Document) -> List[str]:
    """The lines `rejected` of a document."""
    lines = []
    for number, item in enumerate(document["stream"], 1):
        reason = reject_reason(document, item) if item != "cut" and not is_config(item) else None
        if reason is not None:
            lines.append(f"rejected {number} {reason}")
    return lines


def bytes_of(request: Item) -> int:
    """The bytes of a transaction, by docs/FORMAT.md, "Bytes and hashes"."""
    names = [request["app"], request["op"], *request["reads"], *request["writes"]]
    args = sum(2 + len(arg) if isinstance(arg, str) else 9 for arg in request["args"])
    return 3 + args + sum(1 + len(name) for name in names)


def agreed_blocks(document: Document) -> List[Block]:
    """The agreed blocks of the stream, by docs/FORMAT.md, "Cutting"."""
    blocks: List[Block] = []
    held: List[int] = []
    size = 0
    for number, item in enumerate(document["stream"], 1):
        admitted = item != "cut" and not is_config(item) and reject_reason(document, item) is None
        more = bytes_of(item) if admitted else 0
        if held and (item == "cut" or is_config(item) or size + more > document["cut"]["bytes"]):
            blocks.append(Block(len(blocks) + 1, held))
            held, size = [], 0
        if is_config(item):
            blocks.append(Block(len(blocks) + 1, [number], item))
        if admitted:
            held, size = held + [number], size + more
        if len(held) == document["cut"]["txns"]:
            blocks.append(Block(len(blocks) + 1, held))
            held, size = [], 0
    if held:
        blocks.append(Block(len(blocks) + 1, held))
    return blocks


def bounds_of(document: Document, blocks: List[Block]) -> Bounds:
    """The bounds that a document keeps: orderers once, and at each agreed block the agents in force of its transactions."""
    faulty = set(document["faulty"])
    speakers = {event["from"] for event in document["schedule"] if "from" in event}
    bounds = Bounds()
    bounds.count("orderers", document["orderers"], document["quorum"], faulty, speakers)
    force = {app["name"]: (app["agents"], app["tau"]) for app in document["apps"]}
    for block in blocks:
        if block.config is not None:
            force[block.config["config"]] = (block.config["agents"], block.config["tau"])
            continue
        for app in sorted({document["stream"][number - 1]["app"] for number in block.items}):
            bounds.count(f"agents of {app} at block {block.number}", *force[app], faulty, speakers)
    return bounds
