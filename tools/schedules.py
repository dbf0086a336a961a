"""Schedules drawn from a seed: deliveries that are lost, repeated and reordered, and what liars say.

The same seed, document and plan draw the same schedule on every machine.
"""

import random
from dataclasses import dataclass, field
from typing import Any, Dict, List, Optional, Tuple

from documents import Block, Document

Event = Dict[str, Any]
Vote = Dict[str, Any]
Lie = Tuple[Event, Optional[List[str]]]

GREATEST_VALUE = 4611686018427387903
REASONS = ["require", "overflow", "underflow", "zero_divisor", "undeclared"]
GREATEST_ENTRIES = 16384
GREATEST_FALSE = 1024
GREATEST_EVENTS = 65536
GREATEST_BLOCK = 256


@dataclass(frozen=True)
class Plan:
    """What may happen to a document: the chances of a loss and of a repeat, who lies, and whether there is always an `all`."""

    lose: float = 0.2
    repeat: float = 0.1
    liars: Tuple[str, ...] = ()
    always_all: bool = False


@dataclass
class Reference:
    """What the honest nodes of a document come to when nothing fails: its blocks, their hashes and their outcomes."""

    blocks: List[Block]
    ledger: List[List[str]]
    messages: int

    def hash(self, number: int) -> str:
        """The hash of a block, from 1."""
        return self.ledger[number - 1][0].split(" ")[2]

    def vote(self, number: int, txn: int) -> Vote:
        """The true vote on a transaction."""
        words = self.ledger[number - 1][txn].split(" ")
        if words[4] == "abort":
            return {"txn": txn, "abort": words[5]}
        values = (pair.rsplit("=", 1)[1] for pair in words[5:])
        return {"txn": txn, "out": [None if value == "-" else int(value) for value in values]}


@dataclass
class Drawing:
    """A schedule in the making: the dice, the document, what holds without faults, and the lies that liars share."""

    dice: random.Random
    document: Document
    reference: Reference
    plan: Plan
    shared: Dict[Tuple[int, int], Vote] = field(default_factory=dict)
    shared_blocks: Dict[int, Event] = field(default_factory=dict)
    entries: int = 0

    @property
    def peers(self) -> List[str]:
        """The peers that aren't liars."""
        return [name for name in self.document["peers"] if name not in self.plan.liars]


def false_vote(dice: random.Random, true: Vote) -> Vote:
    """Another outcome than this vote's, which fits."""
    out = true.get("out")
    if out is None or dice.random() < 0.2:
        return {"txn": true["txn"], "abort": dice.choice([word for word in REASONS if word != true.get("abort")])}
    if not out:
        return {"txn": true["txn"], "abort": dice.choice(REASONS)}
    values = list(out)
    at = dice.randrange(len(values))
    old = values[at]
    values[at] = dice.choice([value for value in (None, 0, (old or 0) + 1, max((old or 0) - 1, 0)) if value != old])
    return {"txn": true["txn"], "out": values}


def unfit_vote(dice: random.Random, true: Vote) -> Vote:
    """A vote that fits no transaction of the block, or not this one."""
    out = true.get("out") or []
    choices = [
        {"txn": GREATEST_BLOCK, "out": out},
        {"txn": true["txn"], "out": (out + [0])[:16]},
        {"txn": true["txn"], "out": out[:-1]},
        {"txn": true["txn"], "out": [GREATEST_VALUE + 1] * len(out)},
    ]
    return dice.choice(choices)


def draw_vote(drawing: Drawing, number: int, txn: int) -> Vote:
    """A liar's vote: the lie that all liars share, a true one, a lie of its own, or an unfit one."""
    dice, true = drawing.dice, drawing.reference.vote(number, txn)
    chance = dice.random()
    if chance < 0.5:
        if (number, txn) not in drawing.shared:
            drawing.shared[(number, txn)] = false_vote(dice, true)
        return drawing.shared[(number, txn)]
    if chance < 0.65:
        return true
    return false_vote(dice, true) if chance < 0.85 else unfit_vote(dice, true)


def draw_commit(drawing: Drawing, liar: str) -> Optional[Event]:
    """A COMMIT of a liar for one of the blocks."""
    blocks = [block for block in drawing.reference.blocks if block.config is None]
    if not blocks:
        return None
    block = drawing.dice.choice(blocks)
    txns = [txn for txn in range(1, len(block.items) + 1) if drawing.dice.random() < 0.8]
    votes = [draw_vote(drawing, block.number, txn) for txn in txns]
    return {"do": "commit", "from": liar, "block": block.number, "votes": votes}


def other_items(drawing: Drawing, block: Block) -> List[int]:
    """The items of a false block: in another order, one less, one more, or those of another block."""
    dice, items = drawing.dice, list(block.items)
    other = dice.choice(drawing.reference.blocks)
    chance = dice.random()
    if block.config is not None or other.config is not None or chance < 0.3:
        return list(other.items)
    if chance < 0.6:
        dice.shuffle(items)
        return items
    if chance < 0.8 and len(items) > 1:
        del items[dice.randrange(len(items))]
        return items
    return (items + [dice.choice(other.items)])[:GREATEST_BLOCK]


def draw_content(drawing: Drawing, number: int) -> Event:
    """What a liar says block `number` is, without its name: other items, another previous hash, or a wrong graph."""
    dice, blocks = drawing.dice, drawing.reference.blocks
    block = blocks[number - 1] if number <= len(blocks) else dice.choice(blocks)
    chance = dice.random()
    event: Event = {"do": "block", "number": number, "txns": list(block.items)}
    if chance < 0.55:
        event["txns"] = other_items(drawing, block)
    elif chance < 0.7:
        event["prev"] = drawing.reference.hash(dice.choice(blocks).number)
    elif chance < 0.9 and block.config is None:
        count = len(block.items)
        event["preds"] = [[pred for pred in range(1, txn + 1) if dice.random() < 2 / count] for txn in range(1, count + 1)]
    return event


def draw_block(drawing: Drawing, liar: str) -> Optional[Event]:
    """A NEWBLOCK of a liar: the one that all liars share for this number, or one of its own."""
    if not drawing.reference.blocks:
        return None
    number = drawing.dice.randrange(len(drawing.reference.blocks) + 1) + 1
    if drawing.dice.random() < 0.5:
        if number not in drawing.shared_blocks:
            drawing.shared_blocks[number] = draw_content(drawing, number)
        content = drawing.shared_blocks[number]
    else:
        content = draw_content(drawing, number)
    return {"do": "block", "from": liar, **{key: value for key, value in content.items() if key != "do"}}


def draw_word(drawing: Drawing, liar: str) -> Optional[Event]:
    """Something that a liar says, most often of its own kind."""
    orders = (liar in drawing.document["orderers"]) != (drawing.dice.random() < 0.05)
    event = draw_block(drawing, liar) if orders else draw_commit(drawing, liar)
    if event is None:
        return None
    size = len(event.get("txns", event.get("votes", [])))
    if drawing.entries + size > GREATEST_ENTRIES:
        return None
    drawing.entries += size
    return event


def draw_lies(drawing: Drawing, liar: str) -> List[Lie]:
    """What a liar says, each for whom: nothing, or a few words to all, or two words to two parts of the peers."""
    dice, lies = drawing.dice, []
    for _ in range(dice.choice([0, 1, 1, 2, 3])):
        if dice.random() < 0.3:
            left = [name for name in drawing.peers if dice.random() < 0.5]
            right = [name for name in drawing.peers if name not in left]
            lies += [(draw_word(drawing, liar), left), (draw_word(drawing, liar), right)]
        else:
            lies.append((draw_word(drawing, liar), None))
    return [lie for lie in lies if lie[0] is not None]


def draw_deliveries(drawing: Drawing, first: int, early: List[Lie], last: int) -> List[Event]:
    """Deliveries of the messages 1 to `last` in drawn order; from `first` on stand the early lies, each for its audience."""
    dice, plan, keyed = drawing.dice, drawing.plan, []
    spread = dice.choice([0.0, 2.0, last / 4, float(last)])
    for msg in range(1, last + 1):
        said = early[msg - first][1] if first <= msg < first + len(early) else None
        at = dice.random() * last if first <= msg < first + len(early) else float(msg)
        for peer in drawing.document["peers"]:
            heard = said is None or peer in said
            while heard and dice.random() >= plan.lose:
                keyed.append((at + spread * dice.random(), len(keyed), {"do": "deliver", "msg": msg, "to": peer}))
                heard = dice.random() < plan.repeat
    return [event for _, _, event in sorted(keyed)]


def put_in(dice: random.Random, events: List[Event], more: List[Event]) -> None:
    """Puts events at drawn positions among others."""
    for event in more:
        events.insert(dice.randrange(len(events) + 1), event)


def draw(document: Document, reference: Reference, plan: Plan, seed: int) -> Document:
    """The document with the schedule of this seed, in which the plan's liars are the faulty nodes."""
    dice = random.Random(seed)
    drawing = Drawing(dice, document, reference, plan)
    lies = [lie for liar in plan.liars for lie in draw_lies(drawing, liar)][:GREATEST_FALSE]
    early = [lie for lie in lies if lie[1] is not None or dice.random() < 0.6]
    late = [event for event, said in lies if not any(event is other for other, _ in early)]
    dice.shuffle(early)
    blocks = len(reference.blocks)
    sent = blocks * sum(name not in plan.liars for name in document["orderers"])
    last = sent + len(lies) + reference.messages - blocks * len(document["orderers"])
    events = draw_deliveries(drawing, sent + 1, early, last)[: GREATEST_EVENTS - GREATEST_FALSE - 8]
    put_in(dice, events, late)
    if plan.always_all or dice.random() < 0.25:
        at = len(events) if dice.random() < 0.5 else dice.randrange(len(events) + 1)
        events.insert(at, {"do": "all"})
    schedule = [event for event, _ in early] + events
    return {**document, "faulty": list(plan.liars), "schedule": schedule}
