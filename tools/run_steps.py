"""What each event of a schedule does, seen from outside: the prefixes of the schedule are played one after another.

All is read off the printed texts of `run --trace` and `graph`, but for one thing: where a block is accepted is found
from the NEWBLOCKs that came to a peer, as docs/FORMAT.md says ("A run", "Bytes and hashes"). Nothing of this is proved.
"""

import hashlib
import json
import os
import pathlib
import subprocess

TOP = pathlib.Path(__file__).resolve().parent.parent
NO_HASH = "0" * 64


class Refused(Exception):
    """The program answers no text: its status and its line."""

    def __init__(self, status, line):
        super().__init__(line)
        self.status = status


def found_program(path=None):
    """The program to run: the one named, or that of PARBLOCK_PROGRAM, or out/parblock."""
    path = path or os.environ.get("PARBLOCK_PROGRAM") or str(TOP / "out" / "parblock")
    if not os.access(path, os.X_OK):
        raise Refused(70, f"no program at {path}; './parblock none' at the top of the checkout builds it")
    return path


def printed(program, words, document):
    """The lines that the program prints of a document."""
    text = json.dumps(document).encode() if isinstance(document, dict) else document
    done = subprocess.run([program] + words, input=text, stdout=subprocess.PIPE, stderr=subprocess.PIPE, check=False)
    if done.returncode != 0:
        raise Refused(done.returncode, done.stderr.decode().strip())
    return done.stdout.decode().splitlines()


class Peer:
    """What a run prints of one peer."""

    def __init__(self, completed):
        self.completed, self.hashes, self.outcomes, self.halted = completed, [], {}, None


class Printed:
    """What `run --trace` prints: the peers, the counts of messages and of idle deliveries, and the bursts."""

    def __init__(self, lines):
        self.peers, self.bursts, self.messages, self.idle = {}, [], 0, 0
        peer = block = None
        for line in lines:
            words = line.split()
            if words[0] == "peer":
                peer = self.peers[words[1]] = Peer(int(words[3]))
            elif words[0] == "block":
                block = peer.outcomes[int(words[1])] = []
                peer.hashes.append(words[2])
            elif words[0] in ("txn", "config"):
                block.append(line)
            elif words[0] == "halted":
                peer.halted = line
            elif words[0] == "messages":
                self.messages = int(words[1])
            elif words[0] == "idle":
                self.idle = int(words[1])
            elif words[0] == "burst":
                self.bursts.append((words[1], int(words[2]), int(words[3])))


# BLOCKS

def name_bytes(name):
    return bytes([len(name)]) + name.encode()


def txn_bytes(item):
    """The bytes of a request's transaction."""
    out = name_bytes(item["app"]) + name_bytes(item["op"]) + bytes([len(item["args"])])
    for arg in item["args"]:
        out += b"\1" + name_bytes(arg) if isinstance(arg, str) else b"\2" + arg.to_bytes(8, "big")
    for names in (item["reads"], item["writes"]):
        out += bytes([len(names)]) + b"".join(name_bytes(name) for name in sorted(names))
    return out


def block_hash(document, number, prev, items):
    """The hash of the block with these items, numbered from 1."""
    out = number.to_bytes(8, "big") + bytes.fromhex(prev)
    said = [document["stream"][item - 1] for item in items]
    if "config" in said[0]:
        agents = [peer for peer in document["peers"] if peer in said[0]["agents"]]
        out += bytes(4) + name_bytes(said[0]["config"]) + bytes([len(agents)])
        out += b"".join(name_bytes(agent) for agent in agents) + bytes([said[0]["tau"]])
    else:
        out += len(items).to_bytes(4, "big") + b"".join(txn_bytes(item) for item in said)
    return hashlib.sha256(out).hexdigest()


def graph_of(document, items):
    """For each of these items the earlier ones that it depends on, numbered from 1."""
    said = [document["stream"][item - 1] for item in items]
    if "config" in said[0]:
        return []
    full = document["kind"] == "full"

    def depends(later, earlier):
        reads, writes = set(later["reads"]), set(later["writes"])
        found = set(earlier["writes"]) & (reads | writes if full else reads)
        return bool(found or full and set(earlier["reads"]) & writes)

    return [[e + 1 for e in range(t) if depends(said[t], said[e])] for t in range(len(said))]


def agreed_blocks(document, lines):
    """The agreed blocks, each as its hash and the numbers of its items, from the lines of `graph`."""
    rejected = {int(line.split()[1]) for line in lines if line.startswith("rejected ")}
    items = [n for n, item in enumerate(document["stream"], 1) if item != "cut" and n not in rejected]
    blocks = []
    for line in lines:
        if line.startswith("block "):
            blocks.append((line.split()[2], []))
        elif line.startswith(("txn ", "config ")):
            blocks[-1][1].append(items.pop(0))
    return blocks


# MESSAGES

class Message:
    """A message: who sent it, what it is of which block, and whether an event says it."""

    def __init__(self, sender, kind, blocks, said=False):
        self.sender, self.kind, self.blocks, self.said = sender, kind, blocks, said
        self.content = None

    def what(self):
        """What it is of which block."""
        return f"{self.kind} {' or '.join(str(block) for block in self.blocks)}".strip()

    def __str__(self):
        return f"{self.what()} of {self.sender or 'a peer'}"


class Newblocks:
    """The NEWBLOCKs that came to one peer, and which blocks it accepted."""

    def __init__(self, orderers, quorum):
        self.orderers, self.quorum = orderers, quorum
        self.first, self.accepted, self.tip = {}, [], NO_HASH

    def hear(self, message):
        """The numbers of the blocks that are accepted with this message."""
        if message.content is None or message.sender not in self.orderers:
            return []
        number, prev, own_hash = message.content
        said = self.first.setdefault(number, {})
        if message.sender in said:
            return []
        said[message.sender] = (prev, own_hash)
        found = []
        while True:
            newer = self.next_block(len(self.accepted) + 1)
            if newer is None:
                return found
            self.accepted.append(newer)
            self.tip = newer
            found.append(len(self.accepted))

    def next_block(self, number):
        """The hash that first had enough orderers, over the own tip."""
        counts = {}
        for prev, own_hash in self.first.get(number, {}).values():
            if prev == self.tip:
                counts[own_hash] = counts.get(own_hash, 0) + 1
                if counts[own_hash] == self.quorum:
                    return own_hash
        return None


# STEPS

class Step:
    """What one event did: which message came to whom, and what became of it."""

    def __init__(self, number, event):
        self.number, self.event = number, event
        self.message, self.text, self.sender, self.receiver = None, "", None, None
        self.delivered = None
        self.idle, self.marks, self.sent = False, {}, {}

    def mark(self, node, kind, text, block=None):
        """A mark of a node: accepted, ran, completed, halted or says."""
        self.marks.setdefault(node, []).append((kind, block, text))


class Play:
    """A document that is played event by event. An `all` is shown delivery by delivery where the columns suffice."""

    def __init__(self, program, document, columns=120):
        self.program, self.document, self.columns = program, document, columns
        self.events, self.steps = [], []
        self.now = self.play([])
        self.blocks = agreed_blocks(document, printed(program, ["graph"], document))
        self.honest = [peer for peer in document["peers"] if peer not in document["faulty"]]
        self.heard = {peer: Newblocks(document["orderers"], document["quorum"]) for peer in self.honest}
        self.messages = self.first_messages()
        self.halted = {}

    def play(self, events):
        return Printed(printed(self.program, ["run", "--trace"], dict(self.document, schedule=events)))

    def first_messages(self):
        """What is sent before the first event."""
        orderers = [orderer for orderer in self.document["orderers"] if orderer not in self.document["faulty"]]
        out, prev = [], NO_HASH
        for number, (own_hash, _) in enumerate(self.blocks, 1):
            for orderer in orderers:
                out.append(Message(orderer, "NEWBLOCK", [number]))
                out[-1].content = (number, prev, own_hash)
            prev = own_hash
        return out

    def run(self):
        """The steps of the whole schedule."""
        for number, event in enumerate(self.document["schedule"], 1):
            if event["do"] == "all" and self.fits():
                self.deliver_all(number)
            else:
                self.step(number, event)
        return self.steps

    def fits(self):
        """Whether each delivery of an `all` can have its column: played once, for the count of messages at its end."""
        after = self.play(self.events + [{"do": "all"}]).messages
        return len(self.steps) + after * len(self.honest) <= self.columns

    def deliver_all(self, number):
        message = 1
        while message <= self.now.messages:
            for peer in self.honest:
                self.step(number, {"do": "deliver", "msg": message, "to": peer})
            message += 1

    def step(self, number, event):
        """Plays one event more, and notes what differs."""
        self.events.append(event)
        before, self.now = self.now, self.play(self.events)
        step = Step(number, event)
        self.steps.append(step)
        step.idle = self.now.idle > before.idle
        step.text = event["do"]
        if event["do"] == "deliver":
            self.deliver(step)
        elif event["do"] == "all":
            self.take_all(step)
        ran = {}
        for peer, block, count in self.now.bursts[len(before.bursts):]:
            ran[peer, block] = ran.get((peer, block), 0) + count
        for (peer, block), count in ran.items():
            step.mark(peer, "ran", f"{peer} ran {count} of block {block}", block)
        self.send(step, before)
        self.complete(step, before)

    def deliver(self, step):
        """What is delivered to whom."""
        number, to = step.event["msg"], step.event["to"]
        step.receiver = to
        if step.idle:
            why = "is faulty" if to in self.document["faulty"] else "there is no such message"
            step.text = f"message {number} to {to}: {why}" if to in self.document["faulty"] else f"message {number}: {why}"
            return
        step.message = number
        message = self.messages[number - 1]
        step.delivered, step.sender = message, message.sender
        step.text = f"{message} to {to}"
        self.accept(step, to, message)

    def take_all(self, step):
        """An `all` in one column: each NEWBLOCK was there before it. Of a peer that halts in it, nothing is said."""
        for peer in self.honest:
            if not self.now.peers[peer].halted:
                for message in self.messages:
                    self.accept(step, peer, message)

    def accept(self, step, peer, message):
        if peer in self.halted:
            return
        for block in self.heard[peer].hear(message):
            known = [number for number, (own_hash, _) in enumerate(self.blocks, 1) if own_hash == self.heard[peer].accepted[block - 1]]
            false = "" if block in known else ", which is no agreed one"
            step.mark(peer, "accepted", f"{peer} accepted block {block}{false}", block)

    def send(self, step, before):
        """The messages that the event added."""
        event = step.event
        added = range(before.messages + 1, self.now.messages + 1)
        for number in added:
            if event["do"] in ("block", "commit"):
                self.messages.append(self.said(event))
                step.sender, step.message, step.text = event["from"], number, f"{event['from']} says {self.messages[-1].what()}"
                step.mark(event["from"], "says", f"{step.text}: {json.dumps(event)}")
            elif event["do"] == "deliver":
                blocks = sorted({block for peer, block, _ in self.now.bursts[len(before.bursts):] if peer == event["to"]})
                self.messages.append(Message(event["to"], "COMMIT", blocks))
                step.sent.setdefault(event["to"], []).append(number)
            else:
                self.messages.append(Message(None, "COMMIT", []))
                step.sent.setdefault(None, []).append(number)

    def said(self, event):
        """What a faulty node says."""
        if event["do"] == "commit":
            return Message(event["from"], "COMMIT", [event["block"]], True)
        message = Message(event["from"], "NEWBLOCK", [event["number"]], True)
        number, items = event["number"], event["txns"]
        before = number - 2
        prev = event.get("prev") or (self.blocks[before][0] if 0 <= before < len(self.blocks) else NO_HASH)
        if event.get("preds", graph_of(self.document, items)) == graph_of(self.document, items):
            message.content = (number, prev, block_hash(self.document, number, prev, items))
        return message

    def complete(self, step, before):
        """The blocks that were completed, and who halted."""
        for name, peer in self.now.peers.items():
            for block in range(before.peers[name].completed + 1, peer.completed + 1):
                outcomes = "; ".join(peer.outcomes[block])
                step.mark(name, "completed", f"{name} agreed on and completed block {block}: {outcomes}", block)
            if peer.halted and not before.peers[name].halted:
                self.halted[name] = len(self.steps)
                step.mark(name, "halted", f"{name} {peer.halted}")
