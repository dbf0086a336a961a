#!/usr/bin/env python3
"""Tests of `fault`, over programs that stand in: each prints one status line and ends with one status."""

import importlib.machinery
import importlib.util
import json
import os
import pathlib
import re
import subprocess
import tempfile
import unittest

TOOLS = pathlib.Path(__file__).resolve().parent
TOP = TOOLS.parent
EXAMPLES = TOP / "examples"


def script():
    """The script as a module."""
    loader = importlib.machinery.SourceFileLoader("fault", str(TOOLS / "fault"))
    module = importlib.util.module_from_spec(importlib.util.spec_from_loader("fault", loader))
    loader.exec_module(module)
    return module


FAULT = script()


def pieces(found):
    return ",".join(found[2].replace("#", str(count)) for count in range(int(found[1])))


def rows():
    """The rows of the table of `par_faults`, each with its document and its fault."""
    base = re.search('const BASE: &str =\\s*"(.*)";', (TOP / "crates/document_rows/src/answers.rt").read_text())[1]
    for row in (TOP / "crates/par_faults/stdin").read_text().splitlines():
        if row and not row.startswith("#"):
            changes, fault = row.rsplit(" => ", 1)
            text = base
            for change in changes.split(" && "):
                old, new = change.split(" -> ")
                new = re.sub("<([0-9]+) times (.*?)>", pieces, "" if new == "nothing" else new)
                text = text.replace(old, new, 1)
            yield row, text.replace("'", '"'), fault


def document(**changes):
    """A small document, with some keys of its root changed."""
    whole = {
        "version": 1,
        "kind": "full",
        "cut": {"txns": 1, "bytes": 2048},
        "records": [["a", 1]],
        "orderers": ["o1"],
        "quorum": 1,
        "peers": ["p1"],
        "apps": [{"name": "bank", "agents": ["p1"], "tau": 1, "clients": [], "contract": "op f(r:record){r=1;}"}],
        "stream": [],
        "faulty": [],
        "schedule": [],
    }
    return json.dumps(whole | changes, ensure_ascii=False, separators=(",", ":"))


class Fault(unittest.TestCase):
    def setUp(self):
        folder = tempfile.TemporaryDirectory(prefix="fault test ")
        self.addCleanup(folder.cleanup)
        self.folder = pathlib.Path(folder.name)

    def run_fault(self, path, line, status):
        """What `fault` does where the program prints this line and ends with this status."""
        program = self.folder / "program"
        (self.folder / "line").write_text(line)
        program.write_text(f'#!/bin/sh\ncat > /dev/null\ncat "{self.folder}/line" >&2\nexit {status}\n')
        program.chmod(0o755)
        variables = {**os.environ, "PARBLOCK_PROGRAM": str(program)}
        return subprocess.run([TOOLS / "fault", *path], env=variables, capture_output=True, text=True, check=False)

    def shown(self, text, fault):
        """The lines shown of this fault of a text, the first without the document's name."""
        data = text if isinstance(text, bytes) else text.encode("utf-8", "surrogatepass")
        return FAULT.shown("", data, fault).splitlines()

    def assert_at(self, text, fault, sign, nth=0):
        """The fault is shown at the nth place of this part of the text, with the mark under it."""
        at = -1
        for _ in range(nth + 1):
            at = text.index(sign, at + 1)
        line, column = text.count("\n", 0, at) + 1, at - text.rfind("\n", 0, at)
        first, excerpt, mark, *_ = self.shown(text, fault)
        self.assertTrue(first.startswith(f":{line}:{column}: {fault}"), first)
        self.assertTrue(excerpt[len(mark) - 1 :].startswith(sign[:20]), excerpt + "\n" + mark)

    def test_examples(self):
        wanted = {
            "double_record": (2, 21),
            "long_write_set": (5, 487),
            "missing_peers": (1, 1),
            "quorum_above_count": (2, 58),
            "unknown_name": (4, 32),
            "unknown_record": (5, 84),
        }
        for path in sorted(EXAMPLES.glob("*.run.err")):
            name = path.name.removesuffix(".run.err")
            with self.subTest(name):
                ran = self.run_fault([EXAMPLES / f"{name}.json"], path.read_text(), 3)
                line, column = wanted[name]
                self.assertIn(f"{name}.json:{line}:{column}: ", ran.stdout)
                self.assertEqual((ran.returncode, ran.stderr), (3, ""))

    def test_contract(self):
        lines = self.shown(document(), "contract 0 unknown_name 17")
        self.assertEqual(lines[3], "the contract of application 0, bank, byte 17, line 1, column 18:")
        self.assertEqual(lines[4:], ["  op f(r:record){r=1;}", "                   ^"])
        self.assert_at(document(), "contract 0 unknown_name 17", "1;}")

    def test_contract_with_escapes(self):
        text = document().replace("op f(r", r"op\u0020f(\r\n\"\/\ud83d\ude00é\tr")
        first, excerpt, mark, title, inner, inner_mark = self.shown(text, "contract 0 syntax 16")
        column = text.index("r:record") + 1
        self.assertTrue(first.startswith(f":1:{column}: contract 0 syntax 16"), first)
        self.assertTrue(excerpt[len(mark) - 1 :].startswith("r:record"))
        self.assertEqual(title, "the contract of application 0, bank, byte 16, line 2, column 6:")
        self.assertTrue(inner[len(inner_mark) - 1 :].startswith("r:record"), inner)

    def test_contract_at_its_end(self):
        self.assert_at(document(), "contract 0 syntax 20", '"}],"stream"')

    def test_paths(self):
        request = {"client": "c", "app": "bank", "op": "f", "args": ["a"], "reads": ["a", "zz"], "writes": []}
        self.assert_at(document(stream=[request]), "name stream[0].reads[1]", '"zz"')
        self.assert_at(document(kind="half"), "field kind", '"half"')
        self.assert_at("[1]", "field .", "[1]")
        self.assert_at(document(cut={"txns": 1}), "field cut.bytes", '{"txns":1}')
        self.assert_at(document(faulty=["o1", "o1"]), "double faulty[1]", '"o1"', 2)

    def test_odd_keys(self):
        self.assert_at(document(**{"Ab é": 1}), "field ?b???", '"Ab é"')
        self.assert_at(document(**{"?": 1, "!": 2}), "field ?", '"!"')
        self.assert_at(document(**{"": 1}), "field ", '""')
        self.assert_at(document(cut={"txns": 1, "bytes": 2048, "": 1}), "field cut.", '""')
        votes = [{"txn": 1, "out": [], "abort": "require"}]
        event = {"do": "commit", "from": "p1", "block": 1, "votes": votes}
        self.assert_at(document(schedule=[event]), "field schedule[0].votes[0].abort", '"abort"')

    def test_a_key_twice(self):
        text = document().replace('"quorum":1', '"quorum":1,"quorum":7')
        self.assert_at(text, "limit quorum 1", "7")

    def test_lines(self):
        self.assert_at(json.dumps(json.loads(document(quorum=0)), indent=1).replace("\n", "\r\n"), "limit quorum 1", "0,")

    def test_limits(self):
        def app(**changes):
            return [json.loads(document())["apps"][0] | changes]

        request = {"client": "c", "app": "bank", "op": "f", "args": [], "reads": [], "writes": []}
        config = {"config": "bank", "agents": ["p1"], "tau": 1}
        block = {"do": "block", "from": "o1", "number": 1, "txns": [1]}
        commit = {"do": "commit", "from": "p1", "block": 1, "votes": []}
        deliver = {"do": "deliver", "msg": 1, "to": "p1"}
        cases = [
            (document(cut={"txns": 999, "bytes": 2048}), "cut 256", "999", 0),
            (document(cut={"txns": 1, "bytes": 999}), "cut 1048576", "999", 0),
            (document(records=[["r", 1]] * 4096 + [["z", 1]]), "records 4096", '["z",1]', 0),
            (document(records=[["a", 2**62]]), "value 4611686018427387903", str(2**62), 0),
            (document(stream=[request | {"args": [1, 2**62]}]), "value 4611686018427387903", str(2**62), 0),
            (document(orderers=[]), "orderers 16", "[]", 0),
            (document(peers=["p"] * 16 + ["q"]), "peers 16", '"q"', 0),
            (document(apps=[]), "apps 16", "[]", 0),
            (document(apps=app(agents=[])), "agents 16", "[]", 0),
            (document(apps=app(tau=77)), "tau 1", "77", 0),
            (document(stream=[config | {"tau": 77}]), "tau 1", "77", 0),
            (document(apps=app(clients=["c"] * 64 + ["d"])), "clients 64", '"d"', 0),
            (document(apps=app(contract="x" * 65537)), "contract 65536", '"xxx', 0),
            (document(stream=["cut"] * 8193), "items 8192", '"cut"', 8193),
            (document(stream=[request] * 4097), "transactions 4096", '{"client"', 4096),
            (document(stream=[config] * 257), "configs 256", '{"config"', 256),
            (document(stream=[request | {"args": [0] * 64 + [88]}]), "args 64", "88]", 0),
            (document(stream=[request | {"writes": ["a"] * 64 + ["b"]}]), "set 64", '"b"', 0),
            (document(faulty=["o1"] * 32 + ["p1"]), "faulty 32", '"p1"', 2),
            (document(schedule=[0] * 65536 + [{"do": "all"}]), "schedule 65536", '{"do":"all"}', 0),
            (document(schedule=[{"do": "all"}] * 9), "all 8", '{"do":"all"}', 8),
            (document(schedule=[commit] * 1025), "false 1024", '{"do"', 1024),
            (document(schedule=[deliver, deliver | {"msg": 0}]), "msg 4294967295", '0,"to"', 0),
            (document(schedule=[block | {"number": 4354}]), "number 4353", "4354", 0),
            (document(schedule=[commit | {"block": 4354}]), "block 4353", "4354", 0),
            (document(schedule=[block | {"txns": []}]), "txns 256", "[]}", 0),
            (document(schedule=[block | {"txns": [77]}]), "item 0", "77", 0),
            (document(schedule=[block | {"txns": [1] * 256}] * 64 + [block]), "false_txns 16384", "[1]}", 0),
            (document(schedule=[block | {"preds": [[1], [1, 257]]}]), "preds 256", "257", 0),
            (document(schedule=[commit | {"votes": [{}] * 257}]), "votes 256", "{}]", 0),
            (document(schedule=[commit | {"votes": [{}] * 256}] * 64 + [commit | {"votes": [{"txn": 1}]}]), "false_votes 16384", '[{"txn"', 0),
            (document(schedule=[commit | {"votes": [{"txn": 257}]}]), "txn 256", "257", 0),
            (document(schedule=[commit | {"votes": [{"txn": 1, "out": [0] * 16 + [8]}]}]), "out 16", "8]", 0),
        ]
        for text, limit, sign, nth in cases:
            with self.subTest(limit):
                self.assert_at(text, f"limit {limit}", sign, nth)

    def test_table_of_faults(self):
        count = 0
        for row, text, wanted in rows():
            with self.subTest(row):
                count += 1
                if wanted == "accepted":
                    limits = FAULT.Limits(FAULT.Reader(text).document())
                    words = [name.removeprefix("limit_") for name in dir(limits) if name.startswith("limit_")]
                    greatest = {"quorum": len(limits.list("orderers")), "item": len(limits.stream), "cut": 256}
                    self.assertEqual([word for word in words if limits.first(word, greatest.get(word, 2**62))], [])
                else:
                    shown = FAULT.shown("document", text.encode(), wanted)
                    self.assertRegex(shown.splitlines()[0], f"^document:[0-9]+:[0-9]+: {re.escape(wanted)}")
        self.assertGreater(count, 400)

    def test_every_limit_is_known(self):
        page = (TOP / "docs" / "FORMAT.md").read_text()
        table = page.split("### Words and numbers of *limit*")[1].split("\n## ")[0]
        words = {word for line in table.splitlines() if line.startswith("| `") for word in line.split("|")[1].split("`")[1::2]}
        source = (TOOLS / "fault").read_text()
        self.assertGreater(len(words), 30)
        self.assertEqual([word for word in sorted(words) if f"def limit_{word}(" not in source], ["document"])

    def test_long_document(self):
        self.assertTrue(self.shown(b" " * 4194305, "limit document 4194304")[0].startswith(":1:4194305: "))

    def test_not_json(self):
        for text, column in [("", 1), ("{", 2), ('{"a":1,}', 8), ("[1 2]", 4), ("[01]", 3), ("[1e400]", 2), ('["\\x"]', 3), ('["a', 2), ("1 1", 3), ("[tru]", 2), ('["\\ud800"]', 3), ("[" * 128, 128)]:
            with self.subTest(text[:9]):
                self.assertTrue(self.shown(text, "not json")[0].startswith(f":1:{column}: not json: "))
        self.assertTrue(self.shown(b'["a",\n"\xff"]', "not json")[0].startswith(":2:2: not json: "))

    def test_position_not_found(self):
        self.assertEqual(self.shown(document(), "not json"), [": not json: its position isn't found"])

    def test_no_fault(self):
        ran = self.run_fault([EXAMPLES / "transfer.json"], "", 0)
        self.assertEqual((ran.returncode, ran.stdout), (0, f"{EXAMPLES}/transfer.json: no fault\n"))

    def test_what_cannot_be_used(self):
        example = EXAMPLES / "transfer.json"
        for path, line, status, left, said in [
            ([], "", 0, 2, "usage: tools/fault DOCUMENT"),
            ([example, example], "", 0, 2, "usage: tools/fault DOCUMENT"),
            ([self.folder / "none"], "", 0, 2, "cannot read"),
            ([self.folder], "", 0, 2, "cannot read"),
            ([example], "parblock: out of memory\n", 4, 70, "status 4 and said: parblock: out of memory"),
            ([example], "parblock: refused: name stream[9].op\n", 3, 70, "doesn't fit the document"),
            ([example], "parblock: refused: contract 0 syntax 999\n", 3, 70, "doesn't fit the document"),
            ([example], "parblock: refused: contract 7 syntax 0\n", 3, 70, "doesn't fit the document"),
            ([example], "parblock: refused: something else\n", 3, 70, "doesn't fit the document"),
        ]:
            with self.subTest(said + line):
                ran = self.run_fault(path, line, status)
                self.assertEqual(ran.returncode, left)
                self.assertIn(said, ran.stderr)
                self.assertNotIn("Traceback", ran.stderr)
        variables = {**os.environ, "PARBLOCK_PROGRAM": str(self.folder / "none")}
        ran = subprocess.run([TOOLS / "fault", example], env=variables, capture_output=True, text=True, check=False)
        self.assertEqual(ran.returncode, 70)
        self.assertIn("no program", ran.stderr)


if __name__ == "__main__":
    unittest.main()
