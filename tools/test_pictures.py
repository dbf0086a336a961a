#!/usr/bin/env python3
"""Tests of the pictures, over the stored texts of examples/ and hand-made ones, and of what bench/run refuses.

Pictures of runs need the program.
"""

import importlib.machinery
import importlib.util
import json
import os
import pathlib
import shutil
import subprocess
import sys
import tempfile
import unittest
import xml.etree.ElementTree as tree

import graph_dot
import graph_layout
import run_steps
import testing_counts
import trace_svg

TOOLS = pathlib.Path(__file__).resolve().parent
TOP = TOOLS.parent
EXAMPLES = TOP / "examples"
PICTURES = TOP / "docs" / "pictures"
SVG = "{http://www.w3.org/2000/svg}"


def loaded(name):
    """The script of this name, which has no ending, as a module."""
    loader = importlib.machinery.SourceFileLoader(name, str(TOOLS / name))
    module = importlib.util.module_from_spec(importlib.util.spec_from_loader(name, loader))
    loader.exec_module(module)
    return module


run_svg = loaded("run_svg")


def said(script, data, *words):
    """The status of a script for this input, and what it says on standard error; it prints nothing."""
    ran = subprocess.run([sys.executable, script, *words], input=data, capture_output=True, check=False)
    assert ran.stdout == b"", ran.stdout
    return ran.returncode, ran.stderr.decode()


class GraphDot(unittest.TestCase):
    def test_two_transfers(self):
        text = ["blocks 1", "block 1 11bc1fbda4", "txn 1 bank transfer after none", "txn 2 bank transfer after 1"]
        lines = graph_dot.dot(text)
        self.assertIn('    b1t2 [label="2 bank transfer"];', lines)
        self.assertEqual([line for line in lines if "->" in line], ["  b1t1 -> b1t2;"])

    def test_examples(self):
        for path in sorted(EXAMPLES.glob("*.graph.out")):
            with self.subTest(path.name):
                text = path.read_text().splitlines()
                txns = [line.split() for line in text if line.startswith("txn ")]
                edges = sum(len(words[5:]) for words in txns if words[5] != "none")
                lines = graph_dot.dot(text)
                self.assertEqual(sum("->" in line for line in lines), edges)
                self.assertEqual(sum("[label=" in line for line in lines), len(txns) + sum(line.startswith("config ") for line in text))
                self.assertEqual(sum(line.count("{") for line in lines), sum(line.count("}") for line in lines))

    def test_other_text(self):
        for text, reason in [
            (b"", "nothing to draw"),
            (b"peer p1 completed 1\n", "line 1 is none that `graph` prints there: peer p1 completed 1"),
            (b"blocks 1\nblock 1 ab\ntxn 1 bank\n", "line 3 is none"),
            (b"blocks 1\ntxn 1 bank pay after none\n", "line 2 is none"),
            (b"blocks 1\nblock 1\n", "line 2 is none"),
            (b"\xff\n", "no UTF-8"),
        ]:
            with self.subTest(text):
                status, line = said(TOP / "tools" / "graph_dot.py", text)
                self.assertEqual(status, 1)
                self.assertTrue(line.startswith("graph_dot: ") and reason in line, line)


class GraphLayout(unittest.TestCase):
    def test_layers(self):
        text = ["blocks 1", "block 1 11bc1fbda4", "txn 1 a pay after none", "txn 2 a pay after 1", "txn 3 a pay after none", "txn 4 a pay after 1 2"]
        ((number, own_hash, nodes),) = graph_layout.blocks_of(text)
        self.assertEqual((number, own_hash), ("1", "11bc1fbda4"))
        self.assertEqual(graph_layout.layers_of(nodes), [[1, 3], [2], [4]])

    def test_examples(self):
        for path in sorted(EXAMPLES.glob("*.graph.out")):
            with self.subTest(path.name):
                text = path.read_text().splitlines()
                picture = tree.fromstring("\n".join(graph_dot.drawn(text, "svg")))
                edges = sum("->" in line for line in graph_dot.dot(text))
                self.assertEqual(len([path for path in picture.iter(SVG + "path") if path.get("class") == "edge"]), edges)
                self.assertEqual(len([group for group in picture.iter(SVG + "g")]), sum(line.startswith(("txn ", "config ")) for line in text))
                self.assertEqual(len([box for box in picture.iter(SVG + "rect") if box.get("class") == "block"]), sum(line.startswith("block ") for line in text))

    def test_page(self):
        lines = graph_dot.drawn(["blocks 0"], "html")
        self.assertEqual((lines[0], lines[-1]), ("<!DOCTYPE html>", "</html>"))
        self.assertEqual(sum("<svg" in line for line in lines), 1)

    def test_a_transaction_that_is_not_before(self):
        with self.assertRaises(ValueError):
            graph_layout.blocks_of(["blocks 1", "block 1 ab", "txn 1 a pay after 2", "txn 2 a pay after none"])

    def test_stored_picture(self):
        text = (EXAMPLES / "graph_kinds_full.graph.out").read_text().splitlines()
        self.assertEqual("\n".join(graph_dot.drawn(text, "svg")) + "\n", (PICTURES / "graph.svg").read_text())


class TraceSvg(unittest.TestCase):
    def test_two_workers(self):
        text = ["idle 0", "burst p1 1 3", "span 1 1 0 2", "span 2 2 1 3", "span 3 1 4 5"]
        picture = tree.fromstring("\n".join(trace_svg.svg(trace_svg.bursts(text))))
        boxes = [(int(box.get("x")), int(box.get("y")), int(box.get("width"))) for box in picture.iter(SVG + "rect")]
        left, step, row = trace_svg.LEFT, trace_svg.STEP, trace_svg.ROW
        top = boxes[0][1]
        self.assertEqual(boxes, [(left, top, 2 * step), (left + step, top + row, 2 * step), (left + 4 * step, top, step)])

    def test_examples(self):
        for path in sorted(EXAMPLES.glob("*.trace.out")):
            with self.subTest(path.name):
                text = path.read_text().splitlines()
                picture = tree.fromstring("\n".join(trace_svg.svg(trace_svg.bursts(text))))
                self.assertEqual(len(list(picture.iter(SVG + "rect"))), sum(line.startswith("span ") for line in text))

    def test_other_text(self):
        for text, reason in [
            (b"", "nothing to draw"),
            (b"blocks 1\nidle 0\n", "nothing to draw"),
            (b"span 1 1 0 1\n", "nothing to draw"),
            (b"burst p1 1 2\nspan 1 1 0 1\n", "p1, block 1 has 1 spans and says 2"),
            (b"burst p1 1 1\nspan 1 1 0\n", "line 2 is no span"),
            (b"burst p1 1 1\nspan 1 1 1 0\n", "line 2 is no span"),
            (b"burst p1 1 1\nspan 1 1 0 7\n", "line 2 is no span"),
            (b"burst p1 1 1\nspan 1 1 0 1\nidle 0\n", "line 3 is no span"),
            (b"\xff\n", "no UTF-8"),
        ]:
            with self.subTest(text):
                status, line = said(TOP / "tools" / "trace_svg.py", text)
                self.assertEqual(status, 1)
                self.assertTrue(line.startswith("trace_svg: ") and reason in line, line)

    def test_stored_picture(self):
        text = (EXAMPLES / "relay.trace.out").read_text().splitlines()
        self.assertEqual("\n".join(trace_svg.svg(trace_svg.bursts(text))) + "\n", (PICTURES / "trace.svg").read_text())


class Blocks(unittest.TestCase):
    """What the picture of a run computes itself: hashes, graphs and the items of blocks."""

    def test_examples(self):
        for path in sorted(EXAMPLES.glob("*.graph.out")):
            with self.subTest(path.name):
                text = path.read_text().splitlines()
                document = json.loads(path.with_name(path.name.replace(".graph.out", ".json")).read_text())
                after = [[int(word) for word in line.split()[5:] if word != "none"] for line in text if line.startswith("txn ")]
                prev, graphs = run_steps.NO_HASH, []
                for number, (own_hash, items) in enumerate(run_steps.agreed_blocks(document, text), 1):
                    self.assertEqual(run_steps.block_hash(document, number, prev, items), own_hash)
                    graphs += run_steps.graph_of(document, items)
                    prev = own_hash
                self.assertEqual(graphs, after)

    def test_the_first_hash_with_enough_orderers(self):
        heard = run_steps.Newblocks(["o1", "o2", "o3"], 2)
        said = []
        for sender, own_hash in [("o1", "a"), ("o1", "b"), ("o2", "b"), ("p1", "b"), ("o3", "b")]:
            message = run_steps.Message(sender, "NEWBLOCK", [1], True)
            message.content = (1, run_steps.NO_HASH, own_hash)
            said.append(heard.hear(message))
        self.assertEqual(said, [[], [], [], [], [1]])
        self.assertEqual(heard.accepted, ["b"])


FALSE_MAJORITY = """\
event  message                                     orderer  agent     liar_1 (faulty)  liar_2 (faulty)  observer
1      2        liar_1 says COMMIT 1               |        |         !                |                |
2      3        liar_2 says COMMIT 1               |        |         |                !                |
3      1        NEWBLOCK 1 of orderer to agent     *        A1 R1 >4  |                |                |
3      1        NEWBLOCK 1 of orderer to observer  *        |         |                |                A1
3      2        COMMIT 1 of liar_1 to agent        |        .         *                |                |
3      2        COMMIT 1 of liar_1 to observer     |        |         *                |                .
3      3        COMMIT 1 of liar_2 to agent        |        H         |                *                |
3      3        COMMIT 1 of liar_2 to observer     |        :         |                *                C1
3      4        COMMIT 1 of agent to agent         |        :         |                |                |
3      4        COMMIT 1 of agent to observer      |        *         |                |                .
"""

LATE_COLUMNS = """\
event  message                                     orderer  agent  liar_1 (faulty)  liar_2 (faulty)  observer
1      2        liar_1 says COMMIT 1              |        |      !                |                |
2      3        liar_2 says COMMIT 1              |        |      |                !                |
3               all                                |        R1 H   |                |                A1 C1
"""


class RunSvg(unittest.TestCase):
    def setUp(self):
        try:
            self.program = run_steps.found_program()
        except run_steps.Refused as refused:
            self.skipTest(str(refused))

    def steps(self, name, columns=120):
        document = json.loads((EXAMPLES / name).read_text())
        play = run_steps.Play(self.program, document, columns)
        return document, play, play.run()

    def picture(self, name, columns=120):
        document, _, steps = self.steps(name, columns)
        return "\n".join(run_svg.text(document, steps)).split("\n\n")[0] + "\n"

    def test_text(self):
        self.assertEqual(self.picture("false_majority.json"), FALSE_MAJORITY)
        self.assertIn(FALSE_MAJORITY, (TOOLS / "README.md").read_text())

    def test_an_all_in_one_column(self):
        lines = self.picture("false_majority.json", 9).splitlines()
        self.assertEqual([line.split() for line in lines], [line.split() for line in LATE_COLUMNS.splitlines()])

    def test_idle_deliveries(self):
        document = dict(json.loads((EXAMPLES / "false_majority.json").read_text()))
        document["schedule"] = [{"do": "deliver", "msg": 9, "to": "agent"}, {"do": "deliver", "msg": 1, "to": "liar_1"}]
        steps = run_steps.Play(self.program, document).run()
        self.assertEqual([step.text for step in steps], ["message 9: there is no such message", "message 1 to liar_1: is faulty"])
        self.assertEqual([run_svg.cell(step, step.receiver, False) for step in steps], ["x", "x"])

    def test_what_is_completed_was_accepted(self):
        by_delivery = ["change_of_agents", "lying_orderer", "relay", "too_many_false_orderers"]
        for path in sorted(EXAMPLES.glob("*.run.out")):
            with self.subTest(path.name):
                name = path.name.replace(".run.out", "")
                _, play, steps = self.steps(name + ".json", 120 if name in by_delivery else 0)
                stored = path.read_text().splitlines()
                wanted = {line.split()[1]: int(line.split()[3]) for line in stored if line.startswith("peer ")}
                marks = [(node, mark[0]) for step in steps for node, found in step.marks.items() for mark in found]
                self.assertEqual({peer: marks.count((peer, "completed")) for peer in wanted}, wanted)
                self.assertEqual(sum(kind == "halted" for _, kind in marks), sum(line.startswith("halted ") for line in stored))
                for name, peer in play.now.peers.items():
                    if not peer.halted:
                        self.assertEqual(play.heard[name].accepted[: peer.completed], peer.hashes)
                self.assertEqual(len(play.messages), play.now.messages)

    def test_svg(self):
        document, _, steps = self.steps("false_majority.json")
        lines = "\n".join(run_svg.svg(document, steps)) + "\n"
        tree.fromstring(lines)
        self.assertEqual(lines, (PICTURES / "run.svg").read_text())

    def test_more_events_than_columns(self):
        words = [str(TOOLS / "run_svg"), "--columns", "2", str(EXAMPLES / "false_majority.json")]
        done = subprocess.run(words, stdout=subprocess.PIPE, stderr=subprocess.PIPE, check=False)
        self.assertEqual((done.returncode, done.stdout), (2, b""))
        self.assertEqual(done.stderr, b"run_svg: the schedule has 3 events; --columns 3 draws them all\n")

    def test_refused(self):
        done = subprocess.run([str(TOOLS / "run_svg"), str(EXAMPLES / "missing_peers.json")], stdout=subprocess.PIPE, stderr=subprocess.PIPE, check=False)
        self.assertEqual((done.returncode, done.stdout, done.stderr), (3, b"", b"parblock: refused: field peers\n"))


class NoProgram(unittest.TestCase):
    def test_the_command_that_builds_it(self):
        environment = dict(os.environ, PARBLOCK_PROGRAM="/nowhere/parblock")
        done = subprocess.run([sys.executable, str(TOOLS / "run_svg"), str(EXAMPLES / "transfer.json")], stderr=subprocess.PIPE, env=environment, check=False)
        self.assertEqual(done.returncode, 70)
        self.assertIn(b"builds it", done.stderr)


class Counts(unittest.TestCase):
    """The script that counts for docs/TESTING.md."""

    def test_between_the_markers(self):
        page = f"a\n{testing_counts.BEGIN}\nold\n{testing_counts.END}\nb\n"
        self.assertEqual(testing_counts.put_in(page, "new"), f"a\n{testing_counts.BEGIN}\nnew\n{testing_counts.END}\nb\n")

    def test_no_markers(self):
        with self.assertRaises(ValueError):
            testing_counts.put_in("a\n", "new")

    def test_an_old_count(self):
        with tempfile.TemporaryDirectory() as folder:
            page = pathlib.Path(folder) / "page.md"
            page.write_text(f"{testing_counts.BEGIN}\n| Crates | 1 | `crates.txt` |\n{testing_counts.END}\n")
            script = [sys.executable, str(TOOLS / "testing_counts.py")]
            done = subprocess.run(script + ["--check", str(page)], stdout=subprocess.PIPE, stderr=subprocess.PIPE, check=False)
            self.assertEqual(done.returncode, 1)
            self.assertIn(b"lacks: | Crates | ", done.stderr)
            subprocess.run(script + ["--write", str(page)], check=True)
            self.assertEqual(subprocess.run(script + ["--check", str(page)], stdout=subprocess.PIPE, check=False).returncode, 0)

    def test_lines_of_each_kind(self):
        counts = {what: count for what, count, _ in testing_counts.counted()}
        crates = TOP / "crates"
        code = sum(path.read_text().count("\n") for name in testing_counts.listed() for path in (crates / name).glob("src/**/*.rt"))
        self.assertEqual(counts["Lines of the program's code"] + counts["Lines of code that serves tests"], code)
        for table, words in (("par_texts", "Documents with their whole text or refusal"), ("par_faults", "Documents with their first fault, or none")):
            self.assertEqual(int((crates / table / "stdout").read_text().split()[-1]), counts[words])


class Pages(unittest.TestCase):
    def test_no_page(self):
        for script, words, reason in [
            ("cited.py", [], "usage: "),
            ("cited.py", ["/none"], "cited: cannot read /none: "),
            ("cited.py", [EXAMPLES / "README.md"], "names no definition"),
            ("reach.py", ["/none"], "trust: cannot read /none: "),
            ("style.py", ["/none"], "style: cannot read /none: "),
        ]:
            with self.subTest(script + reason):
                status, line = said(TOP / "tools" / script, b"", *words)
                self.assertEqual(status, 1)
                self.assertIn(reason, line)
                self.assertNotIn("Traceback", line)


class Bench(unittest.TestCase):
    """bench/run in a checkout of one source, with a program that stands in."""

    def setUp(self):
        folder = tempfile.TemporaryDirectory(prefix="bench test ")
        self.addCleanup(folder.cleanup)
        self.top = pathlib.Path(folder.name)
        for name in ["bench", ".ci", "crates", "out"]:
            (self.top / name).mkdir()
        for name in ["bench/run", "bench/documents.py", ".ci/stamp"]:
            shutil.copy(TOP / name, self.top / name)
        (self.top / "crates.txt").write_text("par_cli:\n")
        (self.top / "HANDLES").write_text("none\n")
        (self.top / "out/parblock").write_text("#!/bin/sh\ncat > /dev/null\n")
        (self.top / "out/parblock").chmod(0o755)

    def bench(self, *names):
        return said(self.top / "bench" / "run", b"", *names)

    def test_unknown_family(self):
        status, line = self.bench("limit", "many rivers")
        self.assertEqual(status, 2)
        self.assertIn("no family is named 'many rivers'; these are: few records, many records", line)

    def test_program_of_other_sources(self):
        self.assertEqual(self.bench("limit")[0], 70)
        (self.top / "out/parblock.sum").write_text("another sum\n")
        self.assertEqual(self.bench("limit"), (70, "bench: out/parblock isn't built from these sources; ./parblock builds it\n"))

    def test_program_of_these_sources(self):
        stamp = subprocess.run([self.top / ".ci/stamp"], capture_output=True, check=True).stdout
        (self.top / "out/parblock.sum").write_bytes(stamp.splitlines(keepends=True)[0])
        ran = subprocess.run([self.top / "bench/run", "limit"], capture_output=True, text=True, check=False)
        self.assertEqual((ran.returncode, ran.stderr), (0, ""))
        self.assertIn("| at every limit, no faulty node |", ran.stdout)


if __name__ == "__main__":
    unittest.main()
