#!/usr/bin/env python3
"""Tests of the explorer and of the shrinker, over documents of examples/ with fixed seeds and the built program.

The program is that of PARBLOCK_PROGRAM, or else the launcher's.
"""

import os
import pathlib
import signal
import subprocess
import sys
import tempfile
import time
import unittest

import exploration
import shrinking
from documents import agreed_blocks, bounds_of, dump, parse, rejects
from program import find_program, parse_run
from schedules import Plan

TOOLS = pathlib.Path(__file__).resolve().parent
EXAMPLES = TOOLS.parent / "examples"
PROGRAM = find_program(None)


def tool(name, *words, program=PROGRAM.path, stdin=b""):
    """What a tool did with these words."""
    command = [sys.executable, str(TOOLS / name), *words, "--program", str(program)]
    return subprocess.run(command, input=stdin, stdout=subprocess.PIPE, stderr=subprocess.PIPE)


def example(name):
    return parse((EXAMPLES / (name + ".json")).read_text())


def lines(done):
    return done.stdout.decode().splitlines()


class Documents(unittest.TestCase):
    def test_blocks_are_those_of_graph(self):
        for path in sorted(EXAMPLES.glob("*.graph.out")):
            with self.subTest(path.name):
                document = parse(path.with_name(path.name[: -len(".graph.out")] + ".json").read_text())
                blocks = agreed_blocks(document)
                text = path.read_text().splitlines()
                self.assertIn(f"blocks {len(blocks)}", text)
                self.assertEqual([line for line in text if line.startswith("rejected ")], rejects(document))
                sizes = [1 if block.config else len(block.items) for block in blocks]
                self.assertEqual(sum(line.startswith(("txn ", "config ")) for line in text), sum(sizes))

    def test_texts_of_examples_are_read(self):
        for path in sorted(EXAMPLES.glob("*.run.out")):
            with self.subTest(path.name):
                self.assertEqual(parse_run(path.read_text()).text(), path.read_text())

    def test_bounds_of_examples(self):
        wanted = {
            "whole": (True, True, True),
            "many_silent": (False, True, True),
            "false_majority": (False, False, False),
            "too_few_orderers": (True, True, False),
            "too_few_agents": (True, True, False),
            "too_few_agents_in_force": (True, True, False),
            "too_many_false_orderers": (False, False, True),
        }
        for name, bounds in wanted.items():
            with self.subTest(name):
                document = example(name)
                found = bounds_of(document, agreed_blocks(document))
                self.assertEqual((found.tame, found.calm, found.staffed), bounds)


class Explore(unittest.TestCase):
    def setUp(self):
        folder = tempfile.TemporaryDirectory()
        self.addCleanup(folder.cleanup)
        self.folder = pathlib.Path(folder.name)

    def test_a_halt_past_the_bounds(self):
        done = tool("explore", str(EXAMPLES / "false_majority.json"), "--seeds", "8..12", "--keep", str(self.folder))
        self.assertEqual(done.returncode, 0, done.stderr)
        self.assertIn("halted runs 1, within the bounds 0, the first of seed 10", lines(done))
        kept = (self.folder / "false_majority.10.halted.json").read_bytes()
        self.assertIn("\nhalted 1 1 ", PROGRAM.run(kept, "run").text)

    def test_no_halt_within_the_bounds(self):
        done = tool("explore", str(EXAMPLES / "false_majority.json"), "--seeds", "1..25", "--liars", "liar_1", "--all")
        self.assertEqual(done.returncode, 0, done.stderr)
        for line in ("runs 25", "tame 25", "every block promised 25", "halted runs 0, within the bounds 0", "broken promises 0"):
            self.assertIn(line, lines(done))
        self.assertIn("peer observer completed 1 to 1 of 1, ledgers 1, halts 0", lines(done))

    def test_one_seed_draws_one_document(self):
        plan = Plan(liars=("o4", "p3"))
        study = exploration.study(PROGRAM, (EXAMPLES / "whole.json").read_text(), plan)
        self.assertEqual(study.draw(7), study.draw(7))
        self.assertNotEqual(study.draw(7), study.draw(8))
        drawn = [study.draw(seed) for seed in range(1, 200)]
        said = [event for document in drawn for event in document["schedule"]]
        self.assertEqual({event["do"] for event in said}, {"deliver", "all", "block", "commit"})
        self.assertTrue(any("preds" in event for event in said) and any("prev" in event for event in said))

    def test_a_broken_twin_is_caught(self):
        study = exploration.study(PROGRAM, (EXAMPLES / "whole.json").read_text(), Plan(liars=("o4", "p3"), always_all=True))
        (self.folder / "seed.json").write_text(dump(study.draw(3)))
        for words in ("*", "*workers*16*"):
            with self.subTest(words):
                twin = self.twin(words)
                plain = [str(EXAMPLES / "whole.json"), "--all", "--keep", str(self.folder), "--seeds"]
                self.assertEqual(tool("explore", *plain, "1..2", program=twin).returncode, 0)
                done = tool("explore", *plain, "1..9", "--jobs", "1", program=twin)
                self.assertEqual(done.returncode, 1, done.stdout)
                self.assertIn("runs 3", lines(done))
                self.assertIn("broken promises 1", lines(done))
                kept = self.folder / "whole.3.broken.json"
                self.assertEqual(kept.read_text(), (self.folder / "seed.json").read_text())

    def twin(self, words):
        """A program that swaps two lines of one document, where it gets such words."""
        path = self.folder / "twin"
        swap = "sed '/^txn 1 bank pay commit a=9/{h;d};/^block 2/{G}'"
        path.write_text(
            f"#!/bin/sh\ncat > '{self.folder}/in.'$$\ncase \"$*\" in {words}) cmp -s '{self.folder}/in.'$$ '{self.folder}/seed.json'"
            f" && {{ '{PROGRAM.path}' \"$@\" < '{self.folder}/in.'$$ | {swap}; exit 0; }} ;; esac\n"
            f"'{PROGRAM.path}' \"$@\" < '{self.folder}/in.'$$\n"
        )
        path.chmod(0o755)
        return path

    def test_bad_input(self):
        refused = tool("explore", str(EXAMPLES / "unknown_record.json"))
        self.assertEqual((refused.returncode, refused.stdout), (3, b""))
        self.assertEqual(refused.stderr, (EXAMPLES / "unknown_record.run.err").read_bytes())
        missing = tool("explore", str(EXAMPLES / "whole.json"), program=self.folder / "none")
        self.assertEqual(missing.returncode, 70)
        self.assertIn(b"'./parblock none'", missing.stderr)
        self.assertEqual(tool("explore", str(EXAMPLES / "whole.json"), "--liars", "nobody").returncode, 2)
        self.assertEqual(tool("explore", str(EXAMPLES / "whole.json"), "--seeds", "x").returncode, 2)
        self.assertEqual(tool("explore", str(self.folder / "none.json")).returncode, 2)

    def test_a_stop_sums_up(self):
        counting, count = self.folder / "counting", self.folder / "count"
        counting.write_text(f"#!/bin/sh\necho >> '{count}'\nexec '{PROGRAM.path}' \"$@\"\n")
        counting.chmod(0o755)
        count.touch()
        command = [sys.executable, str(TOOLS / "explore"), str(EXAMPLES / "whole.json"), "--seeds", "1..100000", "--jobs", "1"]
        child = subprocess.Popen(
            [*command, "--program", str(counting)], stdout=subprocess.PIPE, stderr=subprocess.PIPE, preexec_fn=interruptible
        )
        while child.poll() is None and count.stat().st_size < 12:
            time.sleep(0.1)
        child.send_signal(signal.SIGINT)
        out, said = child.communicate(timeout=60)
        self.assertEqual(child.returncode, 130, said)
        self.assertRegex(out.decode(), r"\Aruns [1-9][0-9]*\n")
        self.assertIn(b"stopped", said)


def interruptible():
    """Ctrl-C ends this child also where the tests run in the background."""
    signal.signal(signal.SIGINT, signal.default_int_handler)


class Shrink(unittest.TestCase):
    def test_a_halt_stays(self):
        text = (EXAMPLES / "false_majority.json").read_bytes()
        done = tool("shrink", "-", "halted", stdin=text)
        self.assertEqual(done.returncode, 0, done.stderr)
        self.assertIn("\nhalted 1 1 ", PROGRAM.run(done.stdout, "run").text)
        small = parse(done.stdout.decode())
        self.assertLess(len(done.stdout), len(dump(parse(text.decode()))))
        self.assertEqual((small["peers"], small["records"][0]), (["agent", "liar_1", "liar_2"], ["alice", 0]))

    def test_nothing_more_can_go(self):
        def holds(document):
            ops = [item["op"] for item in document["stream"] if item != "cut"]
            return ops.count("pay") >= 1 and any(event.get("msg", 0) >= 3 for event in document["schedule"])

        shrinker = shrinking.Shrinker(example("whole"), holds, lambda size, tried: None)
        shrinker.run()
        small = shrinker.document
        self.assertTrue(holds(small))
        self.assertEqual((len(small["stream"]), small["faulty"], small["peers"]), (1, [], ["p1"]))
        self.assertEqual([event["msg"] for event in small["schedule"]], [3])
        again = shrinking.Shrinker(small, holds, lambda size, tried: None)
        again.run()
        self.assertEqual(again.document, small)

    def test_a_command(self):
        command = f"'{PROGRAM.path}' graph | grep -q 'after 1'"
        done = tool("shrink", str(EXAMPLES / "graph_pair.json"), command)
        self.assertEqual(done.returncode, 0, done.stderr)
        small = parse(done.stdout.decode())
        self.assertEqual((len(small["stream"]), small["schedule"], small["faulty"]), (2, [], []))
        self.assertIn(" after 1\n", PROGRAM.run(done.stdout, "graph").text)

    def test_what_refers_to_an_item_goes_along(self):
        document = example("whole")
        less = list(shrinking.without(document, ("stream",), 0, 1))
        self.assertEqual(less[0]["schedule"][0], {"do": "block", "from": "o4", "number": 1, "txns": [1]})
        self.assertEqual([event.get("msg") for event in less[1]["schedule"]], [None, 4, None, None])
        self.assertEqual(list(shrinking.without(document, ("peers",), 2, 3))[0]["apps"][0]["agents"], ["p1", "p2"])

    def test_bad_input(self):
        done = tool("shrink", str(EXAMPLES / "whole.json"), "halted")
        self.assertEqual((done.returncode, done.stdout), (1, b""))
        self.assertIn(b"the condition doesn't hold", done.stderr)
        refused = tool("shrink", str(EXAMPLES / "unknown_record.json"), "halted")
        self.assertEqual((refused.returncode, refused.stderr), (3, (EXAMPLES / "unknown_record.run.err").read_bytes()))


if __name__ == "__main__":
    unittest.main()
