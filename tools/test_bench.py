#!/usr/bin/env python3
"""Tests of `bench`: python3 tools/test_bench.py"""

import hashlib
import importlib.machinery
import importlib.util
import os
import re
import subprocess
import sys
import unittest

sys.dont_write_bytecode = True
TOOL = os.path.join(os.path.dirname(os.path.realpath(__file__)), "bench")
LOADER = importlib.machinery.SourceFileLoader("bench", TOOL)
bench = importlib.util.module_from_spec(importlib.util.spec_from_loader("bench", LOADER))
LOADER.exec_module(bench)

SMALL = {"layers": "n=60 v=4", "layerscap": "n=60 v=4", "hidden": "n=60 v=4", "soft": "n=60 v=4", "conda": "n=40 v=12", "big": "v=30", "bigneed": "v=30 m=9", "bigfail": "v=31",
         "sat3": "n=20", "col3": "n=20", "csp": "n=20", "pigeon": "n=5"}
# The figures of docs/SPEED.md are of these very bytes.
DIGESTS = {
    "layers": "bedd161c5f15863e", "layerscap": "994424f1ede84bdd", "hidden": "dff62dc3c75be6ae", "soft": "3296bcb1a9c11b87",
    "conda": "c3b6047b7c7bea07", "chain": "2a5d999ce0f8602b", "chainmiss": "c3df6e8707e090fd", "chainunsat": "d251edd0d05b24ec",
    "cond": "f4b3573f56ce61b9", "big": "9a049201077109e6", "bigneed": "6c5945b9e702ee02", "bigfail": "b75e087b5a157a2b",
    "sat3": "32e06fff6a254d86", "col3": "c88fc4dc4dbaeeed", "csp": "5a2f7850325faf25", "pigeon": "4c96d301c67ffc23",
}
NAME = r"[A-Za-z0-9_.-]+"
SOLV = rf"{NAME}=[1-9]\d*"
SPEC = rf"{NAME}(?:@\d+(?:\.\.\d+)?)?"
UNION = rf"{SPEC}(?: \| {SPEC})*"
STATEMENT = re.compile(rf"package (?P<made>{SOLV})|(?:requires|constrains) (?P<used>{SOLV}) {UNION}(?: if {SPEC})?|require {UNION}|soft (?P<wanted>{SOLV})")


def lines_of(name, seed=1):
    return list(bench.lines_for(name, SMALL.get(name, "n=30").split() + [f"seed={seed}"]))


def counts_of(lines):
    """How many lines there are with each first word."""
    words = [line.split()[0] for line in lines]
    return {word: words.count(word) for word in set(words)}


class Families(unittest.TestCase):
    def test_bytes_are_those_of_the_figures(self):
        for name, wanted in DIGESTS.items():
            with self.subTest(name):
                found = hashlib.sha256("\n".join(lines_of(name)).encode()).hexdigest()[:16]
                self.assertEqual(found, wanted)
        self.assertEqual(set(DIGESTS), set(bench.FAMILIES))

    def test_lines_are_statements_about_declared_versions(self):
        for name in bench.FAMILIES:
            with self.subTest(name):
                made = set()
                for line in lines_of(name):
                    found = STATEMENT.fullmatch(line)
                    self.assertIsNotNone(found, line)
                    if found["made"]:
                        self.assertNotIn(found["made"], made, line)
                        made.add(found["made"])
                    used = found["used"] or found["wanted"]
                    self.assertTrue(used is None or used in made, line)

    def test_a_seed_decides(self):
        for name in ("layers", "layerscap", "hidden", "soft", "conda", "sat3", "col3", "csp"):
            with self.subTest(name):
                self.assertEqual(lines_of(name, seed=7), lines_of(name, seed=7))
                self.assertNotEqual(lines_of(name, seed=7), lines_of(name, seed=8))

    def test_counts(self):
        self.assertEqual(counts_of(lines_of("pigeon")), {"package": 40, "requires": 20, "require": 5})
        self.assertEqual(counts_of(lines_of("bigfail")), {"package": 31, "requires": 16, "require": 1})
        self.assertEqual(counts_of(lines_of("soft"))["soft"], 60)
        self.assertEqual(counts_of(lines_of("sat3")), {"package": 40, "require": 20 + 85})

    def test_ranges_of_conda_move_with_the_releases(self):
        ends = {}
        for line in lines_of("conda"):
            found = re.fullmatch(r"requires (p\d+)=(\d+) (p\d+)@(\d+)\.\.(\d+)", line)
            if found:
                self.assertLess(int(found[4]), int(found[5]))
                ends.setdefault((found[1], found[3]), []).append(int(found[5]))
        long = [it for it in ends.values() if len(it) >= 6]
        self.assertGreater(len(long), 20)
        self.assertGreater(sum(it[-1] > it[0] for it in long), len(long) * 3 // 4)


class CommandLine(unittest.TestCase):
    def run_tool(self, *words):
        return subprocess.run([sys.executable, TOOL, *words], stdout=subprocess.PIPE, stderr=subprocess.PIPE, universal_newlines=True)

    def test_writes_the_lines(self):
        ended = self.run_tool("big", "v=2")
        self.assertEqual((ended.returncode, ended.stdout), (0, "package z=1\npackage z=2\nrequire z\n"))

    def test_help_names_each_family(self):
        ended = self.run_tool("--help")
        self.assertEqual(ended.returncode, 0)
        for name, function in bench.FAMILIES.items():
            self.assertIn(f"\n  {name} ", ended.stdout)
            self.assertIn(function.__doc__.split("\n")[0], ended.stdout)

    def test_wrong_words_end_with_status_2(self):
        for words in ((), ("nothing",), ("big", "w=1"), ("big", "v=x"), ("big", "v")):
            with self.subTest(words):
                ended = self.run_tool(*words)
                self.assertEqual((ended.returncode, ended.stdout), (2, ""))


if __name__ == "__main__":
    unittest.main()
