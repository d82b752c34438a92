"""Tests of from-conda."""

import bz2
import gzip
import itertools
import json
import lzma
import os
import random
import subprocess
import unittest

import testing
from testing import run, sample

TOOL = testing.load("from-conda")
REPODATA = sample("repodata.json")
PROGRAM = os.environ.get("RESOLVE")
# The list of conda's documentation. Versions on one line are equal.
RISING = """\
0.4 0.4.0
0.4.1.rc 0.4.1.RC
0.4.1
0.5a1
0.5b3
0.5C1
0.5
0.9.6
0.960923
1.0
1.1dev1
1.1_
1.1a1
1.1.0dev1 1.1.dev1
1.1.a1
1.1.0rc1
1.1.0 1.1
1.1.0post1 1.1.post1
1.1post1
1996.07.12
1!0.4.1
1!3.1.1.6
2!0.4.1
"""
SMALL_INDEX = """\
# conda: 9 builds of 5 packages.
#= a=1 1.0 0
#= a@1..2 =1
#= b=3 1.5 0
#= b@1..5 >=1,<2.0a0
#= c=1 1.0 0x
#= c=3 1.1 0x
#= c=5 1.2 0y
#= c@1..4 1.* *x
#= d=1 1 0
#= d@3..4294967296 >=2
#= e=1 1 0
#= e=3 2 0
#= e=5 3 0
#= e@1..2 !=2
#= e@5..6 !=2
package a=1
requires a=1 b@1..5
requires a=1 c@1..4
constrains a=1 d@3..4294967296
requires a=1 e@1..2 | e@5..6 if e@3..4
package b=3
package c=1
package c=3
package c=5
package d=1
package e=1
package e=3
package e=5
require a@1..2
require d
require e
"""


def record(name, version, build="0", number=0, **fields):
    return dict(fields, name=name, version=version, build=build, build_number=number)


def index(*records):
    return json.dumps({"packages": {f"{place}.conda": value for place, value in enumerate(records)}}, indent=1)


def written(records, *arguments):
    return testing.written(TOOL, index(*records), *arguments)


class Versions(unittest.TestCase):
    def test_the_published_list(self):
        ranked = [(rank, text) for rank, line in enumerate(RISING.splitlines()) for text in line.split()]
        for (rank, first), (other_rank, second) in itertools.product(ranked, repeat=2):
            first, second = TOOL.version_of(first), TOOL.version_of(second)
            self.assertEqual((first < second, first == second), (rank < other_rank, rank == other_rank), (first.text, second.text))

    def test_local_versions_and_dashes(self):
        rising = [TOOL.version_of(text) for text in ("1.0+a", "1.0", "1.0+1", "1.0+1.1", "1.0.1")]
        self.assertEqual(sorted(reversed(rising)), rising)
        self.assertEqual(TOOL.version_of("1-a"), TOOL.version_of("1_a"))

    def test_bad_versions(self):
        for text in ("", "1..2", "1!2!3", "a!1", "1+", "+1", "1 2", "1/2"):
            self.assertRaises(TOOL.BadText, TOOL.Version, text)


class Specs(unittest.TestCase):
    def check(self, spec, yes, no):
        spec = TOOL.MatchSpec(spec)
        for texts, expected in ((yes, True), (no, False)):
            for text in texts.split():
                version, _, build = text.partition("/")
                value = TOOL.Record(None, "", record("a", version, build, int(build.rpartition("_")[2] or 0)), False)
                self.assertEqual(spec.accepts(value), expected, (spec.text, text))

    def test_versions(self):
        self.check("a", "1 2.0 3rc1", "")
        self.check("a *", "1 2.0", "")
        self.check("a 1.2", "1.2 1.2.0", "1.2.1 1.1")
        self.check("a ==1.2", "1.2 1.2.0", "1.2.1")
        self.check("a=1.2", "1.2 1.2.0 1.2.7 1.2rc1", "1.20 1.1 1.3")
        self.check("a =1.2", "1.2.7", "1.20")
        self.check("a 1.2.*", "1.2 1.2.7", "1.20 1.3")
        self.check("a 1.2*", "1.2 1.2.7 1.2a", "1.20 1.3")
        self.check("a 1.*.3", "1.2.3 1.0.1.3", "1.2.4 2.1.3")
        self.check("a >=1.2,<2.0a0", "1.2 1.99", "2.0a0 2.0 1.1")
        self.check("a >=1.2, <2", "1.2 2.0rc1", "2.0")
        self.check("a >1.2|<1", "1.3 0.9", "1.2 1.0")
        self.check("a (>1.2|<1),!=3", "1.3 0.9", "3 1.1")
        self.check("a <1|>1,<2|3", "0 1.5 3", "1 2")
        self.check("a !=1.2", "1.2.1", "1.2")
        self.check("a !=1.2.*", "1.3", "1.2 1.2.1")
        self.check("a ~=1.2.1", "1.2.1 1.2.9", "1.2.0 1.3")
        self.check("a >=1.2.*", "1.2 1.3", "1.1")
        self.check("a ^1\\.[0-9]$", "1.2", "1.22")
        self.check("conda-forge::a >2", "3", "2")

    def test_builds(self):
        self.check("a 1.2 py_1", "1.2/py_1", "1.2/py_2 1.3/py_1")
        self.check("a=1.2=py_1", "1.2/py_1", "1.2.1/py_1")
        self.check("a =1.2 py_1", "1.2/py_1", "1.2.1/py_1")
        self.check("a * py*_1", "1/py_1 2/py39_1", "1/py_2")
        self.check("a * ^py[0-9]+_1$", "1/py39_1", "1/py_1 1/xpy39_1")
        self.check("a[build_number='>=2']", "1/x_2", "1/x_1")
        self.check('a[version=">=2,<3", build=x_1]', "2.5/x_1", "2.5/x_2 3/x_1")

    def test_bad_specs(self):
        for text in ("", "a >", "a >>1", "a 1 2 3", "a (1", "a 1)", "a 1,,2", "a[md5=1]", "a[version=1", "a ^($", "a ~=1", "a 1..2", "a ()", "a ^\ud800$", "a ^\\x1b\x1b$", "<1"):
            self.assertRaises(TOOL.BadText, TOOL.MatchSpec, text)

    def test_deep_parentheses(self):
        self.check("a " + "(" * 5000 + "1" + ")" * 5000, "1", "2")
        self.assertRaises(TOOL.BadText, TOOL.MatchSpec, "a " + "(" * 5000)


class Meaning(unittest.TestCase):
    """The statements of small random indexes allow what the match specs allow."""

    SPECS = ["", "1", ">=1.1", "<2", ">1,<2", "=1", "1.*", "!=1.1", ">=1.1,!=2", "1|2", "1.1 0", "* *x", "<1.0", ">=3", "* 1x"]

    def world(self, chance):
        found = []
        for name in "abcd":
            for version in chance.sample(["1", "1.1", "1.1post1", "2", "2.1"], chance.randint(1, 3)):
                for build in chance.sample(["0", "1x"], chance.randint(1, 2)):
                    specs = [[f"{chance.choice('abcde')} {chance.choice(self.SPECS)}".strip() for _ in range(count)] for count in (chance.randint(0, 1), chance.randint(0, 2))]
                    found.append(record(name, version, build, depends=specs[0], constrains=specs[1], track_features=chance.choice(["", "", "f"])))
        return found

    @staticmethod
    def accepts(spec, value):
        return TOOL.MatchSpec(spec).accepts(TOOL.Record(None, "", value, False))

    def is_lawful(self, chosen):
        for value in chosen.values():
            for spec in value["depends"]:
                other = chosen.get(spec.split()[0])
                if other is None or not self.accepts(spec, other):
                    return False
            for spec in value["constrains"]:
                other = chosen.get(spec.split()[0])
                if other is not None and not self.accepts(spec, other):
                    return False
        return "a" in chosen

    def test_random_indexes(self):
        chance, seen = random.Random(3), {True: 0, False: 0}
        for _ in range(40):
            world = self.world(chance)
            problem = written(world, "--all", "--install", "a")
            real = testing.real_names(problem)
            by_version = {(value["name"], f"{value['version']} {value['build']}"): value for value in world}
            for chosen, is_kept in itertools.islice(testing.choices(problem), 400):
                meant = {name: by_version[name, real[f"{name}={rank}"]] for name, rank in chosen.items()}
                self.assertEqual(is_kept, self.is_lawful(meant), (world, meant))
                seen[is_kept] += 1
        self.assertGreater(min(seen.values()), 100)


class Statements(unittest.TestCase):
    def test_a_small_index(self):
        records = [
            record("a", "1.0", depends=["b >=1,<2.0a0", "c 1.* *x"], constrains=["d >=2", "e !=2"]),
            record("b", "1.5"),
            record("c", "1.1", "0x", 1),
            record("c", "1.0", "0x"),
            record("c", "1.2", "0y"),
            record("d", "1"),
            record("e", "1"),
            record("e", "2"),
            record("e", "3"),
        ]
        self.assertEqual(written(records, "--install", "a=1", "d", "e"), SMALL_INDEX)

    def order(self, records):
        """The builds of a package, the one that is tried last first."""
        problem = written(records, "--install", "a")
        real = testing.real_names(problem)
        return [real[f"a={rank}"] for rank in testing.candidates(problem)["a"]]

    def test_the_order_of_builds(self):
        records = [record("a", "2", "x", 0), record("a", "10", "py310", 1), record("a", "10", "py39", 1), record("a", "10", "z", 0)]
        self.assertEqual(self.order(records), ["2 x", "10 z", "10 py39", "10 py310"])

    def test_tracked_features_are_last(self):
        records = [record("a", "1"), record("a", "3", "mkl", 5, track_features="mkl"), record("a", "2"), record("a", "2", "mkl", 1, track_features=["mkl"])]
        self.assertEqual(self.order(records), ["2 mkl", "3 mkl", "1 0", "2 0"])
        self.assertIn("require a@8..4294967296 | a@2..7\n", written(records, "--install", "a>1"))

    def test_names(self):
        problem = written([record("if", "1"), record("_x.y-Z", "1", depends=["or"]), record("or", "2")], "--install", "if", "_x.y-z")
        self.assertIn("require X69f\nrequire _x.y-z\n", problem)
        self.assertIn("requires _x.y-z=1 X6fr\n", problem)

    def test_empty_ranges_keep_their_text(self):
        problem = written([record("a", "1", depends=["b =7", "b 8.*"]), record("b", "1")], "--install", "a")
        self.assertIn("#= b@4294967294..4294967294 8.*\n#= b@4294967295..4294967295 =7\n", problem)

    def test_a_spec_that_cannot_be_read(self):
        problem = written([record("a", "1", depends=["b >>1"]), record("a", "2", depends="b")], "--install", "a")
        self.assertIn("unknown a=1 '>>1' is no version\n", problem)
        self.assertIn("unknown a=3 depends is no list of texts\n", problem)
        self.assertIn("# Not to be chosen: 2 builds with a match spec that cannot be read.\n", problem)

    def test_reach(self):
        records = [record("a", "1", constrains=["b <1"]), record("b", "1", depends=["c"]), record("c", "1")]
        problem = written(records, "--install", "a")
        self.assertEqual(list(testing.candidates(problem)), ["a"])
        self.assertIn("# Left out: 2 packages that the request cannot reach.\n# Left out: 1 constraints on packages", problem)

    def test_a_record_in_both_parts(self):
        value = {"packages": {"a": record("a", "1", depends=["b"])}, "packages.conda": {"a": record("a", "1")}}
        self.assertEqual(testing.statements(testing.written(TOOL, json.dumps(value), "--install", "a")), ["package a=1", "require a"])

    def test_packed_files(self):
        with open(REPODATA, "rb") as file:
            plain = file.read()
        expected = run("from-conda", REPODATA, "--install", "pandas")[1]
        self.assertIn(b"\nrequire pandas\n", expected)
        for pack in (gzip.compress, lzma.compress, bz2.compress):
            self.assertEqual(run("from-conda", "--install", "pandas", given=pack(plain))[:2], (0, expected))


class Options(unittest.TestCase):
    def lines(self, *arguments):
        with open(REPODATA, encoding="utf-8") as file:
            records = json.load(file)["packages.conda"]
        installed = json.dumps(dict(records["numpy-1.24.4-py39h1_0.conda"], installed_by="a test"))
        status, output, errors = run("from-conda", REPODATA, "-", *arguments, given=installed.encode())
        self.assertEqual((status, errors), (0, b""))
        real = testing.real_names(output.decode())
        return [" ".join(f"{word}({real[word]})" if "=" in word else word for word in line.split()) for line in testing.statements(output.decode())]

    def test_keep_upgrade_hold_remove(self):
        kept = self.lines("--keep")
        self.assertIn("favor numpy=6(1.24.4 py39h1_0)", kept)
        self.assertRegex(kept[-1], "^require numpy@[0-9.]+$")
        upgraded = self.lines("--upgrade")
        self.assertEqual(upgraded[-1], kept[-1])
        self.assertFalse([line for line in upgraded if line.startswith("favor ")])
        self.assertIn("lock numpy=6(1.24.4 py39h1_0)", self.lines("--upgrade", "--hold", "numpy"))
        removed = self.lines("--keep", "--install", "pandas", "--remove", "numpy")
        self.assertEqual(removed[-1], "require pandas")
        self.assertIn("exclude numpy=8(1.24.4 py39h1_0) it is to be removed", removed)

    def test_virtual(self):
        problem = testing.written(TOOL, index(record("a", "1", depends=["__glibc >=2.17"])), "--install", "a", "--virtual", "__glibc=2.36")
        self.assertIn("package __glibc=3\n", problem)

    def test_bad_requests(self):
        for arguments in (["--keep"], ["--install", "a >"], ["--install", "a", "--hold", "a"], ["--install", "a", "--remove", "z"], ["--install", "a", "--virtual", "b=1..2"]):
            status, output, errors = run("from-conda", *arguments, given=index(record("a", "1")).encode())
            self.assertEqual((status, output), (2, b""), arguments)
            self.assertRegex(errors.decode(), "^from-conda: [^\n]+\n$")

    def test_help(self):
        status, output, errors = run("from-conda", "--help")
        self.assertEqual((status, errors), (0, b""))
        self.assertIn(b"--virtual", output)


class Hostile(unittest.TestCase):
    def test_bad_input(self):
        good = index(record("a", "1"), record("b", "1"))
        for text, words in (
            (good[:-20], "line [0-9]+: this is no JSON"),
            (good.replace('"version": "1"', '"version": 1'), r"line 3: the record '0.conda' has no version"),
            (good.replace('"1"', '"1..1"'), "line 3: the record '0.conda' has a bad version"),
            (good.replace('"b"', '"b b"'), "line 9: the record '1.conda' has a name that conda does not allow"),
            (good.replace('"build": "0"', '"build": "a\\nb"'), "line 3: the record '0.conda' has a build that conda does not allow"),
            (good.replace('"build_number": 0', '"build_number": true'), "line 3: the record '0.conda' has no build_number"),
            ('{"packages": {"a": 1}}', "line 1: the record 'a' is no object"),
            ('{"packages": []}', "line 1: packages is no object"),
            ("[]", "line 1: this is no repodata.json"),
            ("{}", "line 1: this is no repodata.json"),
            ("", "line 1: this is no JSON"),
            ("[" * 200000, "line 1: lists or objects are nested too deep"),
            ("\n\udcff", "line 2: this is no text"),
            ('{"packages": {"a": {"build_number": ' + "1" * 10000 + "}}}", "line 1: "),
        ):
            status, output, errors = run("from-conda", "--install", "a", given=text.encode("utf-8", "surrogateescape"))
            self.assertEqual((status, output), (2, b""), text[:60])
            self.assertRegex(errors.decode(), f"^from-conda: -: {words}[^\n]*\n$")

    def test_packed_files_cut_short(self):
        with open(REPODATA, "rb") as file:
            plain = file.read()
        for pack in (gzip.compress, lzma.compress):
            packed = pack(plain)
            status, output, errors = run("from-conda", "--install", "a", given=packed[: len(packed) // 2])
            self.assertEqual((status, output), (2, b""))
            self.assertRegex(errors.decode(), "line [0-9]+: the packed file ends too early")
        self.assertIn(run("from-conda", "--install", "a", given=bz2.compress(plain)[:20] + b"\xff" * 100)[0], (2, 3))

    def test_long_versions(self):
        for version in ("1" * 10000, "1." * 4999 + "1", "1" + "_a" * 4999, "1" * 5000 + "!1"):
            problem = written([record("a", version), record("a", "1"), record("b", "1", depends=[f"a >={version}"])], "--install", "b")
            self.assertEqual(len(testing.candidates(problem)["a"]), 2)

    def test_a_long_chain_and_a_cycle(self):
        records = [record(f"p{number}", "1", depends=[f"p{(number + 1) % 3000} >=1"]) for number in range(3000)]
        self.assertEqual(len(testing.candidates(written(records, "--install", "p0"))), 3000)

    def test_what_cannot_be_read_or_written(self):
        self.assertEqual(run("from-conda", "/nowhere/repodata.json", "--install", "a")[:2], (3, b""))
        self.assertEqual(testing.closed_pipe("from-conda", REPODATA, "--all"), (3, b"from-conda: cannot write output\n"))


@unittest.skipUnless(PROGRAM, "the variable RESOLVE does not name a build of the program")
class Program(unittest.TestCase):
    def solve(self, *arguments):
        problem = run("from-conda", REPODATA, *arguments)[1].decode()
        done = subprocess.run([PROGRAM], input=problem.encode(), stdout=subprocess.PIPE)
        real = testing.real_names(problem)
        return done.returncode, [f"{word.split('=')[0]}={real[word]}" for word in done.stdout.decode().split() if done.returncode == 0]

    def test_an_answer(self):
        status, answer = self.solve("--install", "pandas", "--virtual", "__glibc=2.36")
        self.assertEqual(status, 0)
        self.assertIn("python=3.11.6 h1_0_cpython", answer)
        self.assertIn("libblas=3.9.0 20_linux64_openblas", answer)

    def test_tracked_features_and_constraints(self):
        self.assertIn("mkl=2023.2.0 h1_1", self.solve("--install", "libblas", "blas * mkl")[1])
        self.assertEqual(self.solve("--install", "libblas * *_mkl", "blas * openblas")[0], 1)


if __name__ == "__main__":
    unittest.main()
