"""Tests of from-debian."""

import gzip
import itertools
import lzma
import os
import random
import shutil
import signal
import subprocess
import sys
import tempfile
import unittest

import testing
from testing import run, sample

MAIN = sample("debian_dists_bookworm_Packages")
SECURITY = sample("debian_dists_bookworm-security_Packages")
STATUS = sample("status")
RISING = "0~~ 0~ 0 0+ 1~rc1 1~rc1+b1 1 1-1~bpo1 1-1 1-1+b1 1-1.1 1-9 1-10 1.0 1.1a 1.1b 1.1+ 1.1.0 2.9 2.10 10 1:0~ 1:0 1:1 2:0"


TOOL = testing.load("from-debian")
SMALL_LIST = """\
# Debian: 6 versions of 4 packages. Left out:
# - Suggests, Enhances and Replaces
# - Recommends
#= aa=2 1
#= aa=4 2
#= aa@2..3 =1
#= bb=4 2
#= bb@0..0 (none)
#= bb@3..4294967296 >1
#= cc=2 1
#= dd=2 1
#= dd=6 1:0
#= dd@0..3 =1
#= dd@4..4294967296 >=2
package aa=2
requires aa=2 bb@3..4294967296 | cc
constrains aa=2 dd@4..4294967296
package aa=4
requires aa=4 dd@0..3
constrains aa=4 bb@0..0
package bb=4
package cc=2
package dd=2
package dd=6
require aa@2..3
require dd
"""


def written(text, *arguments):
    """The statements for a list of packages."""
    return testing.written(TOOL, text, *arguments)


def record(name, version, **fields):
    return f"Package: {name}\nVersion: {version}\n" + "".join(f"{field.replace('_', '-')}: {value}\n" for field, value in fields.items()) + "\n"


class Versions(unittest.TestCase):
    key = staticmethod(TOOL.version_key)

    def test_rising(self):
        versions = RISING.split()
        for (place, first), (other_place, second) in itertools.product(enumerate(versions), repeat=2):
            self.assertEqual(self.key(first) < self.key(second), place < other_place, (first, second))

    def test_equal(self):
        for first, second in (("1.0", "1.0-0"), ("0:1", "1"), ("1.00", "1.0"), ("1.a", "1.a0"), ("01", "1"), ("0", "00-0")):
            self.assertEqual(self.key(first), self.key(second))

    @unittest.skipUnless(shutil.which("dpkg"), "there is no dpkg on this machine")
    def test_beside_dpkg(self):
        chance = random.Random(1)
        texts = RISING.split() + ["".join(chance.choices("0019az~+.-", k=chance.randint(1, 6))) for _ in range(100)]
        versions = [("" if text[0].isdigit() else "0") + text.rstrip("-") for text in texts]
        pairs = [(chance.choice(versions), chance.choice(versions)) for _ in range(200)]
        script = 'while read a b; do dpkg --compare-versions "$a" lt "$b"; c=$?; dpkg --compare-versions "$a" gt "$b"; echo $c$?; done'
        given = "".join(f"{first} {second}\n" for first, second in pairs)
        verdicts = subprocess.run(["sh", "-c", script], input=given.encode(), stdout=subprocess.PIPE, check=True).stdout.decode().split()
        self.assertEqual(len(verdicts), len(pairs))
        for (first, second), verdict in zip(pairs, verdicts):
            first_key, second_key = self.key(first), self.key(second)
            self.assertEqual(f"{int(first_key >= second_key)}{int(first_key <= second_key)}", verdict, (first, second))


class Meaning(unittest.TestCase):
    """The statements of small random lists allow what Debian's rules allow."""

    TESTS = {
        None: lambda version, bound: True,
        "<<": lambda version, bound: version < bound,
        "<=": lambda version, bound: version <= bound,
        "=": lambda version, bound: version == bound,
        ">=": lambda version, bound: version >= bound,
        ">>": lambda version, bound: version > bound,
    }

    def relation(self):
        operator = self.chance.choice([None, None, *self.TESTS])
        return self.chance.choice("aa bb cc dd vv".split()), operator, operator and self.chance.randint(1, 5)

    def world(self):
        """Records by name and version: what each depends on, conflicts with and provides."""
        chance, found = self.chance, {}
        for name in "aa bb cc dd".split():
            for version in chance.sample(range(1, 6), chance.randint(1, 3)):
                depends = [[self.relation() for _ in range(chance.randint(1, 2))] for _ in range(chance.randint(0, 2))]
                conflicts = [self.relation() for _ in range(chance.randint(0, 2))]
                provides = [(chance.choice(["vv", "aa"]), chance.choice([None, 1, 3]))] * chance.randint(0, 1)
                found[name, version] = depends, conflicts, provides
        return found

    @staticmethod
    def text(relation):
        name, operator, version = relation
        return f"{name} ({operator} {version})" if operator else name

    def accepts(self, relation, name, version, provides):
        wanted, operator, bound = relation
        if name == wanted and self.TESTS[operator](version, bound):
            return True
        return any(
            provided == wanted and (operator is None or offered is not None and self.TESTS[operator](offered, bound)) for provided, offered in provides
        )

    def is_lawful(self, world, chosen):
        for name, version in chosen.items():
            depends, conflicts, _ = world[name, version]
            for clause in depends:
                if not any(self.accepts(relation, *pair, world[pair][2]) for relation in clause for pair in chosen.items()):
                    return False
            for relation in conflicts:
                if any(self.accepts(relation, *pair, world[pair][2]) for pair in chosen.items() if pair[0] != name):
                    return False
        return "aa" in chosen

    def test_random_lists(self):
        self.chance = random.Random(5)
        seen = {True: 0, False: 0}
        for _ in range(120):
            world = self.world()
            text = ""
            for (name, version), (depends, conflicts, provides) in world.items():
                fields = {
                    "Depends": ", ".join(" | ".join(map(self.text, clause)) for clause in depends),
                    "Conflicts": ", ".join(map(self.text, conflicts)),
                    "Provides": ", ".join(f"{provided} (= {offered})" if offered else provided for provided, offered in provides),
                }
                text += record(name, version, **{field: value for field, value in fields.items() if value})
            problem = written(text, "--all", "--install", "aa")
            real = testing.real_names(problem)
            for chosen, is_kept in testing.choices(problem):
                meant = {name: int(real[f"{name}={rank}"]) for name, rank in chosen.items()}
                self.assertEqual(is_kept, self.is_lawful(world, meant), (text, meant))
                seen[is_kept] += 1
        self.assertGreater(min(seen.values()), 300)


class Statements(unittest.TestCase):
    def test_a_small_list(self):
        text = record("aa", "1", Depends="bb (>> 1) | cc", Breaks="dd (<< 2)") + record("bb", "2") + record("cc", "1") + record("dd", "1:0")
        text += record("aa", "2", Depends="mail", Conflicts="bb") + record("dd", "1", Provides="mail")
        self.assertEqual(written(text, "--install", "aa=1", "dd"), SMALL_LIST)

    def test_reach(self):
        text = record("aa", "1", Depends="bb", Conflicts="dd") + record("bb", "1") + record("cc", "1", Depends="dd") + record("dd", "1")
        problem = written(text, "--install", "aa")
        self.assertEqual(testing.candidates(problem), {"aa": [2], "bb": [2]})
        self.assertIn("# - 2 packages that the request cannot reach\n# - 1 conflicts with such packages\n", problem)
        self.assertEqual(set(testing.candidates(written(text, "--all"))), {"aa", "bb", "cc", "dd"})

    def test_every_byte_of_a_name(self):
        name = "0aZ9+.-_bcdefghijklmnopqrstuvwxyzABCX2b"
        text = "".join(record(other, "1") for other in (name, "if", "or", "and", "aX2b"))
        problem = written(text, "--install", name, "if", "or", "and", "aX2b")
        self.assertIn("require 0aX5a9X2b.-_bcdefghijklmnopqrstuvwxyzX41X42X43X582b\n", problem)
        real = testing.real_names(problem)
        self.assertEqual(sorted(real.get(word, word) for word in testing.candidates(problem)), sorted([name, "if", "or", "and", "aX2b"]))
        self.assertEqual(real["X69f"], "if")

    def test_architectures(self):
        text = record("aa", "1", Architecture="amd64", Depends="bb:any, cc:amd64, dd:s390x")
        text += record("bb", "1", Architecture="all") + record("cc", "1", Architecture="i386") + record("cc", "2", Architecture="amd64")
        problem = written(text, "--install", "aa")
        self.assertEqual(testing.candidates(problem)["cc"], [2])
        self.assertIn("requires aa=2 bb\nrequires aa=2 cc\nrequires aa=2 ddX3as390x\n", problem)
        self.assertIn("# - 1 records of other architectures\n", problem)
        self.assertIn("#= cc=2 1\n", written(text, "--install", "cc", "--architecture", "i386"))

    def test_packed_files(self):
        with open(MAIN, "rb") as file:
            plain = file.read()
        expected = run("from-debian", "-", "--install", "jq", given=plain)[1]
        self.assertIn(b"\nrequire jq\n", expected)
        half = plain.index(b"\n\n", 20000) + 2
        for packed in (gzip.compress(plain), lzma.compress(plain), gzip.compress(plain[:half]) + gzip.compress(plain[half:])):
            self.assertEqual(run("from-debian", "--install", "jq", given=packed)[:2], (0, expected))

    def test_folded_field_and_blank_lines(self):
        problem = written("\n\nPackage: aa\nVersion: 1\nDepends: bb,\n\tcc\n \n\n" + record("bb", "1") + record("cc", "1"), "--install", "aa")
        self.assertIn("requires aa=2 bb\nrequires aa=2 cc\n", problem)


class Options(unittest.TestCase):
    def lines(self, *arguments):
        status, output, errors = run("from-debian", MAIN, SECURITY, STATUS, *arguments)
        self.assertEqual((status, errors), (0, b""))
        real = testing.real_names(output.decode())
        return [" ".join(f"{word}({real[word]})" if word in real else word for word in line.split()) for line in testing.statements(output.decode())]

    def test_keep(self):
        lines = self.lines("--keep")
        self.assertIn("favor jq=2(1.6-2.1+deb12u2)", lines)
        self.assertIn("require jq@2..4294967296(>=1.6-2.1+deb12u2)", lines)
        self.assertEqual(sum(line.startswith("require ") for line in lines), 9)

    def test_upgrade(self):
        lines = self.lines("--upgrade")
        self.assertFalse([line for line in lines if line.startswith("favor ")])
        self.assertIn("require jq@2..4294967296(>=1.6-2.1+deb12u2)", lines)

    def test_what_is_installed_anew_is_not_favored(self):
        lines = self.lines("--install", "jq")
        self.assertNotIn("favor jq=2(1.6-2.1+deb12u2)", lines)
        self.assertIn("favor libjq1=2(1.6-2.1+deb12u2)", lines)

    def test_hold(self):
        self.assertIn("lock jq=2(1.6-2.1+deb12u2)", self.lines("--keep", "--hold", "jq"))
        self.assertIn("lock nano=2(7.2-1+deb12u1)", self.lines("--install", "nano"))

    def test_remove(self):
        lines = self.lines("--keep", "--remove", "jq")
        self.assertFalse([line for line in lines if line.startswith("require jq")])
        lines = self.lines("--install", "jq", "--remove", "libjq1")
        self.assertIn("exclude libjq1=4(1.6-2.1+deb12u3) it is to be removed", lines)

    def test_from_release(self):
        self.assertIn("favor jq=2(1.6-2.1+deb12u2)", self.lines("--install", "jq", "--from-release", "bookworm"))

    def test_recommends(self):
        lines = self.lines("--install", "nano", "--with-recommends")
        self.assertEqual([line for line in lines if line.startswith("soft ")], ["soft libidn2-0@2..4294967296(>=2.0.5~)"])
        text = record("aa", "1", Recommends="nn | vv, bb, cc", Depends="cc") + record("bb", "1") + record("cc", "1", Recommends="dd") + record("dd", "1")
        text += record("ee", "1", Provides="vv")
        problem = written(text, "--install", "aa", "--with-recommends")
        self.assertEqual([line for line in testing.statements(problem) if line.startswith("soft")], ["soft ee", "soft bb", "soft dd"])
        self.assertNotIn("# - Recommends", problem)

    def test_a_virtual_package(self):
        lines = self.lines("--install", "mail-transport-agent")
        self.assertIn("require exim4-daemon-light | postfix", lines)

    def test_bad_requests(self):
        for arguments in (["--keep"], ["--install", "a b"], ["--install", "aa="], ["--install", "aa", "--hold", "aa"], ["--install", "aa", "--remove", "zz"]):
            status, output, errors = run("from-debian", *arguments, given=record("aa", "1").encode())
            self.assertEqual((status, output), (2, b""), arguments)
            self.assertRegex(errors.decode(), "^from-debian: [^\n]+\n$")
        self.assertEqual(run("from-debian", MAIN, "--install", "jq", "--from-release", "sid")[0], 2)

    def test_help(self):
        status, output, errors = run("from-debian", "--help")
        self.assertEqual((status, errors), (0, b""))
        self.assertIn(b"--with-recommends", output)


class Hostile(unittest.TestCase):
    def refusal(self, given, *arguments):
        """The message for an input that is refused."""
        status, output, errors = run("from-debian", *(arguments or ("--install", "aa")), given=given)
        self.assertEqual((status, output), (2, b""))
        self.assertRegex(errors.decode(), "^from-debian: [^\n]+\n$")
        return errors.decode()

    def test_bad_lines(self):
        good = record("aa", "1", Depends="bb")
        for text, words in (
            (good + "Package: bb\nVersi", "line 6: the file ends in the middle of a line"),
            (good + "Package: bb\n", "line 5: a record has no Version"),
            (good + "Version: 1\n", "line 5: a record has no Package"),
            (good + record("bb", "1 2"), "line 6: '1 2' is no Version of Debian"),
            (good + record("b\u00e9", "1"), "line 5: "),
            (good + record("bb", "1", Depends="cc (=> 1)"), "line 7: 'cc (=> 1)' in Depends is no relation to a package"),
            (good + record("bb", "1", Conflicts="cc ("), "line 7: 'cc (' in Conflicts is no relation to a package"),
            (good + "\0\n", "line 5: this is no text"),
        ):
            self.assertIn(f"from-debian: -: {words}", self.refusal(text.encode()), text)

    def test_packed_files_cut_short(self):
        with open(MAIN, "rb") as file:
            plain = file.read()
        for pack in (gzip.compress, lzma.compress):
            packed = pack(plain)
            self.assertRegex(self.refusal(packed[: len(packed) // 2]), r"-: line [0-9]{2,}: the packed file ends too early")
        self.assertIn("damaged", self.refusal(gzip.compress(plain)[:10] + b"\xff" * 100))

    def test_long_versions(self):
        for version in ("1" * 10000, "1." * 4999 + "1", "1" + "~" * 9999, "1:" + "a1" * 4999, "9" * 5000 + ":" + "1" * 4999):
            problem = written(record("aa", version) + record("aa", "1") + record("bb", "1", Depends=f"aa (>= {version})"), "--install", "bb")
            self.assertEqual(len(testing.candidates(problem)["aa"]), 2)
            self.assertIn(f" {version}\n", problem)

    def test_a_cycle_of_provides(self):
        text = record("aa", "1", Provides="bb, aa") + record("bb", "1", Provides="cc, aa") + record("cc", "1", Provides="aa", Depends="bb")
        problem = written(text, "--install", "aa", "cc")
        self.assertIn("requires cc=2 bb | aa\n", problem)
        self.assertIn("require aa\n", problem)

    def test_a_long_chain(self):
        text = "".join(record(f"p{number}", "1", Depends=f"p{number + 1}") for number in range(5000))
        self.assertEqual(len(testing.candidates(written(text, "--install", "p0"))), 5000)

    def test_files_that_cannot_be_read(self):
        self.assertEqual(run("from-debian", "/nowhere/Packages", "--install", "aa")[:2], (3, b""))
        self.assertEqual(run("from-debian", testing.FOLDER, "--install", "aa")[:2], (3, b""))

    def test_output_that_cannot_be_written(self):
        status, errors = testing.closed_pipe("from-debian", MAIN, "--all")
        self.assertEqual((status, errors), (3, b"from-debian: cannot write output\n"))
        with open("/dev/full", "wb") as full:
            self.assertEqual(run("from-debian", MAIN, "--all", stdout=full)[0], 3)

    def test_interrupt(self):
        with tempfile.TemporaryDirectory() as folder:
            pipe = os.path.join(folder, "pipe")
            os.mkfifo(pipe)
            command = [sys.executable, os.path.join(testing.FOLDER, "from-debian"), pipe, "--install", "aa"]
            process = subprocess.Popen(command, stdout=subprocess.PIPE, stderr=subprocess.PIPE)
            with open(pipe, "wb"):
                process.send_signal(signal.SIGINT)
                self.assertEqual(process.communicate(timeout=30), (b"", b""))
            self.assertEqual(process.returncode, 130)


if __name__ == "__main__":
    unittest.main()
