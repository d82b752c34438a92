"""Tests of `lint`. With the variable RESOLVE, the path of the program, it is compared with the program too."""

import io
import os
import random
import re
import runpy
import subprocess
import sys
import unittest

TOOL = os.path.join(os.path.dirname(os.path.abspath(__file__)), "lint")
RESOLVE = os.environ.get("RESOLVE")
LINT = runpy.run_path(TOOL)


def lint(*arguments, data=b"", **options):
    result = subprocess.run([sys.executable, TOOL, *arguments], input=data, stderr=-1, **{"stdout": -1, **options})
    return result.returncode, result.stdout, result.stderr


def faults(data):
    """Line, column and text of each bad line."""
    return [(line, place + 1, text) for (line, place), text in LINT["judge"](io.BytesIO(data), LINT["Problem"]())]


def warnings(text):
    problem = LINT["Problem"]()
    assert not list(LINT["judge"](io.BytesIO(text.encode()), problem))
    return [(line, place + 1, text) for (line, place), text in sorted(problem.warnings())]


BAD = [
    ("package\ta=1", 8, "a tab"),
    ("package a=1\r", 12, "carriage return"),
    ("\ufeffpackage a=1", 1, "byte order mark"),
    ("package caf\u00e9=1", 12, "ASCII"),
    ("package a=1\u00a0", 12, "ASCII"),
    ("Package a=1", 1, "did you mean 'package'?"),
    ("install a", 1, "is no statement: write one of package, requires"),
    ("package", 8, "ends too early"),
    ("package a", 9, "write 'a=VERSION'"),
    ("package a@1", 9, "write 'a=VERSION'"),
    ("package a=", 9, "a number is missing"),
    ("package =1", 9, "the name is missing"),
    ("package a=01", 9, "write '1'"),
    ("package a=00", 9, "write '0'"),
    ("package a=1.2.3", 9, "'1.2.3' is not a number"),
    ("package a=4294967296", 9, "up to 4294967295"),
    ("package a=" + "9" * 10000, 9, "up to 4294967295"),
    ("package if=1", 9, "cannot be a name"),
    ("package g++=1", 9, "a name cannot have '+'"),
    ("package a=1 b=2", 13, "the form is 'package NAME=VERSION'"),
    ("package a=1 # the app", 13, "a comment"),
    ("requires z=1 a", 10, "write 'package z=1' above"),
    ("require", 8, "write a package here"),
    ("require |", 9, "a package is missing before '|'"),
    ("require a |", 12, "write a package here"),
    ("require a|b", 9, "write 'a | b'"),
    ("require a |b", 11, "write '| b'"),
    ("require a or b", 11, "'or' does not join packages: write '|'"),
    ("require a b", 11, "another 'require' line"),
    ("require a=1", 9, "write 'a@1'"),
    ("require a>=1", 9, "write 'a@LOW..HIGH'"),
    ("require a@>=1", 9, "write 'a@LOW..HIGH'"),
    ("require a@1-2", 9, "write 'a@LOW..HIGH'"),
    ("require a@1..", 9, "a number is missing"),
    ("require a@1..02", 9, "write '2'"),
    ("require a@1..4294967297", 9, "up to 4294967296"),
    ("require a@4294967296", 9, "up to 4294967295"),
    ("require a if", 13, "write a package here"),
    ("require a if (b or c)", 14, "write '( b'"),
    ("require a if b)", 14, "write 'b )'"),
    ("require a if ( b", 17, "write ')' here"),
    ("require a if b )", 16, "leave out ')'"),
    ("require a if b c", 16, "write 'and' or 'or'"),
    ("require a if b | c", 16, "write 'and' or 'or'"),
    ("require a if b and or c", 20, "a package is missing before 'or'"),
    ("constrain a b", 13, "the form is 'constrain PACKAGE'"),
    ("soft a=1", 6, "write 'package a=1' above"),
    ("soft a@1 b", 10, "the form is 'soft NAME=VERSION, or soft PACKAGE'"),
]
SECOND = [
    ("package p=1", "a second 'package' for 'p=1': leave out this line or line 1"),
    ("unknown p=1 why", "a second 'unknown' for 'p=1': leave out this line or line 3"),
    ("exclude p=1 why", "a second 'exclude' for 'p=1': leave out this line or line 4"),
    ("favor p=2", "a second 'favor' for 'p': leave out this line or line 5"),
    ("lock p=2", "a second 'lock' for 'p': leave out this line or line 6"),
]
DECLARED = "package p=1\npackage p=2\nunknown p=1 x\nexclude p=1 x\nfavor p=1\nlock p=1\n"


class BadLines(unittest.TestCase):
    def test_each_cause_is_named_at_its_column(self):
        for line, column, cause in BAD:
            found = faults(("# first\n" + line).encode())
            self.assertEqual([(2, column)], [fault[:2] for fault in found], line)
            self.assertIn(cause, found[0][2], line)

    def test_a_statement_that_may_come_once(self):
        for line, cause in SECOND:
            self.assertEqual([(7, line.index("p", 1) + 1 if line[0] != "p" else 9, cause)], faults((DECLARED + line).encode()))

    def test_a_missing_reason(self):
        self.assertEqual([(2, 12, "the reason is missing: write one after 'p=1'")], faults(b"package p=1\nexclude p=1\n"))

    def test_a_byte_that_is_not_utf_8(self):
        self.assertEqual([(2, 14, "the byte 255 is not UTF-8: save the file as UTF-8")], faults(b"package p=1\nexclude p=1 \xc3\xa9\xff"))

    def test_lawful_lines(self):
        text = b"\n  \n  # \xff\npackage a.b-C_9=0\r\n package  or2=4294967295 \nexclude or2=4294967295 \tsp\xc3\xa9cial #1 \n"
        text += b"require a.b-C_9@0..4294967296 | or2 if ( ( a.b-C_9 ) and or2 or or2@7 ) and b\nsoft x@5..2\nsoft or2"
        self.assertEqual([], faults(text))

    def test_every_bad_line_is_told_of(self):
        self.assertEqual([1, 3], [line for line, _, _ in faults(b"packag a=1\npackage b=1\nrequires a=1 b\nrequire b\n")])


TOOLKIT = "package toolkit=1\npackage toolkit=3\n"
WARNINGS = [
    ("require tookit", 9, "no line declares a version of 'tookit', so nothing can meet it; did you mean 'toolkit'?"),
    ("require Toolkit | toolkit", 9, "no line declares a version of 'Toolkit', so nothing can meet it; did you mean 'toolkit'?"),
    ("constrain otolkit", 11, "no line declares a version of 'otolkit', so it has no effect; did you mean 'toolkit'?"),
    ("require toolkit if toolkitt", 20, "no line declares a version of 'toolkitt', so it never holds; did you mean 'toolkit'?"),
    ("soft kit@1", 6, "no line declares a version of 'kit', so this line is never taken"),
    ("require toolkit@2", 9, "no version of 'toolkit' is in 2..3, so nothing can meet it: it has 1 to 3"),
    ("soft toolkit@4..9", 6, "no version of 'toolkit' is in 4..9, so this line is never taken: it has 1 to 3"),
    ("require toolkit@3..1", 9, "no number is in the range 3..1, so nothing can meet it: write the lower one first"),
    ("package kit=7\nsoft kit@8", 6, "no version of 'kit' is in 8..9, so this line is never taken: it has 7"),
    ("soft toolkit@3..3", 6, "no number is in the range 3..3, so this line is never taken: write the lower one first"),
    ("constrain toolkit@2", 11, "no version of 'toolkit' is in 2..3, so it forbids every version: it has 1 to 3"),
    ("unknown toolkit=1 x\nsoft toolkit@0..2", 6, "this line is never taken: the version is unknown (line 3)"),
    ("constrain toolkit@3\nsoft toolkit=1", 6, "this line is never taken: line 3 lets only other versions be chosen"),
    ("require toolkit@3 | toolkit@3..5\nsoft toolkit@1", 6, "this line is never taken: line 3 lets only other versions be chosen"),
    ("exclude toolkit=1 x\nconstrain toolkit\nsoft toolkit=1", 6, "this line is never taken: the version is excluded (line 3)"),
    ("exclude toolkit=3 x\nsoft toolkit@3", 6, "this line is never taken: the version is excluded (line 3)"),
    ("lock toolkit=3\nrequire toolkit\nsoft toolkit=1", 6, "this line is never taken: another version is locked (line 3)"),
    ("lock toolkit=3\nsoft toolkit@1", 6, "this line is never taken: another version is locked (line 3)"),
]
SENSIBLE = [
    "constrain toolkit@0..0",
    "constrains toolkit=1 toolkit@4..4294967296",
    "require toolkit@0..2",
    "require toolkit@3 if toolkit\nsoft toolkit=1",
    "exclude toolkit=1 x\nlock toolkit=3\nsoft toolkit=1\nsoft toolkit@1",
    "exclude toolkit=1 x\nsoft toolkit",
    "require toolkit@0..9\nsoft toolkit=1",
]


class Warnings(unittest.TestCase):
    def test_each_warning_at_its_column(self):
        for text, column, warning in WARNINGS:
            self.assertEqual([(3 + text.count("\n"), column, warning)], warnings(TOOLKIT + text), text)

    def test_no_warning_of_what_may_be_meant(self):
        for text in SENSIBLE:
            self.assertEqual([], warnings(TOOLKIT + text), text)

    def test_a_use_is_warned_of_once(self):
        self.assertEqual([(1, 9), (3, 6)], [place[:2] for place in warnings("require a\nrequire a\nsoft a\nrequire b if a\npackage b=1")][:2])


class CommandLine(unittest.TestCase):
    def test_outputs_and_statuses(self):
        self.assertEqual((0, b"", b""), lint(data=b"package a=1\nrequire a"))
        self.assertEqual((0, b"<stdin>:1:9: warning: no line declares a version of 'a', so nothing can meet it\n", b""), lint(data=b"require a"))
        self.assertEqual((1, b"<stdin>:2:8: bad: the line ends too early: write a package here\n", b""), lint(data=b"require a\nrequire"))

    def test_it_stops_after_many_bad_lines(self):
        status, output, _ = lint(data=b"bad\n" * 30)
        lines = output.decode().splitlines()
        self.assertEqual((1, 21, "<stdin>: stopped after 20 bad lines"), (status, len(lines), lines[-1]))

    def test_hostile_inputs(self):
        for data in (b"require " + b"a" * 10000 + b"+", b"package a=" + b"9" * 10000, b"x" * 10000, b"require a" + b" | a" * 9999 + b" |", b"\0" * 10000):
            status, output, errors = lint(data=data)
            self.assertEqual((1, b""), (status, errors))
            self.assertRegex(output, rb"^<stdin>:1:[0-9]+: bad: [ -~]{,200}\n$")
        deep = b"package a=1\nrequire a if " + b"( " * 100000 + b"a" + b" )" * 100000
        self.assertEqual((0, b"", b""), lint(data=deep))
        self.assertEqual(1, lint(data=deep[:-1])[0])

    def test_what_cannot_be_read_or_written(self):
        self.assertEqual((2, b"", b"lint: [Errno 2] No such file or directory: 'none.txt'\n"), lint("none.txt"))
        self.assertEqual((2, b"", b"lint: [Errno 21] Is a directory: '/'\n"), lint("/"))
        with open("/dev/full", "w") as full:
            self.assertEqual((2, None, b"lint: [Errno 28] No space left on device\n"), lint(data=b"bad", stdout=full))
        read, write = os.pipe()
        os.close(read)
        self.assertEqual((-13, None, b""), lint(data=b"bad", stdout=write))
        os.close(write)


NAMES = ["a", "a", "b", "b", "a", "x.y-_Z9", "if", "or", "and", "iff"]
NUMBERS = ["1", "2", "3", "1", "2", "0", "4294967295", "4294967296", "4294967297", "01", "00", "99999999999"]
PIECES = [" ", "  ", "\t", "\r", "\n", "\r\n", "\0", "#", "=", "@", "..", ".", "|", " | ", "(", ")", " ( ", " ) ", "if", " and ", " or "]
PIECES += ["\u00e9", "\u00a0", "\ufeff", "-", "+", "0", "package", "soft", "a", "a=1"]


class Inputs:
    """Random inputs: most lines are lawful, and some bytes are changed afterwards."""

    def __init__(self, seed):
        self.random = random.Random(seed)

    def name(self):
        return self.random.choice(NAMES[:6] if self.random.random() < 0.99 else NAMES)

    def number(self):
        return self.random.choice(NUMBERS[:5] if self.random.random() < 0.98 else NUMBERS)

    def spec(self):
        form = self.random.randrange(3)
        return self.name() + ["", "@" + self.number(), "@" + self.number() + ".." + self.number()][form]

    def condition(self, depth=0):
        facts = [self.spec() if depth > 2 or self.random.random() < 0.7 else f"( {self.condition(depth + 1)} )" for _ in range(3)]
        return self.random.choice([facts[0], " and ".join(facts), " or ".join(facts), "{} and {} or {}".format(*facts)])

    def union(self):
        union = " | ".join(self.spec() for _ in range(self.random.choice([1, 1, 2, 3])))
        return union + (" if " + self.condition() if self.random.random() < 0.3 else "")

    def line(self):
        one, spec, union = self.name() + "=" + self.number(), self.spec(), self.union()
        forms = [f"package {one}", f"requires {one} {union}", f"constrains {one} {spec}", f"unknown {one} n\u00f6 #\t"]
        forms += [f"favor {one}", f"lock {one}", f"exclude {one} old", f"require {union}", f"constrain {spec}", f"soft {one}", f"soft {spec}"]
        return self.random.choice(forms + ["", "  ", "# \u00e9"])

    def text(self):
        """Declarations, some other lines, and now and then a few changed bytes."""
        lines = [f"package {name}={version}" for name in NAMES[1:6:2] for version in (1, 2, 3)]
        lines += [self.line() for _ in range(self.random.randrange(6))]
        data = self.random.choice(["\n", "\n", "\r\n"]).join(lines) + self.random.choice(["", "", "", "", "\n", "\r"])
        data = data.encode()
        for _ in range(self.random.choice([0, 0, 0, 1, 2])):
            place = len(data) - self.random.randrange(min(len(data) + 1, 100))
            piece = self.random.choice(PIECES).encode() if self.random.random() < 0.9 else bytes([self.random.randrange(256)])
            data = data[:place] + piece * self.random.randrange(2) + data[place + self.random.randrange(3) :]
        return data


@unittest.skipUnless(RESOLVE, "asks the program: set RESOLVE to its path")
class Agreement(unittest.TestCase):
    def test_the_first_bad_line_is_that_of_the_program(self):
        inputs = Inputs(1)
        bad = 0
        for _ in range(int(os.environ.get("INPUTS", "1500"))):
            data = inputs.text()
            said = subprocess.run([RESOLVE], input=data, stdout=-1, stderr=-1).stderr
            line = re.fullmatch(rb"resolve: line ([0-9]+): bad statement\n", said)
            found = faults(data)
            self.assertEqual(int(line[1]) if line else None, found[0][0] if found else None, data)
            bad += bool(line)
        self.assertGreater(bad, 300)


if __name__ == "__main__":
    unittest.main()
