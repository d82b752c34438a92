"""Tests of names."""

import os
import tempfile
import unittest

import testing

PROBLEM = """\
# a comment
#= libX2bX2b libc++
#= libX2bX2b=2 1:2.36-9
#= libX2bX2b=4 1:2.42
#= libX2bX2b@2..4 >=1:2.36-9, <1:2.42
#= a=1 7 build_0\r
#= a@0..0 (none)
#= a@1..2 7.*
#= a@3..4 7.*
package libX2bX2b=2
#=not a line of the map
"""
MESSAGE = """\
The following packages are incompatible
├─ libX2bX2b * can be installed with any of the following options:
│  └─ libX2bX2b 2 | 4 | 6 would require
│     ├─ a >=1, <2 | a >=3, <4 | b >=1, <2, which cannot be installed because there are no viable options:
│     │  └─ a 1, which conflicts with the versions reported above.
│     └─ libX2bX2b >=2, <4, for which no candidates were found.
└─ a >=1, <2 cannot be installed because there are no viable options:
   ├─ a 1 is excluded because a 1 and libX2bX2b >=2, <4 | a * are old
   └─ a 1 would constrain
      └─ a >=0, <0, which conflicts with any installable versions previously reported
├─ the constraint libX2bX2b >=2, <4 cannot be fulfilled
└─ libX2bX2b 2 is locked, but another version is required as reported above
No candidates were found for libX2bX2b * | a >=1, <2.
unknown 9 | 10
"""
REAL_MESSAGE = """\
The following packages are incompatible
├─ libc++ * can be installed with any of the following options:
│  └─ libc++ 1:2.36-9 | 1:2.42 | 6 would require
│     ├─ a 7.* | b >=1, <2, which cannot be installed because there are no viable options:
│     │  └─ a 7 build_0, which conflicts with the versions reported above.
│     └─ libc++ >=1:2.36-9, <1:2.42, for which no candidates were found.
└─ a 7.* cannot be installed because there are no viable options:
   ├─ a 7 build_0 is excluded because a 1 and libX2bX2b >=2, <4 | a * are old
   └─ a 7 build_0 would constrain
      └─ a (none), which conflicts with any installable versions previously reported
├─ the constraint libc++ >=1:2.36-9, <1:2.42 cannot be fulfilled
└─ libc++ 1:2.36-9 is locked, but another version is required as reported above
No candidates were found for libc++ * | a 7.*.
unknown 9 | 10
"""


class Names(unittest.TestCase):
    def setUp(self):
        folder = tempfile.TemporaryDirectory()
        self.addCleanup(folder.cleanup)
        self.path = os.path.join(folder.name, "problem")
        self.write(PROBLEM)

    def write(self, text):
        with open(self.path, "w", encoding="utf-8", newline="") as file:
            file.write(text)

    def named(self, text):
        status, output, errors = testing.run("names", self.path, given=text.encode())
        self.assertEqual((status, errors), (0, b""))
        return output.decode()

    def test_an_answer(self):
        self.assertEqual(self.named("a=1\nb=3\nlibX2bX2b=4\nlibX2bX2b=5"), "a=7 build_0\nb=3\nlibc++=1:2.42\nlibc++=5")
        self.assertEqual(self.named(""), "")

    def test_a_message(self):
        self.assertEqual(self.named(MESSAGE), REAL_MESSAGE)

    def test_a_problem_without_a_map(self):
        self.write("package a=1\nrequire a\n")
        self.assertEqual(self.named(MESSAGE), MESSAGE)
        self.assertEqual(self.named("a=1\n"), "a=1\n")

    def test_bytes_that_are_no_text(self):
        given = b"\xe2\x94\x94\xe2\x94\x80 a 1 is excluded because \xff\n\xff\r\n"
        self.assertEqual(testing.run("names", self.path, given=given)[1], given.replace(b"a 1", b"a 7 build_0"))

    def test_bad_maps(self):
        for line in ("#= a", "#= ", "#= a=x 1", "#= a@1 2", "#= a=4 "):
            self.write("package a=1\n" + line + "\n")
            status, output, errors = testing.run("names", self.path, given=b"a=1\n")
            self.assertEqual((status, output), (2, b""), line)
            self.assertIn(b": line 2: ", errors)

    def test_what_cannot_be_read_or_written(self):
        self.assertEqual(testing.run("names", "/nowhere/problem")[:2], (3, b""))
        self.assertEqual(testing.run("names", testing.FOLDER)[:2], (3, b""))
        self.assertEqual(testing.closed_pipe("names", self.path, given=b"a=1\n"), (3, b"names: cannot write output\n"))

    def test_usage(self):
        self.assertEqual(testing.run("names")[0], 2)
        status, output, errors = testing.run("names", "--help")
        self.assertEqual((status, errors), (0, b""))
        self.assertIn(b"PROBLEM", output)


if __name__ == "__main__":
    unittest.main()
