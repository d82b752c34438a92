"""Tests of `check-answer`. With the variable RESOLVE, the path of the program, it is compared with the program too."""

import os
import random
import runpy
import subprocess
import sys
import unittest

FOLDER = os.path.dirname(os.path.abspath(__file__))
TOOL = os.path.join(FOLDER, "check-answer")
EXAMPLES = os.path.join(FOLDER, "..", "examples")
RESOLVE = os.environ.get("RESOLVE")
INPUTS = int(os.environ.get("INPUTS", "800"))
CHECK = runpy.run_path(TOOL)


def faults(problem, chosen):
    """What is wrong with an answer, a dict."""
    return list(CHECK["Problem"](problem.splitlines(True), chosen).faults())


def run(arguments, answer, **options):
    return subprocess.run([sys.executable, TOOL, *arguments], input=answer, stdout=-1, stderr=-1, **options)


PROBLEM = """\
package app=1
package app=2
package lib=1
package lib=2
package extra=1
package part=1
requires app=2 lib@2 | part
requires app=2 extra if lib@1 or ( part and lib )
constrains app=2 lib@2
unknown app=1 no data
exclude extra=1 old
lock lib=2
require app
constrain extra@0..5
"""
CONDITIONS = [  # and whether they hold where version 1 of a is chosen
    ("a or b", True),
    ("a or b or c", True),
    ("b and c or a", True),
    ("b and ( a )", False),
    ("a and ( b or c )", False),
    ("( ( a ) ) and a@1..2", True),
    ("a@2..9 or b", False),
]
WRONG = [
    ({}, ["line 13: a requirement of the root is not met"]),
    ({"app": 2}, ["line 7: a requirement of app=2 is not met"]),
    ({"app": 2, "lib": 1, "part": 1}, [
        "line 8: a requirement of app=2 is not met",
        "line 9: a constraint of app=2 forbids lib=1",
        "line 12: `lock lib=2` forbids lib=1",
        "lib=1: nothing needs it",
    ]),
    ({"app": 2, "lib": 2, "part": 1}, ["line 8: a requirement of app=2 is not met"]),
    ({"app": 2, "lib": 2, "extra": 1}, ["line 11: `exclude extra=1` forbids extra=1", "extra=1: nothing needs it"]),
    ({"app": 2, "lib": 2, "extra": 7}, [
        "line 14: a constraint of the root forbids extra=7",
        "extra=7: no line declares it",
        "extra=7: nothing needs it",
    ]),
    ({"app": 1}, ["line 10: `unknown app=1` forbids app=1"]),
]


class Answers(unittest.TestCase):
    def test_right_answers(self):
        self.assertEqual([], faults(PROBLEM, {"app": 2, "lib": 2}))
        self.assertEqual([], faults(PROBLEM, {"app": 2, "part": 1}))
        self.assertEqual([], faults("", {}))

    def test_each_fault_is_told_of(self):
        for chosen, expected in WRONG:
            self.assertEqual(expected, faults(PROBLEM, chosen))

    def test_what_leads_in_a_circle_is_not_needed(self):
        circle = "package a=1\npackage b=1\nrequires a=1 b\nrequires b=1 a\n"
        self.assertEqual(["a=1: nothing needs it", "b=1: nothing needs it"], faults(circle, {"a": 1, "b": 1}))
        for start in ("require a\n", "soft b=1\n", "soft a@0..3\n"):
            self.assertEqual([], faults(circle + start, {"a": 1, "b": 1}))

    def test_conditions(self):
        for condition, holds in CONDITIONS:
            problem = f"package a=1\nrequire a\nrequire x if {condition}\n"
            self.assertEqual(["line 3: a requirement of the root is not met"] * holds, faults(problem, {"a": 1}), condition)

    def test_who_may_break_a_lock_or_an_exclusion(self):
        banned = "package a=1\npackage a=2\npackage b=1\nexclude a=1 old\nlock a=2\n"
        both = ["line 4: `exclude a=1` forbids a=1", "line 5: `lock a=2` forbids a=1"]
        self.assertEqual([], faults(banned + "soft a=1\n", {"a": 1}))
        self.assertEqual(both, faults(banned + "soft a@1\n", {"a": 1}))
        for asked in ("require a\n", "constrain a\n", "require b\nrequires b=1 a\n", "require b\nconstrains b=1 a\n"):
            self.assertEqual(both, faults(banned + asked + "soft a=1\n", {"a": 1, "b": 1} if "b" in asked else {"a": 1}))
        later = "package c=1\nsoft a=1\nsoft b=1\nsoft c=1\nrequires b=1 a\n"
        for line in ("require c | b\n", "require b if c\n", "require a if c\n"):
            self.assertEqual([], faults(banned + later + line, {"a": 1, "b": 1, "c": 1}))
        self.assertEqual(["line 2: `unknown a=1` forbids a=1"], faults("package a=1\nunknown a=1 why\nsoft a=1\n", {"a": 1}))


class Program(unittest.TestCase):
    def test_the_examples(self):
        for name in ("colouring", "conditions", "debian", "locks", "soft"):
            path = os.path.join(EXAMPLES, name + ".txt")
            with open(path + ".stdout", "rb") as answer:
                text = answer.read()
            result = run([path], text)
            count = len(text.splitlines())
            self.assertEqual((0, b"valid, and everything in it is needed: %d versions\n" % count, b""), (result.returncode, result.stdout, result.stderr))
            self.assertEqual(1, run([path], text[text.index(b"\n") + 1 :]).returncode)

    def test_two_versions_of_a_package(self):
        result = run([os.path.join(EXAMPLES, "soft.txt")], b"app=2\ntheme=1\nweb=2\nweb=1\n")
        self.assertEqual((1, b"web: the answer has a second version, 1\n"), (result.returncode, result.stdout))

    def test_what_cannot_be_read(self):
        path = os.path.join(EXAMPLES, "soft.txt")
        self.assert_unreadable(b"line 2 of the answer is not NAME=VERSION", [path], b"app=2\nThe following packages are incompatible\n")
        self.assert_unreadable(b"No such file or directory", [path + ".none"], b"")

    def assert_unreadable(self, reason, arguments, answer):
        result = run(arguments, answer)
        self.assertEqual((2, b""), (result.returncode, result.stdout))
        self.assertRegex(result.stderr, b"^check-answer: .*" + reason + b".*\n$")

    def test_bad_statements(self):
        for end in ("", " a |", " a b", " a b c", " | a", " a if", " a if ( b", " a if b )", " a if b and", " a if b c", " a@1..", " a=1", " a@01"):
            with self.assertRaisesRegex(CHECK["Unreadable"], "line 2 of the problem is a bad statement"):
                faults(f"# first\nrequire{end}\n", {})
        for line in ("package", "package a", "package a=1 b", "lock a=1 b", "exclude a=1", "constrain", "constrain a b", "soft", "sof a", "pack"):
            with self.assertRaisesRegex(CHECK["Unreadable"], "line 1 of the problem is a bad statement"):
                faults(line, {})

    def test_a_closed_pipe_and_a_full_device(self):
        path = os.path.join(EXAMPLES, "soft.txt")
        command = f"exec {sys.executable} {TOOL} {path} < /dev/null"
        full = subprocess.run(["sh", "-c", command + " > /dev/full"], stderr=-1)
        self.assertEqual((2, b"check-answer: [Errno 28] No space left on device\n"), (full.returncode, full.stderr))
        read, write = os.pipe()
        os.close(read)
        closed = subprocess.run(["sh", "-c", command], stdout=write, stderr=-1)
        os.close(write)
        self.assertEqual((-13, b""), (closed.returncode, closed.stderr))


class Problems:
    """Random problems with few versions, so that their statements meet."""

    def __init__(self, seed):
        self.random = random.Random(seed)

    def spec(self):
        low = self.random.randrange(4)
        return self.random.choice("abcd") + self.random.choice(["", f"@{low}", f"@{low}..{low + self.random.randrange(4)}"])

    def requirement(self):
        union = " | ".join(self.spec() for _ in range(self.random.choice([1, 1, 2])))
        condition = self.random.choice(["{}", "{} and {}", "{} or {}", "{} and ( {} or {} )"]).format(*(self.spec() for _ in range(3)))
        return union + (" if " + condition if self.random.random() < 0.3 else "")

    def text(self, soft_lines):
        solvables = [f"{name}={version}" for name in "abcd" for version in range(1, self.random.randrange(2, 5))]
        lines = [f"package {solvable}" for solvable in solvables]
        lines += [f"requires {self.random.choice(solvables)} {self.requirement()}" for _ in range(self.random.randrange(9))]
        lines += [f"constrains {self.random.choice(solvables)} {self.spec()}" for _ in range(self.random.randrange(4))]
        for keyword in ("unknown", "exclude", "lock", "lock"):
            name = self.random.choice("abcd") if keyword == "lock" else None
            if self.random.random() < 0.4 and (not name or not any(line.startswith(f"lock {name}") for line in lines)):
                solvable = self.random.choice([solvable for solvable in solvables if not name or solvable[0] == name])
                lines.append(f"{keyword} {solvable}" + ("" if name else " for a reason"))
        lines += [f"require {self.requirement()}" for _ in range(self.random.randrange(3))]
        lines += [f"constrain {self.spec()}"] * (self.random.random() < 0.2)
        soft = [self.random.choice([self.random.choice(solvables), self.spec()]) for _ in range(soft_lines)]
        return "".join(line + "\n" for line in lines + [f"soft {wish}" for wish in soft])


@unittest.skipUnless(RESOLVE, "asks the program: set RESOLVE to its path")
class Agreement(unittest.TestCase):
    def solve(self, problem):
        result = subprocess.run([RESOLVE], input=problem, stdout=-1, universal_newlines=True)
        self.assertIn(result.returncode, (0, 1), problem)
        return None if result.returncode else {line[0]: int(line[2:]) for line in result.stdout.splitlines()}

    def test_each_answer_of_the_program_is_right(self):
        problems = Problems(2)
        answers = 0
        for _ in range(INPUTS):
            problem = problems.text(problems.random.randrange(5))
            chosen = self.solve(problem)
            if chosen is not None:
                answers += bool(chosen)
                self.assertEqual([], faults(problem, chosen), (problem, chosen))
        self.assertGreater(answers, INPUTS // 4)

    def test_other_sets_are_valid_if_the_program_can_answer_them(self):
        problems = Problems(3)
        valid = 0
        for _ in range(INPUTS):
            problem = problems.text(0)
            declared = [line[8:] for line in problem.splitlines() if line.startswith("package")]
            chosen = {solvable[0]: int(solvable[2:]) for solvable in problems.random.sample(declared, problems.random.randrange(5))}
            fixed = "".join(f"require {name}@{chosen[name]}\n" if name in chosen else f"constrain {name}@0..0\n" for name in "abcd")
            wrong = [fault for fault in faults(problem, chosen) if "nothing needs it" not in fault]
            self.assertEqual(chosen if not wrong else None, self.solve(problem + fixed), (problem, chosen, wrong))
            valid += not wrong
        self.assertGreater(valid, INPUTS // 20)


if __name__ == "__main__":
    unittest.main()
