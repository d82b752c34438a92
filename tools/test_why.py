"""Tests of `why`, with a stand-in for the program. With the variable RESOLVE, the path of the program, it asks that too."""

import collections
import os
import re
import runpy
import subprocess
import sys
import tempfile
import unittest

from test_check_answer import CHECK, CONDITIONS, INPUTS, RESOLVE, Problems

TOOL = os.path.join(os.path.dirname(os.path.abspath(__file__)), "why")
WHY = runpy.run_path(TOOL)
UTF_8 = {"encoding": "utf-8", "errors": "surrogateescape"}
STAND_IN = """\
#!/bin/sh
cd "$(dirname "$0")"
number=$(ls asked | wc -l)
cat > asked/$number
cat output.$number
exit $(cat status.$number)
"""
PROBLEM = """\
package app=1
package app=2
package lib=1
package old=1
package web=1
requires app=2 none | lib@1..3 if web or ( none and lib )
requires app=2 lib if lib and ( none or app@2 )
requires lib=1 app
exclude old=1 too old
lock web=1
require app
lock app=2
soft old=1
soft web
soft app=1
# \udcff
"""
ANSWER = "app=2\nlib=1\nold=1\n"
CONFLICT = "The following packages are incompatible\n└─ a message of the program\n"


class Asked(unittest.TestCase):
    """What `why` asks and prints, where the program has these outcomes."""

    def why(self, *arguments, outcomes, problem=PROBLEM):
        with tempfile.TemporaryDirectory() as folder:
            def write(name, text):
                with open(os.path.join(folder, name), "w", newline="", **UTF_8) as file:
                    file.write(text)
                return file.name

            os.mkdir(os.path.join(folder, "asked"))
            for number, (status, output) in enumerate(outcomes):
                write(f"status.{number}", str(status))
                write(f"output.{number}", output)
            program = write("program", STAND_IN)
            os.chmod(program, 0o700)
            command = [sys.executable, TOOL, write("problem", problem), *arguments, "--resolve", program]
            result = subprocess.run(command, stdout=-1, stderr=-1)
            self.asked = []
            for number in range(len(os.listdir(os.path.join(folder, "asked")))):
                with open(os.path.join(folder, "asked", str(number)), newline="", **UTF_8) as asked:
                    self.asked.append(asked.read())
        self.assertNotIn(b"Traceback", result.stderr)
        return result.returncode, result.stdout.decode(), result.stderr.decode().replace(program, "PROGRAM")

    def test_the_chain_to_a_chosen_version(self):
        chain = "line 11: require app -> app=2\nline 7: requires app=2 lib if lib and ( none or app@2 ) -> lib=1\n"
        for word in ("lib", "lib=1"):
            self.assertEqual((0, "lib=1 is chosen:\n" + chain, ""), self.why(word, outcomes=[(0, ANSWER)]))
            self.assertEqual([PROBLEM], self.asked)
        chain = "old=1 is chosen:\nline 13: soft old=1 -> old=1\n"
        self.assertEqual((0, chain, ""), self.why("old", outcomes=[(0, ANSWER)]))

    def test_the_chain_is_the_shortest(self):
        problem = "requires a=1 e\nrequires a=1 b\nrequires b=1 c\nrequires c=1 d\nrequires e=1 x | d\nrequire a\nsoft d\n"
        chain = "line 6: require a -> a=1\nline 1: requires a=1 e -> e=1\nline 5: requires e=1 x | d -> d=1\n"
        outcome = self.why("d", outcomes=[(0, "a=1\nb=1\nc=1\nd=1\ne=1\n")], problem=problem)
        self.assertEqual((0, "d=1 is chosen:\n" + chain, ""), outcome)

    def test_a_version_that_does_not_fit(self):
        text = "app=1 is not chosen, and does not fit. With the line `require app@1` there is no answer:\n" + CONFLICT
        self.assertEqual((1, text, ""), self.why("app=1", outcomes=[(0, ANSWER), (1, CONFLICT)]))
        self.assertEqual([PROBLEM, PROBLEM + "\nrequire app@1"], self.asked)

    def test_a_version_that_nothing_needs(self):
        text = "web is not chosen, though it fits: nothing needs it. The line `require web` changes the answer by\n- lib=1\n+ web=1\n"
        self.assertEqual((1, text, ""), self.why("web", outcomes=[(0, ANSWER), (0, "app=2\nold=1\nweb=1\n")]))
        text = "app=1 is not chosen, though it fits: app=2 is. The line `require app@1` changes the answer by\n+ app=1\n- app=2\n"
        self.assertEqual((1, text, ""), self.why("app=1", outcomes=[(0, ANSWER), (0, ANSWER.replace("app=2", "app=1"))]))

    def test_a_soft_line_that_is_taken(self):
        text = "line 13 is taken, old=1 is chosen:\nline 13: soft old=1 -> old=1\n"
        self.assertEqual((0, text, ""), self.why("--soft", "13", outcomes=[(0, ANSWER)]))

    def test_a_soft_line_that_is_left_out(self):
        hard = re.sub("soft .*\n", "", PROBLEM).replace("exclude old=1 too old\n", "")
        fixed = "\nrequire app@2\nrequire old@1"
        for number, wish, free in [(14, "web", hard), (15, "app@1", hard.replace("lock app=2\n", ""))]:
            tried = [free, free + fixed, hard + fixed]
            reasons = ["it does not fit the other lines", "it does not fit what was chosen before its turn"]
            reasons.append("its package was asked for before its turn, so that locks and exclusions count")
            for count, reason in enumerate(reasons):
                outcomes = [(0, ANSWER), (0, "app=2\nold=1\n")] + [(0, ANSWER)] * count + [(1, CONFLICT)]
                outcome = self.why("--soft", str(number), outcomes=outcomes)
                self.assertEqual((1, f"line {number} is left out: {reason}.\n{CONFLICT}", ""), outcome)
                before = PROBLEM.replace("soft app=1\n", "").replace("soft web\n", "" if number == 14 else "soft web\n")
                self.assertEqual([PROBLEM, before], self.asked[:2])
                self.assertEqual([f"{problem}\nrequire {wish}" for problem in tried[: count + 1]], self.asked[2:])

    def test_conditions(self):
        for condition, holds in CONDITIONS:
            self.assertEqual(holds, WHY["holds"](condition.split(), {"a": 1}), condition)

    def test_a_problem_without_an_answer(self):
        self.assertEqual((1, "the problem has no answer:\n" + CONFLICT, ""), self.why("app", outcomes=[(1, CONFLICT)]))

    def test_nothing_to_explain(self):
        self.assertEqual((2, "", "why: PROGRAM ended with status 2\n"), self.why("app", outcomes=[(2, "")]))
        self.assertEqual((2, "", "why: PROGRAM ended with status 1\n"), self.why("app", outcomes=[(1, "")]))
        for number in ("-2", "0", "1", "99"):
            self.assertEqual((2, "", f"why: line {number} is not a soft line\n"), self.why("--soft", number, outcomes=[(0, ANSWER)]))
        outcome = self.why("--soft", "15", outcomes=[(0, ANSWER)] * 5)
        self.assertEqual((2, "", "why: PROGRAM leaves line 15 out, and finds no conflict with it\n"), outcome)
        self.assertEqual(2, self.why("a b", outcomes=[])[0])
        self.assertEqual([], self.asked)

    def test_a_bad_statement_that_was_accepted(self):
        for line in ("requires", "require a if )"):
            outcome = self.why("--soft", "1", problem="soft a\n" + line, outcomes=[(0, "a=1\n")])
            self.assertEqual((2, "", "why: PROGRAM accepted a bad statement\n"), outcome)

    def test_what_cannot_be_opened_or_written(self):
        result = subprocess.run([sys.executable, TOOL, "--resolve", "./none", "none.txt", "a"], stdout=-1, stderr=-1)
        self.assertEqual((2, b"", b"why: [Errno 2] No such file or directory: 'none.txt'\n"), (result.returncode, result.stdout, result.stderr))
        result = subprocess.run([sys.executable, TOOL, "--resolve", "./none", TOOL, "a"], stdout=-1, stderr=-1)
        self.assertEqual((2, b"", b"why: [Errno 2] No such file or directory: './none'\n"), (result.returncode, result.stdout, result.stderr))
        with open("/dev/full", "w") as full:
            result = subprocess.run([sys.executable, TOOL, "/dev/null", "a", "--resolve", "echo"], stdout=full, stderr=-1)
        self.assertEqual((2, b"why: [Errno 28] No space left on device\n"), (result.returncode, result.stderr))


@unittest.skipUnless(RESOLVE, "asks the program: set RESOLVE to its path")
class Agreement(unittest.TestCase):
    """What `why` says of random problems, with the program."""

    def distances(self, problem, chosen, owners):
        """How many lines lead to each version at least, by the reading of `check-answer`."""
        checked = CHECK["Problem"](problem.splitlines(True), chosen)
        found = {}
        links = {None: [spec for spec, _ in checked.soft] if "soft" in owners else []}
        level = [None]
        for distance in range(1, 9):
            specs = [spec for owner in level for rule in checked.active(owner) for spec in rule[1]]
            specs += [spec for owner in level for spec in links.get(owner, ())]
            level = {(spec[0], chosen[spec[0]]) for spec in specs if CHECK["is_met"](spec, chosen)} - set(found)
            found.update(dict.fromkeys(level, distance))
        return {"{}={}".format(*version): distance for version, distance in found.items()}

    def test_random_problems(self):
        problems = Problems(4)
        seen = collections.Counter()
        for _ in range(INPUTS // 4):
            problem = problems.text(problems.random.randrange(4))
            lines = problem.split("\n")
            chosen, message = WHY["ask"](RESOLVE, lines)
            if message:
                continue
            far = {**self.distances(problem, chosen, ["soft"]), **self.distances(problem, chosen, [])}
            for line in lines:
                if line.startswith("package"):
                    self.check_version(lines, chosen, line[8:], far, seen)
            for number, line in enumerate(lines, 1):
                if line.startswith("soft"):
                    self.check_soft(lines, chosen, number, seen)
        self.assertGreater(min(seen[word] for word in ("chosen", "fits", "conflict", "taken", "left out")), INPUTS // 20, seen)

    def check_version(self, lines, chosen, version, far, seen):
        status, output = WHY["explain_version"](RESOLVE, lines, chosen, version)
        if chosen.get(version[0]) != int(version[2:]):
            self.assertEqual(1, status)
            seen["conflict" if "no answer" in output else "fits"] += 1
            return
        seen["chosen"] += 1
        steps = re.findall(r"line ([0-9]+): (.*) -> (.*)\n", output)
        self.assertEqual((0, far[version], version), (status, len(steps), steps[-1][2]), (lines, output))
        asker = None
        for number, text, reached in steps:
            self.assertEqual(lines[int(number) - 1], text)
            self.assertEqual(["requires", asker] if asker else [text.split()[0]], text.split()[: 2 if asker else 1])
            asker = reached

    def check_soft(self, lines, chosen, number, seen):
        status, output = WHY["explain_soft"](RESOLVE, lines, chosen, number)
        seen["left out" if status else "taken"] += 1
        self.assertIn("is left out: " if status else f"line {number} is taken, ", output)
        seen[output.split(": ")[1].split("\n")[0] if status else ""] += 1


if __name__ == "__main__":
    unittest.main()
