"""Tests of resolve-debian."""

import os
import tempfile
import unittest

import testing

LISTS = [testing.sample(name) for name in ("debian_dists_bookworm_Packages", "debian_dists_bookworm-security_Packages", "status")]
PROGRAM = os.environ.get("RESOLVE")
ANSWER = """\
gcc-12-base=12.2.0-14+deb12u1
jq=1.6-2.1+deb12u3
libc6=2.36-9+deb12u14
libgcc-s1=12.2.0-14+deb12u1
libjq1=1.6-2.1+deb12u3
libonig5=6.9.8-1
"""
CLASH = """\
The following packages are incompatible
├─ exim4-daemon-light * can be installed with any of the following options:
│  └─ exim4-daemon-light 4.96-15+deb12u10
└─ postfix * cannot be installed because there are no viable options:
   └─ postfix 3.7.11-0+deb12u1 would constrain
      └─ exim4-daemon-light (none), which conflicts with any installable versions previously reported
"""


class Pipe(unittest.TestCase):
    """The pipe with a program of a few lines in the place of the solver."""

    def setUp(self):
        folder = tempfile.TemporaryDirectory()
        self.addCleanup(folder.cleanup)
        self.folder = folder.name

    def run_with(self, script, *arguments, environment=None):
        program = os.path.join(self.folder, "program")
        with open(program, "w") as file:
            file.write("#!/bin/sh\n" + script + "\n")
        os.chmod(program, 0o755)
        return testing.run("resolve-debian", *LISTS, *arguments, "--resolve", program, env=environment)

    def test_an_answer(self):
        self.assertEqual(self.run_with("grep -q '^require jq$' && echo jq=4", "--install", "jq"), (0, b"jq=1.6-2.1+deb12u3\n", b""))

    def test_a_message(self):
        self.assertEqual(self.run_with("echo 'jq 4, alas'; exit 1", "--install", "jq"), (1, b"jq 1.6-2.1+deb12u3, alas\n", b""))

    def test_the_status_and_errors_of_the_program(self):
        self.assertEqual(self.run_with("echo no memory >&2; exit 4", "--install", "jq"), (4, b"", b"no memory\n"))
        self.assertEqual(self.run_with("kill -9 $$", "--install", "jq")[0], 137)

    def test_the_status_of_from_debian(self):
        status, output, errors = self.run_with("echo jq=4", "--install", "a b")
        self.assertEqual((status, output), (2, b""))
        self.assertIn(b"from-debian: --install", errors)

    def test_a_program_that_is_not_there(self):
        environment = dict(os.environ, RESOLVE="/nowhere/resolve")
        status, output, errors = testing.run("resolve-debian", *LISTS, "--install", "jq", env=environment)
        self.assertEqual((status, output, errors), (127, b"", b"resolve-debian: /nowhere/resolve: No such file or directory\n"))

    def test_the_option_goes_before_the_variable(self):
        environment = dict(os.environ, RESOLVE="/nowhere/resolve")
        self.assertEqual(self.run_with("echo jq=2", "--install", "jq", environment=environment), (0, b"jq=1.6-2.1+deb12u2\n", b""))

    def test_a_closed_pipe(self):
        program = os.path.join(self.folder, "program")
        with open(program, "w") as file:
            file.write("#!/bin/sh\necho jq=4\n")
        os.chmod(program, 0o755)
        status, errors = testing.closed_pipe("resolve-debian", *LISTS, "--install", "jq", "--resolve", program)
        self.assertEqual((status, errors), (3, b"names: cannot write output\n"))

    def test_help(self):
        status, output, errors = testing.run("resolve-debian", "--help")
        self.assertEqual((status, errors), (0, b""))
        self.assertIn(b"--resolve PATH", output)


@unittest.skipUnless(PROGRAM, "the variable RESOLVE does not name a build of the program")
class Program(unittest.TestCase):
    def solve(self, *arguments):
        status, output, errors = testing.run("resolve-debian", *LISTS, *arguments)
        self.assertEqual(errors, b"")
        return status, output.decode()

    def test_an_answer(self):
        self.assertEqual(self.solve("--install", "jq"), (0, ANSWER))

    def test_a_clash(self):
        self.assertEqual(self.solve("--install", "exim4-daemon-light", "postfix"), (1, CLASH))

    def test_what_is_installed(self):
        kept = self.solve("--keep")[1].split()
        self.assertIn("jq=1.6-2.1+deb12u2", kept)
        self.assertIn("nano=7.2-1+deb12u1", kept)
        self.assertIn("jq=1.6-2.1+deb12u3", self.solve("--upgrade")[1].split())
        self.assertIn("jq=1.6-2.1+deb12u2", self.solve("--upgrade", "--hold", "jq")[1].split())

    def test_a_missing_version(self):
        self.assertEqual(self.solve("--install", "jq=9"), (1, "No candidates were found for jq =9.\n"))

    def test_a_soft_line(self):
        self.assertNotIn("libidn2-0", self.solve("--install", "nano")[1])
        self.assertIn("libidn2-0=2.3.3-1+b1", self.solve("--install", "nano", "--with-recommends")[1].split())


if __name__ == "__main__":
    unittest.main()
