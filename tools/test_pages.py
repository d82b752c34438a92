#!/usr/bin/env python3
"""Tests of the pages: their commands, links and figures. python3 tools/test_pages.py

Each command is run as it is written, and has to print what the page shows below it. Those that need the program are run if
the variable RESOLVE is its path. A command that is not run is in NOT_RUN, with the reason.
"""

import glob
import os
import re
import shlex
import shutil
import subprocess
import tempfile
import unittest

TOP = os.path.dirname(os.path.dirname(os.path.realpath(__file__)))
PROGRAM = os.environ.get("RESOLVE")
WITH_COMMANDS = ["README.md", "CONTRIBUTING.md", "docs/INPUT.md", "docs/TOOLS.md", "docs/REAL.md", "docs/SPEED.md", "docs/TESTING.md", "examples/README.md"]
PAGES = sorted(os.path.relpath(path, TOP) for pattern in ("*.md", "docs/*.md", "examples/*.md") for path in glob.glob(os.path.join(TOP, pattern)))

MINUTES = "compiles or proves, in minutes"
LISTS = "needs the package lists of Debian 12"
PART = "is a part of a command"
NOT_RUN = {
    "./check": MINUTES,
    ".ci/run": MINUTES,
    "./resolve": "waits for its input; without RESOLVE it proves and builds the program first",
    "./refusals": "needs builds of the program and its tests",
    "./sweep": "takes minutes and gigabytes",
    "cd crates/resolve && rt try < ../../examples/locks.txt": MINUTES,
    "cd crates/resolve && rt try --cases ../../examples": MINUTES,
    "for crate in resolver_clause_store resolver_report resolver_encoding resolvo; do (cd crates/$crate && rt lib); done": MINUTES,
    "rt check": MINUTES,
    "rt check --allow-holes": MINUTES,
    "rt ci": MINUTES,
    "rt plant": MINUTES,
    "rt tidy": MINUTES,
    "rt try": MINUTES,
    "rt try --cases ../../examples": MINUTES,
    "rt try --test": MINUTES,
    "rt doc": "asks the kit",
    "rt version": "asks the kit",
    "cd tools && python3 -m unittest": "runs this test",
    "git log --diff-filter=D -- '*.edit'": "asks git",
    "apt-get update": "needs a network",
    "apt-cache dumpavail > lists": LISTS,
    "tools/from-debian lists --install gnome > problem": LISTS,
    "./resolve < problem > answer": LISTS,
    "tools/names problem < answer": LISTS,
    "tools/resolve-debian lists --install gnome": LISTS,
    "tools/resolve-debian lists --install mariadb-server galera-3": LISTS,
    "tools/from-debian lists /var/lib/dpkg/status --keep": LISTS,
    "apt-get install -s --no-install-recommends": PART,
    "apt-get -s": PART,
    "valgrind --tool=cachegrind": PART,
    "time crates/resolve/out/resolve < input": "the reader's input",
}

# A line of a page that is a command though no prompt stands before it.
COMMAND = re.compile(r"(?:\.\.?/|\.ci/)[a-z-]+(?: |$)|(?:tools/[a-z-]+|[A-Z]+=\S+|apt-cache|apt-get|cd|cp|export|for|git|mkdir|python3|rt|time|valgrind) ")
# Words in capitals are for the reader to replace.
FORM = re.compile(r"\b[A-Z]{3,}\b")
HARMLESS = {"./resolve", "cat", "cd", "cp", "echo", "mkdir", "printf"}
NUMBERS = ["one", "two", "three", "four", "five", "six", "seven", "eight", "nine", "ten"]
OMISSION = re.compile(r"\((\S+) lines are left out here\)")


def text_of(page):
    with open(os.path.join(TOP, page), encoding="utf-8") as file:
        return file.read()


def blocks_of(page):
    """The blocks of indented lines, without the indentation."""
    block = []
    for line in text_of(page).split("\n") + [""]:
        if line.startswith("    "):
            block.append(line[4:])
        elif block:
            yield block
            block = []


def commands_of(block):
    """The commands of a block, each with the lines that it prints; None for a block without prompts, which shows none."""
    if any(line.startswith("$ ") for line in block):
        starts = [number for number, line in enumerate(block) if line.startswith("$ ")]
        for start, end in zip(starts, starts[1:] + [len(block)]):
            yield block[start][2:], block[start + 1 : end]
    else:
        for line in block:
            if COMMAND.match(line):
                yield line, None


def spans_of(page):
    """The text between backticks, outside of blocks."""
    text = "\n".join("" if line.startswith("    ") else line for line in text_of(page).split("\n"))
    return [span.replace("\n", " ") for span in re.findall(r"(?<!`)`([^`]+)`(?!`)", text)]


def sessions_of(page):
    """The commands that are run one after another in a folder: those of a block, or one between backticks."""
    for block in blocks_of(page):
        yield list(commands_of(block))
    for span in spans_of(page):
        if COMMAND.match(span) and not FORM.search(span):
            yield [(span, None)]


def programs_of(command):
    """The programs that a command runs."""
    words = shlex.shlex(command, posix=True, punctuation_chars=True)
    words.whitespace_split = True
    found, is_first = [], True
    for word in words:
        if is_first and word != "(":
            found.append(word)
        is_first = word in ("(", "|", ";", "&&", "||") or is_first and word == "("
    return found


def is_harmless(program):
    if os.path.dirname(program) in ("tools", ".."):
        return os.access(os.path.join(TOP, "tools", os.path.basename(program)), os.X_OK)
    return program in HARMLESS


def is_run(command):
    return command not in NOT_RUN and all(is_harmless(it) for it in programs_of(command))


def asks_program(command):
    return "out/resolve" in command or any(os.path.basename(it) in ("resolve", "resolve-debian", "why") for it in programs_of(command))


def lay_out(folder):
    """Puts into a folder what the commands need of the repository. Returns their environment."""
    for name in ("examples", "tools"):
        shutil.copytree(os.path.join(TOP, name), os.path.join(folder, name), ignore=shutil.ignore_patterns("__pycache__"))
    os.makedirs(os.path.join(folder, "crates/resolve/out"))
    if PROGRAM:
        for name in ("resolve", "crates/resolve/out/resolve"):
            os.symlink(os.path.abspath(PROGRAM), os.path.join(folder, name))
    # Without RESOLVE no tool may build the program.
    return dict(os.environ, HOME=folder, RESOLVE=os.path.join(folder, "resolve"), PYTHONDONTWRITEBYTECODE="1")


class Commands(unittest.TestCase):
    maxDiff = None

    def run_page(self, page, with_program):
        with tempfile.TemporaryDirectory() as top:
            environment = lay_out(top)
            for session in sessions_of(page):
                folder = top
                for command, shown in session:
                    if is_run(command) and (with_program or not asks_program(command)):
                        with self.subTest(f"{page}: {command}"):
                            folder = self.run_command(command, shown, folder, environment)

    def run_command(self, command, shown, folder, environment):
        """Runs a command and compares what it prints. Returns the folder for the next one."""
        moved = re.fullmatch(r"cd (\S+)", command)
        if moved:
            self.assertTrue(os.path.isdir(os.path.join(folder, moved[1])))
            return os.path.join(folder, moved[1])
        told = re.fullmatch(r"cat ([a-z]+)", command)
        if told:
            # The page says what the reader has in this file.
            with open(os.path.join(folder, told[1]), "w", encoding="utf-8") as file:
                file.write("".join(line + "\n" for line in shown))
            return folder
        result = subprocess.run(
            ["bash", "-c", command], cwd=folder, env=environment, stdin=subprocess.DEVNULL, stdout=subprocess.PIPE, stderr=subprocess.STDOUT, timeout=60
        )
        lines = result.stdout.decode("utf-8").splitlines()
        if not shown:
            self.assertEqual(result.returncode, 0, lines)
        if shown is not None:
            self.assertEqual(lines, self.with_omitted(shown, lines))
        return folder

    def with_omitted(self, shown, lines):
        """The lines that a page shows, with those that it leaves out put in."""
        whole = []
        for line in shown:
            match = OMISSION.fullmatch(line)
            if match:
                count = NUMBERS.index(match[1]) + 1 if match[1] in NUMBERS else int(match[1].replace(",", ""))
                whole += lines[len(whole) : len(whole) + count]
            else:
                whole.append(line)
        return whole

    def test_without_the_program(self):
        for page in WITH_COMMANDS:
            self.run_page(page, with_program=False)

    @unittest.skipUnless(PROGRAM, "asks the program: set RESOLVE to its path")
    def test_with_the_program(self):
        for page in WITH_COMMANDS:
            self.run_page(page, with_program=True)

    def test_each_command_is_run_or_listed(self):
        found = {command for page in WITH_COMMANDS for session in sessions_of(page) for command, _ in session}
        self.assertEqual({it for it in found if not is_run(it)} - set(NOT_RUN), set(), "neither run nor listed")
        self.assertEqual(set(NOT_RUN) - found, set(), "listed, but in no page")

    def test_no_other_page_has_commands_with_output(self):
        for page in set(PAGES) - set(WITH_COMMANDS):
            for block in blocks_of(page):
                self.assertFalse(block[0].startswith("$ "), page)


class Links(unittest.TestCase):
    def test_links_lead_to_files(self):
        for page in PAGES:
            for target in re.findall(r"\]\(([^)\s]+)\)", text_of(page)):
                if not re.match("https?://", target):
                    with self.subTest(f"{page}: {target}"):
                        path, _, anchor = target.partition("#")
                        path = os.path.join(os.path.dirname(page), path) if path else page
                        self.assertTrue(os.path.exists(os.path.join(TOP, path)))
                        if anchor:
                            self.assertIn(anchor, self.anchors_of(path))

    def anchors_of(self, page):
        titles = re.findall(r"^#+ (.*)$", text_of(page), re.MULTILINE)
        return [re.sub(r"[^\w -]", "", title.lower()).replace(" ", "-") for title in titles]

    def test_paths_exist(self):
        """Paths between backticks, from the top or, of crates and proofs, with a star."""
        for page in PAGES:
            for span in spans_of(page):
                path = re.match(r"(?:\./[a-z]+|(?:\.ci|crates|docs|examples|tools)/[\w./*-]*)", span)
                if path and "/out/" not in path[0]:
                    with self.subTest(f"{page}: {span}"):
                        self.assertTrue(glob.glob(os.path.join(TOP, path[0])))


def edits():
    """The names of the must-fail edits, one for each file."""
    return [os.path.basename(path)[: -len(".edit")] for path in glob.glob(os.path.join(TOP, "crates/*/must-fail/*.edit"))]


class Promise(unittest.TestCase):
    def rows(self):
        table = text_of("README.md").split("| Claim | Definition (lines) | A body that is refused |\n|---|---|---|\n")[1]
        return [line.strip("|").split(" | ") for line in table.split("\n\n")[0].split("\n")]

    def test_definitions_have_their_lines(self):
        for claim, definitions, _ in self.rows():
            found = re.findall(r"\[(\w+)\]\((\S+)\) \((\d+)\)", definitions)
            self.assertTrue(found, claim)
            for name, path, lines in found:
                with self.subTest(path):
                    self.assertEqual(os.path.basename(path), f"{name}.antt")
                    self.assertEqual(text_of(path).count("\n"), int(lines))

    def test_edits_exist(self):
        known = edits()
        for claim, _, cell in self.rows():
            found = re.findall("`(.*?)`", cell)
            self.assertTrue(found, claim)
            for name in found:
                with self.subTest(name):
                    self.assertIn(name, known)

    def test_edits_are_told_of(self):
        told = re.search(r"There are (\d+)\.", text_of("docs/TESTING.md"))
        self.assertEqual(int(told[1]), len(edits()))
        self.assertEqual(set(edits()) - set(spans_of("docs/TESTING.md")), set())


if __name__ == "__main__":
    unittest.main()
