#!/usr/bin/env python3
"""Compares docs/PROVIDER.md with the worked provider: python3 tools/test_provider_page.py"""

import os
import re
import unittest

ROOT = os.path.dirname(os.path.dirname(os.path.realpath(__file__)))
PAGE = os.path.join(ROOT, "docs", "PROVIDER.md")
CRATE = "crates/resolve"
TESTS = f"{CRATE}/src/worked_provider/tests.rt"
# A path on a line of its own, and the file in a fence.
WHOLE_FILE = re.compile(r"^`(crates/[^`\n]+)`\n\n```\w*\n(.*?)^```$", re.MULTILINE | re.DOTALL)
FENCE = re.compile(r"^```\w*\n(.*?)^```$", re.MULTILINE | re.DOTALL)
MESSAGE = re.compile(r'let wanted = "(.*?)";', re.DOTALL)


def read(path):
    with open(os.path.join(ROOT, path), encoding="utf-8") as file:
        return file.read()


def files_of_provider():
    """The paths of its code, specs and proofs, without its tests."""
    proofs = []
    for folder, _, names in os.walk(os.path.join(ROOT, CRATE, "proofs", "worked_provider")):
        proofs += [os.path.relpath(os.path.join(folder, name), ROOT) for name in names]
    return {f"{CRATE}/src/worked_provider.rt", f"{CRATE}/specs/WorkedProvider.antt", *proofs}


class ProviderPage(unittest.TestCase):
    maxDiff = None

    def setUp(self):
        self.page = read(PAGE)
        self.blocks = WHOLE_FILE.findall(self.page)

    def test_each_file_is_shown_once(self):
        self.assertEqual(sorted(path for path, _ in self.blocks), sorted(files_of_provider()))

    def test_each_block_is_its_file(self):
        for path, text in self.blocks:
            with self.subTest(path):
                self.assertEqual(text, read(path))

    def test_code_comes_before_specs_and_proofs(self):
        parts = [path.split("/")[2] for path, _ in self.blocks]
        self.assertEqual(parts, sorted(parts, key=["src", "specs", "proofs"].index))

    def test_the_message_is_the_tested_one(self):
        messages = MESSAGE.findall(read(TESTS))
        self.assertEqual(len(messages), 1)
        self.assertIn(messages[0], FENCE.findall(self.page))


if __name__ == "__main__":
    unittest.main()
