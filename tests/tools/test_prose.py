"""Limits on oblique phrases (tests/prose.py): of all documents, of all comments, and of each file."""

import os
import sys
import tempfile
import unittest

TOP = os.path.dirname(os.path.dirname(os.path.dirname(os.path.abspath(__file__))))
sys.path.insert(0, os.path.join(TOP, "tests"))
from prose import counted, files_of_git

# Phrases in 1,000 words.
DOCUMENTS = 4.0
EACH_FILE = 12.0
COMMENTS = 6.0


class Prose(unittest.TestCase):
    """The documents and the comments of the repository."""

    @classmethod
    def setUpClass(cls):
        cls.before = os.getcwd()
        os.chdir(TOP)

    @classmethod
    def tearDownClass(cls):
        os.chdir(cls.before)

    def test_documents_together(self):
        self.assertLessEqual(counted(files_of_git(("*.md",))).per_thousand(), DOCUMENTS)

    def test_each_file(self):
        for path in files_of_git() + [f"tools/{name}" for name in ("evpndctl", "try", "check", "seconds")]:
            with self.subTest(path=path):
                self.assertLessEqual(counted([path]).per_thousand(), EACH_FILE)

    def test_comments(self):
        self.assertLessEqual(counted(files_of_git(("*.rt", "*.antt", "*.py", "*.sh", "*.toml"))).per_thousand(), COMMENTS)

    def test_a_phrase_is_found_and_code_is_not(self):
        with tempfile.NamedTemporaryFile("w", suffix=".md", encoding="utf-8") as page:
            page.write("It is told anew.\n```\nWhat is told anew.\n```\nRun `anew` twice.\n")
            page.flush()
            count = counted([page.name])
        self.assertEqual((count.words, sum(count.found.values())), (7, 2))


if __name__ == "__main__":
    unittest.main()
