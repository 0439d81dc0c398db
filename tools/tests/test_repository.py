"""Where the repository and its programs are."""

import os
import unittest

from lib import repository
from tests.support import needs


class Repository(unittest.TestCase):
    def test_places(self):
        self.assertTrue(os.path.samefile(repository.TOP, os.path.join(os.path.dirname(__file__), "../..")))
        self.assertTrue(os.path.exists(repository.SCRIPT))
        self.assertEqual(repository.example("greet", "name"), repository.path("examples/greet/name"))
        self.assertEqual(repository.SMALLEST, repository.path("examples/exit_seven/exit_seven.elf"))

    def test_texts(self):
        self.assertTrue(repository.text_of("docs/FORMATS.md").startswith("# Formats\n"))
        self.assertTrue(repository.help_page().startswith("usage: thynvm run FILE"))

    def test_what_is_built(self):
        self.assertTrue(repository.is_built(repository.SCRIPT))
        self.assertFalse(repository.is_built("/none"))

    @needs("git")
    def test_what_the_repository_keeps(self):
        self.assertTrue({"thynvm", "tools/lib/repository.py"} <= set(repository.tracked()))
