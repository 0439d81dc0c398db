"""README.md and the pictures of the documents: nothing is called here."""

import glob
import os
import re

from lib import repository
from tests.support import ToolTest

# A picture in a page: its text, and its file as seen from the page.
SHOWN = re.compile(r"^!\[([^\]]+)\]\(([^)]+)\)$", re.M)


class Documents(ToolTest):
    def pictures(self):
        """The pictures of all pages, as they are seen from the top."""
        pages = ["README.md", *sorted(f"docs/{name}" for name in os.listdir(repository.path("docs")) if name.endswith(".md"))]
        for page in pages:
            for _, name in SHOWN.findall(repository.text_of(page)):
                yield page, os.path.normpath(os.path.join(os.path.dirname(page), name))

    def test_readme_is_short(self):
        self.assertLessEqual(len(repository.text_of("README.md").splitlines()), 80)

    def test_pictures(self):
        for page, name in self.pictures():
            with self.subTest(page=page, name=name):
                self.is_picture(repository.path(name))

    def test_each_picture_is_shown(self):
        there = {os.path.relpath(path, repository.TOP) for path in glob.glob(repository.path("docs", "*.svg"))}
        self.assertEqual(there, {name for _, name in self.pictures()})
