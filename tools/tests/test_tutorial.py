"""tools/tutorial, in a repository with a page of its own."""

from tests.support import CopyTest

PAGE = """# A page

    $ mkdir tutorial && echo one && echo two >&2
    one
    two

Then:

    $ ls tutorial

    $ printf 'a\\n\\nb  \\n'
    a

    b

The end.
"""


class Tutorial(CopyTest):
    tool = "tutorial"

    def page(self, text):
        self.file("docs/TUTORIAL.md", text)

    def test_help(self):
        self.has_help()

    def test_a_page_that_holds(self):
        self.page(PAGE)
        self.prints("")
        self.assertEqual(self.read("docs/TUTORIAL.md"), PAGE)

    def test_a_page_that_does_not(self):
        self.page(PAGE.replace("    two\n", "    three\n"))
        said = "$ mkdir tutorial && echo one && echo two >&2\n  stands there:\n    one\n    three\n  it prints:\n    one\n    two\n"
        self.prints(said, status=1)

    def test_writing(self):
        self.page(PAGE.replace("    two\n", ""))
        done = self.call("--write")
        self.assertEqual((done.err, done.status, self.read("docs/TUTORIAL.md")), ("", 0, PAGE))

    def test_the_other_page(self):
        self.file("docs/DEBUGGING.md", PAGE)
        self.page("    $ echo other\n")
        self.prints("", "debugging")

    def test_what_is_left_there_goes(self):
        self.page(PAGE)
        self.file("tutorial/old")
        self.prints("")

    def test_refusals(self):
        self.refuses("there is no page x: the pages are tutorial, debugging", "x")
        self.refuses("unrecognized arguments: y", "tutorial", "y")
