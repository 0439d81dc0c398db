"""Which calls go over an NVM whose blocks a cut may tear, and how."""

import unittest

from lib import torn


class Torn(unittest.TestCase):
    def test_calls_that_go_over_it(self):
        for words in (["run", "file", "--tears", "7"], ["resume", "image"], ["bench", "7"]):
            wanted = ["observe", "/dev/null", "--torn", *words]
            self.assertEqual(torn.command("thynvm", "observe", words), wanted)
            self.assertEqual(torn.command("thynvm", None, words), ["thynvm", *words])

    def test_calls_that_do_not(self):
        for words in ([], ["plain", "file"], ["run", "file", "--gap", "3"], ["run", "file", "--gap=3"], ["run", "/dev/null"]):
            self.assertEqual(torn.command("thynvm", "observe", words), ["thynvm", *words])
