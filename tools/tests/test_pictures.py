"""Pictures: their names, colours, and what draws them."""

import unittest
from unittest import mock

from lib import pictures


class Pictures(unittest.TestCase):
    def test_names(self):
        self.assertEqual(
            [pictures.is_name(f"a.{end}") for end in ("svg", "pdf", "png", "gif", "svg.gz")], [True, True, True, False, False]
        )

    def test_colours(self):
        names = ["thynvm", "mine", "journal", "other"]
        found = [pictures.colour_of(name, names) for name in names]
        self.assertEqual(found[0], pictures.COLOURS["thynvm"])
        self.assertEqual(found[2], pictures.COLOURS["journal"])
        self.assertEqual(len(set(found)), 4)

    def test_texts(self):
        self.assertEqual(pictures.plain("$a_b$"), "\\$a_b\\$")

    def test_who_draws(self):
        with mock.patch.object(pictures, "found", return_value=True):
            pictures.ready()
        with mock.patch.object(pictures, "found", return_value=False), mock.patch.object(pictures, "DEBIAN", "/none/python3"):
            with self.assertRaises(pictures.Missing) as fault:
                pictures.ready()
        self.assertEqual(fault.exception.status, 2)
        # Debian's python has it, and another one runs this.
        with mock.patch.object(pictures, "found", return_value=False), mock.patch("os.execv") as execv, mock.patch(
            "sys.argv", ["tool", "a"]
        ):
            with mock.patch.object(pictures, "DEBIAN", "/bin/true"), self.assertRaises(pictures.Missing):
                # (It comes back here, as it does in no call.)
                pictures.ready()
        execv.assert_called_once_with("/bin/true", ["/bin/true", "tool", "a"])
