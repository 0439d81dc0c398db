"""Draws."""

import unittest

from lib.drawing import Draw


class Drawing(unittest.TestCase):
    def test_the_same_seed_draws_the_same(self):
        self.assertEqual(Draw("1 elf 0").randbytes(9), Draw("1 elf 0").randbytes(9))
        self.assertNotEqual(Draw("1 elf 0").randbytes(9), Draw("1 elf 1").randbytes(9))

    def test_bytes(self):
        draw, other = Draw(5), Draw(5)
        self.assertEqual(draw.randbytes(0), b"")
        self.assertEqual(draw.randbytes(4), other.getrandbits(32).to_bytes(4, "little"))
