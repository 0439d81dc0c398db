"""Draws that are the same with each version of Python."""

import random


class Draw(random.Random):
    """A generator of draws, from a seed."""

    def randbytes(self, many):
        """So many drawn bytes. (Python has this from 3.9 on.)"""
        return self.getrandbits(8 * many).to_bytes(many, "little") if many else b""
