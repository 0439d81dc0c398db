"""A line on standard error that says how far something is: on a terminal it is written anew, else there is one each minute."""

import os
import sys


def in_words(seconds):
    """A time in words, as the script has it."""
    seconds = int(seconds)
    return f"{seconds} s" if seconds < 60 else f"{seconds // 60} min {seconds % 60} s"


def say(text):
    """Prints a line of the script's own."""
    print(f"thynvm: {text}", file=sys.stderr, flush=True)


class Line:
    """The line below all that is written."""

    def __init__(self):
        self.is_drawn, self.minutes = False, 0

    def draw(self, text):
        """Writes it anew, cut to the columns of the terminal."""
        columns = os.get_terminal_size(2).columns or 80
        os.write(2, b"\r\033[K" + f"thynvm: {text}"[: columns - 1].encode("utf-8", "replace"))
        self.is_drawn = True

    def wipe(self):
        if self.is_drawn:
            os.write(2, b"\r\033[K")
        self.is_drawn = False

    def show(self, seconds, text):
        """Shows what a function returns, if it is time for that."""
        if os.isatty(2):
            self.draw(text())
        elif seconds // 60 > self.minutes:
            self.minutes = seconds // 60
            say(text())
