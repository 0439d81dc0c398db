"""tools/version-one: its images are read again by the rules of docs/FORMATS.md, without lib/images.py."""

import hashlib
import os
import struct

from tests.support import CopyTest, ToolTest, needs_program

NAMES = ["least-even", "least-odd", "least-running", "default-even", "default-running", "late", "nine-stores"]

# A program that answers as the report beside the image says, or of an image of this name otherwise.
PROGRAM = """
case $2 in *{wrong}*) echo wrong >&2 ;; *) cat "${{2%.image}}.report" >&2 ;; esac
"""


def words(data, first, many):
    return struct.unpack_from(f"<{many}Q", data, 8 * first)


def memory_of(data):
    """Epoch, count and program memory of an image of version 1 that is right."""
    name, version, base, pages, console, btt, ptt, last = words(data, 0, 8)
    assert (name, version, last) == (int.from_bytes(b"THYNHDR1", "little"), 1, 0)
    commit, epoch = words(data, 8, 2)
    assert commit == int.from_bytes(b"THYNCMT1", "little") and words(data, 10, 6) == (0,) * 6
    size = 5 + btt // 8 + ptt // 8
    slot, homes = 2 + size * (epoch % 2), 2 + 2 * size
    assert len(data) == 64 * (homes + 64 * pages + btt + 64 * ptt)
    listed = words(data, 8 * (slot + 5), btt + ptt)
    block_of = {entry - 1: i for i, entry in enumerate(listed[:btt]) if entry}
    page_of = {entry - 1: j for j, entry in enumerate(listed[btt:]) if entry}
    assert len(block_of) == len([entry for entry in listed[:btt] if entry])
    assert not {block // 64 for block in block_of} & set(page_of)
    memory = b""
    for b in range(64 * (pages - console)):
        place = homes + b
        if b // 64 in page_of:
            place = homes + 64 * pages + btt + 64 * page_of[b // 64] + b % 64
        if b in block_of:
            place = homes + 64 * pages + block_of[b]
        memory += data[64 * place : 64 * place + 64]
    return epoch, words(data, 8 * slot + 32, 1)[0], memory


class VersionOne(CopyTest):
    tool = "version-one"

    def test_help(self):
        self.has_help()

    def test_what_is_written(self):
        self.prints("", self.path("images"))
        self.assertEqual(sorted(os.listdir(self.path("images"))), sorted(f"{name}.{end}" for name in NAMES for end in ("image", "options", "report")))
        for name in NAMES:
            with open(self.path("images", f"{name}.image"), "rb") as file:
                epoch, count, memory = memory_of(file.read())
            report = self.read(f"images/{name}.report").splitlines()
            with self.subTest(name=name):
                self.assertEqual(report[0], f"restart {epoch} at {count}")
                self.assertEqual(report[1], f"memory {hashlib.sha256(memory).hexdigest()}")
                self.assertEqual(report[-1], report[1])

    def test_options(self):
        self.call(self.path("images"))
        self.assertEqual(self.read("images/least-odd.options"), "--base 65536 --pages 9 --console 1 --btt 8 --ptt 8\n")
        self.assertEqual(self.read("images/late.options"), "--base 65536 --pages 16 --console 2 --btt 16 --ptt 8\n")

    def test_two_reports(self):
        self.call(self.path("images"))
        # One that had ended, and one that runs three instructions more.
        ended, running = (self.read(f"images/{name}.report").splitlines() for name in ("least-even", "least-running"))
        self.assertEqual([ended[0], ended[2]], ["restart 2 at 1234", "exit 7 at 1234"])
        self.assertEqual(running[2:5], ["epoch 6 ends at 1237 by end", "commit 6 overlapped 0", "exit 7 at 1237"])

    def check(self, wrong):
        self.program(PROGRAM.format(wrong=wrong))
        return self.call("--check", self.path("images"))

    def test_checks(self):
        done = self.check("none")
        self.assertEqual((done.out, done.err, done.status), ("", "", 0))
        done = self.check("late")
        self.assertEqual((done.err, done.status), ("", 1))
        self.assertIn("late.image --base 65536 --pages 16 --console 2 --btt 16 --ptt 8 --digest: status 0, and reported\nwrong\nin place of\nrestart ", done.out)

    def test_refusals(self):
        self.refuses("the following arguments are required: DIR")
        self.refuses("unrecognized arguments: x", "a", "x")
        self.refuses("File exists", self.file("images"))
        self.refuses("there is no program", "--check", self.path("other"))
        self.refuses("there is no program /none", "--check", "--program", "/none", self.path("other"))
        self.assertFalse(os.path.exists(self.path("other")))


@needs_program()
class WithTheProgram(ToolTest):
    tool = "version-one"

    def test_checks(self):
        self.prints("", "--check", self.path("images"))
