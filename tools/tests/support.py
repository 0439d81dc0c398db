"""What the tests share: calls of the scripts, refusals, and repositories that are made for a test.

Expected values come from docs/FORMATS.md and the other pages, from files of the repository, or are worked out by hand; none
is what a script printed."""

import importlib.machinery
import importlib.util
import os
import shutil
import subprocess
import sys
import tempfile
import unittest
import xml.dom.minidom

from lib import pictures, repository
from lib.repository import OBSERVER, PROGRAM, SWEEPER


def needs(*tools):
    """Leaves a test out if one of some tools is not installed."""
    missing = [tool for tool in tools if shutil.which(tool) is None]
    return unittest.skipIf(missing, f"{', '.join(missing)} not installed")


def needs_program(*programs):
    """Leaves a test out if the program is not built."""
    missing = [program for program in programs or (PROGRAM,) if not repository.is_built(program)]
    return unittest.skipIf(missing, f"{', '.join(os.path.basename(program) for program in missing)} not built")


needs_observer = needs_program(PROGRAM, OBSERVER)


needs_sweeper = needs_program(PROGRAM, OBSERVER, SWEEPER)


needs_matplotlib = unittest.skipUnless(pictures.has_matplotlib(), "matplotlib not installed")


def loaded(tool):
    """A script as a module, for tests of what it has inside."""
    loader = importlib.machinery.SourceFileLoader(tool.replace("-", "_"), repository.path("tools", tool))
    module = importlib.util.module_from_spec(importlib.util.spec_from_loader(loader.name, loader))
    before, sys.dont_write_bytecode = sys.dont_write_bytecode, True
    try:
        loader.exec_module(module)
    finally:
        sys.dont_write_bytecode = before
    return module


class Done:
    """What a call came to: what it printed on both outputs, and its status."""

    def __init__(self, done):
        self.out, self.err, self.status = done.stdout, done.stderr, done.returncode


class ToolTest(unittest.TestCase):
    """A test of a script, with a folder of its own."""

    tool = ""
    tools = repository.path("tools")

    def setUp(self):
        self.folder = tempfile.mkdtemp(prefix="tools-test-")
        self.addCleanup(shutil.rmtree, self.folder, ignore_errors=True)

    def path(self, *names):
        return os.path.join(self.folder, *names)

    def file(self, name, content=""):
        """Writes a file, bytes or text; its path."""
        path = self.path(name)
        os.makedirs(os.path.dirname(path), exist_ok=True)
        with open(path, "wb") as file:
            file.write(content if isinstance(content, bytes) else content.encode())
        return path

    def script(self, name, text):
        """Writes a file that can be called."""
        path = self.file(name, text)
        os.chmod(path, 0o755)
        return path

    def read(self, name):
        with open(self.path(name), encoding="utf-8") as file:
            return file.read()

    def call(self, *words, tool=None, source="", **more):
        """Calls the script with some words."""
        command = [sys.executable, os.path.join(self.tools, tool or self.tool), *map(str, words)]
        return Done(subprocess.run(command, input=source, capture_output=True, text=True, **more))

    def prints(self, text, *words, status=0, **more):
        """The script prints this and nothing else, and ends so."""
        done = self.call(*words, **more)
        self.assertEqual((done.out, done.err, done.status), (text, "", status))

    def refuses(self, said, *words, status=2, **more):
        """The script refuses some words: in one line on standard error, which has its name and this, and with this status."""
        done = self.call(*words, **more)
        self.assertEqual(done.out, "")
        self.assertRegex(done.err, rf"\A{more.get('tool') or self.tool}[a-z ]*: .*\n\Z")
        self.assertIn(said, done.err)
        self.assertEqual(done.status, status)

    def has_help(self):
        """The help page is printed, and says what the exit statuses mean."""
        done = self.call("--help")
        self.assertEqual((done.err, done.status), ("", 0))
        self.assertIn("usage: ", done.out)
        self.assertRegex(done.out, r"Exit\s+status: ")

    def is_picture(self, name):
        """A file is a picture in SVG; its elements."""
        document = xml.dom.minidom.parse(self.path(name)).documentElement
        self.assertEqual(document.tagName, "svg")
        return document


class CopyTest(ToolTest):
    """A test in a repository that is made for it: the scripts are copied there, and the test writes the rest."""

    def setUp(self):
        super().setUp()
        self.tools = self.path("tools")
        shutil.copytree(repository.path("tools"), self.tools, ignore=shutil.ignore_patterns("__pycache__", "tests"))

    def program(self, text, name="crates/thynvm/out/thynvm"):
        """A script in place of the program, in the shell's language."""
        return self.script(name, f"#!/bin/sh\n{text}\n")

    def examples(self):
        """Copies the examples there."""
        shutil.copytree(repository.path("examples"), self.path("examples"))

    def crates(self):
        """Copies the code of the programs there that write under OUT."""
        for name in ("observe", "sweep"):
            shutil.copytree(repository.path("crates", name, "src"), self.path("crates", name, "src"))
        self.file("crates.txt", "observe:\nsweep:\n")
        self.file("HANDLES", "Handles allowed: none.\n")

    def beside(self, **programs):
        """An environment in whose PATH these scripts stand first."""
        for name, text in programs.items():
            self.script(f"bin/{name.replace('_', '-')}", f"#!/bin/sh\n{text}\n")
        return {**os.environ, "PATH": f"{self.path('bin')}:{os.environ['PATH']}"}

    def without_matplotlib(self):
        """An environment in which no python finds matplotlib."""
        self.file("hidden/matplotlib/__init__.py", "raise ImportError\n")
        return {**os.environ, "PYTHONPATH": self.path("hidden")}

    def without(self, *names):
        """An environment whose PATH has only these programs."""
        for name in ("python3", "sh", *names):
            os.makedirs(self.path("few"), exist_ok=True)
            found = shutil.which(name)
            if found and not os.path.exists(self.path("few", name)):
                os.symlink(os.path.realpath(found), self.path("few", name))
        return {**os.environ, "PATH": self.path("few")}
