"""tools/package: what it refuses and makes in a repository of a few files, and what is installed, with the built programs."""

import glob
import gzip
import os
import re
import shlex
import shutil
import stat
import subprocess
import tarfile
import tempfile
import time
import unittest

from lib import repository
from lib.packaging import completions, contents, manual, pages
from lib.repository import OBSERVER, PROGRAM, SWEEPER
from tests.support import CopyTest, ToolTest, needs, needs_sweeper

KIT = "a-kit logic 0123"

# What docs/USING.md has in its table of "The example", without the lines of the console.
REPORT = """commit 0 overlapped 0
epoch 1 ends at 240 by length
commit 1 overlapped 70
epoch 2 ends at 480 by length
cut 1 at cycle 2200
restart 1 at 240
epoch 2 ends at 480 by length
commit 2 overlapped 70
epoch 3 ends at 666 by end
commit 3 overlapped 0
exit 5 at 666
"""

# The commands that a package needs to run: no rt is among them.
FEW = ("bash", "cat", "dirname", "env", "python3", "readlink")


def made_program(processor=62, names=(b"GLIBC_2.2.5", b"GLIBC_2.34", b"GLIBC_2.14")):
    """The begin of an ELF file, and names of versions as its strings have them."""
    start = b"\x7fELF\x02\x01\x01".ljust(16, b"\0") + b"\x03\0" + processor.to_bytes(2, "little")
    return start + b"".join(b"\0" + name for name in names) + b"\0"


def commit(folder):
    """Makes a folder a repository of git, with all that is in it but for programs."""
    about = {}
    for who, name in (("AUTHOR", "A B"), ("COMMITTER", "C")):
        about.update({f"GIT_{who}_NAME": name, f"GIT_{who}_EMAIL": "a@example", f"GIT_{who}_DATE": "1900000000 +0000"})
    quiet = {**os.environ, "GIT_CONFIG_NOSYSTEM": "1", "HOME": folder, **about}
    for words in (["init", "-q"], ["add", "."], ["commit", "-q", "-m", "One"]):
        subprocess.run(["git", *words], cwd=folder, env=quiet, check=True, stdin=subprocess.DEVNULL)


@needs("git", "dpkg-deb")
class Making(CopyTest):
    """In a repository of a few files, with programs that are none."""

    tool = "package"

    def setUp(self):
        super().setUp()
        shutil.copy(repository.path("thynvm"), self.path("thynvm"))
        self.file(".gitignore", "out/\nfew/\nbin/\nmade/\n")
        self.file("CHANGELOG.md", "# Changelog\n\n## 2 March 2031\n\n## 1 March 2031\n")
        self.file("README.md", "Read.\n")
        self.file("docs/A.md", "A\n")
        self.file("crates.txt", "# a comment\nlow:\nthynvm: low\nobserve: low\nsweep: low\nother:\n")
        for crate in ("low", "thynvm", "observe", "sweep", "other"):
            self.file(f"crates/{crate}/src/main.rt")
        self.script("examples/one/one.elf", "elf")
        self.file("few/x")
        commit(self.folder)
        for name in contents.PROGRAMS:
            self.built(name, made_program())
        self.env = self.beside(rt=f"echo '{KIT}'")

    def built(self, name, content):
        path = self.file(f"crates/{name}/out/{name}", content)
        os.chmod(path, 0o755)
        # Later than all that was written before, whatever the clock of the files.
        os.utime(path, (time.time() + 60, time.time() + 60))

    def made(self, *words, folder="made"):
        """Makes the packages; the names of the files there."""
        done = self.call(*words, self.path(folder), env=self.env)
        self.assertEqual((done.err, done.status), ("", 0))
        return done.out.splitlines(), sorted(os.listdir(self.path(folder)))

    def refused(self, said, *words, status=1, env=None):
        self.refuses(said, *(words or (self.path("made"),)), status=status, env=env or self.env)
        self.assertFalse(os.path.exists(self.path("made")))

    def archive(self, folder="made"):
        return tarfile.open(self.path(folder, "thynvm-2031.03.02-x86_64.tar.gz"))

    def test_help(self):
        self.has_help()

    def test_both(self):
        lines, names = self.made()
        self.assertEqual(names, ["thynvm-2031.03.02-x86_64.tar.gz", "thynvm_2031.03.02_amd64.deb"])
        self.assertEqual(lines[:2], [self.path("made", name) for name in names])
        self.assertEqual(lines[2:], ["needs Linux on x86_64 with glibc 2.34 or later"])

    def test_the_tarball_alone(self):
        lines, names = self.made("--tarball")
        self.assertEqual((len(lines), names), (2, ["thynvm-2031.03.02-x86_64.tar.gz"]))

    def test_same_bytes(self):
        self.made()
        before = os.umask(0o077)
        try:
            _, names = self.made(folder="again")
        finally:
            os.umask(before)
        for name in names:
            with open(self.path("made", name), "rb") as one, open(self.path("again", name), "rb") as other:
                self.assertTrue(one.read() == other.read(), name)

    def test_what_is_in_the_tarball(self):
        self.file("docs/not-known-to-git", "")
        self.made("--tarball")
        with self.archive() as archive:
            members = {entry.name.partition("/")[2]: entry for entry in archive.getmembers() if entry.isfile()}
            text = {name: archive.extractfile(entry).read() for name, entry in members.items()}
        command = ["git", "-C", self.folder, "rev-parse", "--short=12", "HEAD"]
        head = subprocess.run(command, capture_output=True, text=True).stdout
        said = f"thynvm of 2 March 2031\ncommit {head}kit {KIT}\nneeds Linux on x86_64 with glibc 2.34 or later\n"
        self.assertEqual(text["VERSION"].decode(), said)
        same = ("thynvm", "README.md", "CHANGELOG.md", "docs/A.md", "examples/one/one.elf", "tools/image", "tools/lib/options.py")
        for name in same:
            with open(self.path(name), "rb") as file:
                self.assertEqual(text[name], file.read(), name)
        for name in contents.PROGRAMS:
            self.assertEqual((text[f"bin/{name}"], members[f"bin/{name}"].mode), (made_program(), 0o755))
        modes = {"examples/one/one.elf": 0o755, "thynvm": 0o755, "README.md": 0o644, "man/man1/thynvm.1": 0o644}
        self.assertEqual({name: members[name].mode for name in modes}, modes)
        self.assertEqual({(entry.uid, entry.gid, entry.mtime) for entry in members.values()}, {(0, 0, 1900000000)})
        left = ("docs/not-known-to-git", "tools/package", "tools/quick-rt", "tools/lib/lint/map.py", "crates.txt", "COPYING")
        for name in left:
            self.assertNotIn(name, members)
        for name in ("man/man1/thynvm-image.1", "completion/thynvm.bash", "completion/_thynvm"):
            self.assertIn(name, members)

    def test_what_is_in_the_debian_package(self):
        self.made()
        package = self.path("made", "thynvm_2031.03.02_amd64.deb")
        field = lambda name: subprocess.run(["dpkg-deb", "-f", package, name], capture_output=True, text=True).stdout.strip()
        for name, wanted in (
            *(("Package", "thynvm"), ("Version", "2031.03.02"), ("Architecture", "amd64"), ("Maintainer", "A B <a@example>")),
            ("Depends", "libc6 (>= 2.34), python3 (>= 3.8)"),
        ):
            self.assertEqual(field(name), wanted)
        subprocess.run(["dpkg-deb", "-x", package, self.path("root")], check=True)
        for name, wanted in (
            ("usr/bin/thynvm", "../lib/thynvm/thynvm"),
            ("usr/bin/thynvm-image", "../lib/thynvm/tools/image"),
            ("usr/share/doc/thynvm/docs", "../../../lib/thynvm/docs"),
        ):
            self.assertEqual(os.readlink(self.path("root", name)), wanted)
            self.assertTrue(os.path.exists(self.path("root", name)))
        with self.archive() as archive:
            page = archive.extractfile("thynvm-2031.03.02-x86_64/man/man1/thynvm.1").read()
        with gzip.open(self.path("root/usr/share/man/man1/thynvm.1.gz")) as file:
            self.assertEqual(file.read(), page)
        for name in ("usr/share/bash-completion/completions/thynvm", "usr/share/zsh/vendor-completions/_thynvm"):
            self.assertTrue(os.path.isfile(self.path("root", name)))
        for name in ("thynvm", "observe", "sweep"):
            self.assertEqual(stat.S_IMODE(os.stat(self.path("root/usr/lib/thynvm/bin", name)).st_mode), 0o755)
        self.assertFalse(glob.glob(self.path("root/usr/share/doc/thynvm/copyright")))

    def test_changes_that_are_not_committed(self):
        self.file("docs/A.md", "B\n")
        self.made("--tarball")
        with self.archive() as archive:
            version = archive.extractfile("thynvm-2031.03.02-x86_64/VERSION").read().decode()
        self.assertRegex(version, r"(?m)^commit [0-9a-f]{12}, and changes that are not committed$")

    def test_another_processor(self):
        for name in contents.PROGRAMS:
            self.built(name, made_program(183, (b"GLIBC_2.17", b"GLIBC_2.9")))
        self.assertEqual(self.made()[0][-1], "needs Linux on aarch64 with glibc 2.17 or later")
        self.assertTrue(os.path.exists(self.path("made/thynvm_2031.03.02_arm64.deb")))

    def test_programs_that_are_not_built(self):
        for name in ("sweep", "observe"):
            path = self.path("crates", name, "out", name)
            os.remove(path)
            self.refused(f"there is no program {path}: `rt ci` builds it")

    def test_programs_that_are_too_old(self):
        later = time.time() + 120
        os.utime(self.path("crates/low/src/main.rt"), (later, later))
        self.refused(f"the program {self.path('crates/thynvm/out/thynvm')} is older than its crate low: `rt ci` builds it anew")
        # The script notes when it began to build, and goes by that.
        for name in contents.PROGRAMS:
            path = self.file(f"crates/{name}/out/{name}.built", "")
            os.utime(path, (later + 1, later + 1))
        self.made()

    def test_programs_that_are_older_than_the_list_of_crates(self):
        later = time.time() + 120
        os.utime(self.path("crates.txt"), (later, later))
        said = "the program {} is older than crates.txt: `rt ci` builds it anew"
        self.refused(said.format(self.path("crates/thynvm/out/thynvm")))
        # The script notes of each program what crates.txt said of its crates.
        self.file("crates/thynvm/out/thynvm.built", "low:\nthynvm: low\n")
        self.file("crates/observe/out/observe.built", "low: other\nobserve: low\n")
        self.refused(said.format(self.path("crates/observe/out/observe")))
        self.file("crates/observe/out/observe.built", "low:\nobserve: low\n")
        self.file("crates/sweep/out/sweep.built", "low:\nsweep: low\n")
        self.made()

    def test_programs_that_are_none(self):
        for content, said in (
            (b"#!/bin/sh\n", "the programs are not all for one processor that is known here"),
            (made_program(183), "the programs are not all for one processor that is known here"),
            (made_program(names=()), None),
        ):
            self.built("observe", content)
            if said:
                self.refused(said)
        for name in contents.PROGRAMS:
            self.built(name, made_program(names=()))
        self.refused("the programs name no version of glibc")

    def test_what_a_package_has_to_say(self):
        self.refused("this is missing: the kit, which rt names, and rt is not in PATH or fails", env=self.beside(rt="exit 1"))
        self.env = self.beside(rt=f"echo '{KIT}'")
        self.file("CHANGELOG.md", "# Changelog\n")
        self.refused("this is missing: a date in CHANGELOG.md")
        self.file("CHANGELOG.md", "## Soon\n")
        self.refused("CHANGELOG.md begins with a date that cannot be read: Soon")
        self.file("CHANGELOG.md", "## 2 March 2031\n")
        shutil.rmtree(self.path(".git"))
        self.refused("this is missing: a commit of git")

    def test_usage(self):
        self.refused("the following arguments are required: FOLDER", "--tarball", status=2)
        self.refused("unrecognized arguments: b", "a", "b", status=2)
        few = {**self.without("bash", "cat", "dirname", "env", "git", "readlink", "sed", "head")}
        self.refused("dpkg-deb is not in PATH; --tarball makes the tarball alone", status=2, env=few)

    def test_a_folder_that_cannot_be(self):
        self.file("taken")
        self.refused("taken", self.path("taken"))

    def test_dpkg_deb_that_fails(self):
        self.env = self.beside(rt=f"echo '{KIT}'", dpkg_deb="echo wrong >&2; exit 2")
        done = self.call(self.path("made"), env=self.env)
        self.assertEqual((done.out, done.err, done.status), ("", "package: dpkg-deb has failed: wrong\n", 1))


class Lists(unittest.TestCase):
    """What is in a package of this repository."""

    def test_scripts_that_are_left_out(self):
        for name in contents.FOR_DEVELOPERS:
            self.assertTrue(os.path.isfile(repository.path("tools", name)), name)
        for name in contents.THEIR_MODULES:
            self.assertTrue(os.path.isdir(repository.path("tools", "lib", name)), name)


class Pages(unittest.TestCase):
    """Manual pages, of help pages that were written by hand."""

    def test_rows(self):
        lines = ["run FILE     runs a", "             program", "resume IMAGE runs on"]
        self.assertEqual(pages.rows_of(lines), [("run FILE", "runs a program"), ("resume IMAGE", "runs on")])
        lines = ["  -h, --help  show", "  --around {a,b}", "              cut there"]
        self.assertEqual(pages.rows_of(lines, long_terms=True), [("-h, --help", "show"), ("--around {a,b}", "cut there")])
        self.assertEqual(pages.rows_of(["a  b"]), [("a", "b")])
        for lines in (["A text that", "goes on"], ["  ./thynvm run a", "  ./thynvm run b"], ["a  b", "        c", "  d"]):
            self.assertIsNone(pages.rows_of(lines))

    def test_table(self):
        page = """usage: x

  option      default      range                            meaning
  --base      65536        multiple of 4096, below 2^62     address of the first
  --cuts      none         at most 64 numbers, rising,      cycles: all
                           above 0
  --digest    off          a flag, with no value            says it
"""
        self.assertEqual(
            pages.options_in(page),
            {
                "base": ("65536", "multiple of 4096, below 2^62", "address of the first"),
                "cuts": ("none", "at most 64 numbers, rising, above 0", "cycles: all"),
                "digest": ("off", "a flag, with no value", "says it"),
            },
        )

    def test_short_texts(self):
        for text, short in (
            ("before a call: leaves it out of its report. The", "leaves it out of its report"),
            ("runs a program (RV64IM) on", "runs a program"),
            ("a page; so", "a page"),
            ("of 2.5 and", "of 2.5 and"),
        ):
            self.assertEqual(pages.shortly(text), short)

    def test_page(self):
        text = """usage: tool [--x N] FILE
       tool --y

Does `this -a` with
that\\n.

  a    one
  bc   two

  literal 'line'

Exit status: 0 done; 1 not.

positional arguments:
  FILE

options:
  -h, --help  show help
  --x N       times
"""
        wanted = r""".TH THYNVM\-TOOL 1 2031-03-02 thynvm\-2031.03.02 thynvm
.SH NAME
thynvm\-tool \- does
.SH SYNOPSIS
.nf
thynvm\-tool [\-\-x N] FILE
thynvm\-tool \-\-y
.fi
.SH DESCRIPTION
Does \fBthis \-a\fR with that\en.
.TP
\fBa\fR
one
.TP
\fBbc\fR
two
.PP
.nf
  literal \(aqline\(aq
.fi
.SH EXIT STATUS
0 done; 1 not.
.SH OPTIONS
.TP
\fB\-h, \-\-help\fR
show help
.TP
\fB\-\-x N\fR
times
.SH SEE ALSO
.BR thynvm (1),
.BR thynvm\-image (1)
.PP
"""
        made = manual.page("tool", "thynvm-tool", "does", text, "2031-03-02", "2031.03.02", ["thynvm", "thynvm-image"])
        self.assertEqual(made[: len(wanted)], wanted)
        self.assertEqual(len(made.splitlines()), len(wanted.splitlines()) + 1)

    def test_characters(self):
        self.assertEqual(manual.filled(".a ~ ^ `x"), r"\&.a \(ti \(ha \(gax")
        self.assertEqual(manual.filled("`.a` \"b\""), r"\fB\&.a\fR \(dqb\(dq")


class Completion(ToolTest):
    """What is proposed, on words whose answers follow from the table of options in docs/USING.md."""

    COMMANDS = ["run", "plain", "resume", "bench", "compare", "make"]
    PLAIN = ["--base", "--pages", "--console", "--limit", "--input", "--digest"]

    def setUp(self):
        super().setUp()
        for name in ("image one", "image two", "other"):
            self.file(f"here/{name}")

    def proposed(self, *words):
        """What bash proposes for the last word."""
        self.file("completion", completions.bash())
        ask = 'source "$1"\nshift\nCOMP_WORDS=("$@") COMP_CWORD=$(($# - 1))\n_thynvm\n'
        self.file("ask", ask + 'printf "%s\\n" "${COMPREPLY[@]}"\n')
        command = ["bash", self.path("ask"), self.path("completion"), "thynvm", *words]
        done = subprocess.run(command, cwd=self.path("here"), capture_output=True, text=True)
        self.assertEqual(done.stderr, "")
        return done.stdout.split("\n")[:-1] if done.stdout != "\n" else []

    def test_commands(self):
        self.assertCountEqual(self.proposed(""), [*self.COMMANDS, "build", "observe", "sweep", "--quiet", "--version", "--help"])
        self.assertCountEqual(self.proposed("re"), ["resume"])
        self.assertCountEqual(self.proposed("--quiet", ""), [*self.COMMANDS, "observe"])
        self.assertCountEqual(self.proposed("observe", "ot"), ["other"])
        counts = ["--causes", "--epochs", "--wear"]
        traces = ["--trace", "--trace-from", "--trace-to"]
        accesses = ["--accesses", "--accesses-from", "--accesses-to"]
        wishes = ["--pcs", "--state", "--state-at", *traces, *counts, "--torn", *accesses]
        self.assertCountEqual(self.proposed("observe", "out", ""), [*wishes, "run", "resume", "bench", "plain"])
        self.assertCountEqual(self.proposed("observe", "out", "--pcs", ""), [*wishes[1:], "run", "resume", "bench"])
        left = ["--state-at", *traces, *counts, *accesses, "run", "resume", "bench"]
        self.assertCountEqual(self.proposed("observe", "out", "--torn", "--state", "7", "--pcs", ""), left)
        self.assertEqual(self.proposed("observe", "out", "--state", ""), [])
        self.assertEqual(self.proposed("observe", "out", "--trace", "--trace-to", ""), [])
        self.assertCountEqual(self.proposed("observe", "out", "--accesses", "ot"), [])
        self.assertCountEqual(self.proposed("--quiet", "observe", "out", "r"), ["run", "resume"])

    def test_commands_of_sweep(self):
        self.assertEqual(self.proposed("sw"), ["sweep"])
        self.assertEqual(self.proposed("sweep", "ot"), ["other"])
        swept, runs = ["--from", "--to", "--step", "--tears", "--all", "--compare"], ["run", "resume", "bench"]
        self.assertCountEqual(self.proposed("sweep", "out", ""), [*swept, "--torn", *runs])
        self.assertEqual(self.proposed("sweep", "out", "--from", ""), [])
        self.assertCountEqual(self.proposed("sweep", "out", "--from", "9", "--torn", ""), [*swept[1:], *runs])
        self.assertEqual(self.proposed("sweep", "out", "--torn", "bench", "7", "--ep"), ["--epoch"])
        self.assertEqual(self.proposed("sweep", "out", "--pcs", ""), [])
        self.assertEqual(self.proposed("--quiet", "sw"), [])
        self.assertEqual(self.proposed("--quiet", "sweep", "out", ""), [])

    def test_options(self):
        self.assertCountEqual(self.proposed("plain", "-"), self.PLAIN)
        left = ["--base", "--console", "--limit", "--input"]
        self.assertCountEqual(self.proposed("plain", "other", "--digest", "--pages=8", "-"), left)
        self.assertCountEqual(self.proposed("plain", "--pages", "=", "8", "-"), [*left, "--digest"])
        self.assertEqual(self.proposed("compare", "x", "--s"), ["--sets"])
        self.assertCountEqual(self.proposed("run", "x", "--s"), ["--sets", "--scheme", "--save"])
        self.assertEqual(self.proposed("observe", "out", "bench", "7", "--ga"), ["--gap"])
        self.assertEqual(self.proposed("observe", "out", "--pcs", "bench", "7", "--ga"), ["--gap"])
        self.assertEqual(self.proposed("observe", "out", "--torn", "bench", "7", "--ep"), ["--epoch"])
        self.assertEqual(self.proposed("observe", "out", "--state-at", "9", "bench", "7", "--ga"), ["--gap"])
        self.assertEqual(self.proposed("observe", "out", "--trace", "--trace-from", "9", "bench", "7", "--ga"), ["--gap"])
        self.assertEqual(self.proposed("make", "7", "-"), [])

    def test_values(self):
        for words in (["--scheme", ""], ["--scheme", "="], ["--scheme", "=", ""]):
            self.assertCountEqual(self.proposed("run", "x", *words), ["thynvm", "journal", "shadow"])
        self.assertEqual(self.proposed("run", "--scheme", "=", "j"), ["journal"])
        self.assertEqual(self.proposed("run", "--harts", ""), ["1", "2"])
        self.assertEqual(self.proposed("run", "--pages", ""), [])
        self.assertCountEqual(self.proposed("run", "x", "--input", "im"), ["image one", "image two"])

    def test_operands(self):
        self.assertEqual(self.proposed("plain", "o"), ["other"])
        self.assertCountEqual(self.proposed("plain", ""), ["image one", "image two", "other", *self.PLAIN])
        self.assertEqual(self.proposed("plain", "other", "o"), [])
        self.assertEqual(self.proposed("make", "o"), [])
        self.assertEqual(self.proposed("make", "7", "o"), ["other"])
        self.assertEqual(self.proposed("make", "7", "x", "o"), [])
        self.assertEqual(self.proposed("--version", ""), [])
        self.assertEqual(self.proposed("rum", "-"), [])

    @needs("zsh")
    def test_zsh(self):
        self.file("functions/_thynvm", completions.zsh(repository.help_page()))
        for line, wanted in (
            ("thynvm res", "thynvm resume "),
            ("thynvm --qu", "thynvm --quiet "),
            ("thynvm --quiet obs", "thynvm --quiet observe "),
            ("thynvm observe ot", "thynvm observe other "),
            ("thynvm observe out be", "thynvm observe out bench "),
            ("thynvm observe out --torn be", "thynvm observe out --torn bench "),
            ("thynvm observe out co", "thynvm observe out co"),
            ("thynvm observe out --p", "thynvm observe out --pcs "),
            ("thynvm observe out --pcs be", "thynvm observe out --pcs bench "),
            ("thynvm observe out --pcs pl", "thynvm observe out --pcs pl"),
            ("thynvm observe out --state 7 be", "thynvm observe out --state 7 bench "),
            ("thynvm observe out --state 7 --state-", "thynvm observe out --state 7 --state-at "),
            ("thynvm sw", "thynvm sweep "),
            ("thynvm sweep ot", "thynvm sweep other "),
            ("thynvm sweep out --st", "thynvm sweep out --step "),
            ("thynvm sweep out --all 9 --f", "thynvm sweep out --all 9 --from "),
            ("thynvm sweep out --torn be", "thynvm sweep out --torn bench "),
            ("thynvm sweep out pl", "thynvm sweep out pl"),
            ("thynvm sweep out --pc", "thynvm sweep out --pc"),
            ("thynvm --quiet sw", "thynvm --quiet sw"),
            ("thynvm --quiet sweep ou", "thynvm --quiet sweep ou"),
            ("thynvm run --sch", "thynvm run --scheme="),
            ("thynvm run --scheme=jo", "thynvm run --scheme=journal "),
            ("thynvm run --scheme sh", "thynvm run --scheme shadow "),
            ("thynvm plain --sch", "thynvm plain --sch"),
            ("thynvm run --input=ot", "thynvm run --input=other "),
            ("thynvm run x --dig", "thynvm run x --digest "),
            ("thynvm make 7 ot", "thynvm make 7 other "),
            ("thynvm make ot", "thynvm make ot"),
        ):
            self.assertEqual(self.completed(line), wanted)

    def completed(self, line):
        """What zsh makes of a line, on a terminal."""
        start = f"""unset zle_bracketed_paste; PS1=
fpath=({self.path('functions')} $fpath); autoload -Uz compinit; compinit -u -D
ask() {{ BUFFER={shlex.quote(line)}; CURSOR=${{#BUFFER}}; zle expand-or-complete; print -r -- "$BUFFER|" >"$SAID"; exit }}
zle -N ask; zle -N zle-line-init ask
"""
        self.file("start/.zshrc", start)
        said = self.path("said")
        if os.path.exists(said):
            os.remove(said)
        own, other = os.openpty()
        env = {"PATH": os.environ["PATH"], "TERM": "dumb", "ZDOTDIR": self.path("start"), "SAID": said}
        with subprocess.Popen(
            ["zsh", "-d", "-i"], cwd=self.path("here"), env=env, stdin=other, stdout=other, stderr=other, start_new_session=True
        ) as shell:
            os.close(other)
            end = time.monotonic() + 20
            while shell.poll() is None and time.monotonic() < end:
                time.sleep(0.02)
            shell.kill()
        os.close(own)
        with open(said) as file:
            return file.read()[:-2]


@needs("git", "dpkg-deb")
@needs_sweeper
class Installed(unittest.TestCase):
    """The built programs, packaged from a copy of the repository, in an empty folder, without rt and without an environment."""

    @classmethod
    def setUpClass(cls):
        cls.folder = os.path.realpath(tempfile.mkdtemp(prefix="tools-test-"))
        cls.addClassCleanup(shutil.rmtree, cls.folder, ignore_errors=True)
        source = os.path.join(cls.folder, "source")
        for path in repository.tracked():
            if not path.startswith(("crates/", "tools/tests/")) and os.path.exists(repository.path(path)):
                os.makedirs(os.path.dirname(os.path.join(source, path)), exist_ok=True)
                shutil.copy(repository.path(path), os.path.join(source, path))
        commit(source)
        for program in (PROGRAM, OBSERVER, SWEEPER):
            place = os.path.join(source, os.path.relpath(program, repository.TOP))
            os.makedirs(os.path.dirname(place))
            shutil.copy(program, place)
        rt = os.path.join(cls.folder, "rt/rt")
        os.makedirs(os.path.dirname(rt))
        with open(rt, "w") as file:
            file.write(f"#!/bin/sh\necho '{KIT}'\n")
        os.chmod(rt, 0o755)
        env = {**os.environ, "PATH": f"{os.path.dirname(rt)}:{os.environ['PATH']}"}
        made = os.path.join(cls.folder, "made")
        done = subprocess.run([os.path.join(source, "tools/package"), made], env=env, capture_output=True, text=True)
        if done.returncode:
            raise AssertionError(done.stderr)
        cls.tarball, cls.debian, cls.needs = done.stdout.splitlines()
        cls.few = os.path.join(cls.folder, "few")
        os.mkdir(cls.few)
        for name in FEW:
            os.symlink(os.path.realpath(shutil.which(name)), os.path.join(cls.few, name))
        # Where nothing of the repository is left.
        shutil.rmtree(source)
        shutil.rmtree(os.path.dirname(rt))
        with tarfile.open(cls.tarball) as archive:
            archive.extractall(os.path.join(cls.folder, "unpacked"))
        (cls.unpacked,) = glob.glob(os.path.join(cls.folder, "unpacked", "*"))
        cls.root = os.path.join(cls.folder, "root")
        subprocess.run(["dpkg-deb", "-x", cls.debian, cls.root], check=True)
        cls.library, cls.bin = os.path.join(cls.root, "usr/lib/thynvm"), os.path.join(cls.root, "usr/bin")

    def call(self, *words, folder=None, **more):
        """Makes a call with nothing in the environment but a PATH without rt: its status, output and report."""
        command = ["env", "-i", f"PATH={self.few}", *(f"{name}={value}" for name, value in more.items()), *words]
        done = subprocess.run(command, cwd=folder or self.unpacked, stdin=subprocess.DEVNULL, capture_output=True, text=True)
        return done.returncode, done.stdout, done.stderr

    def calls(self):
        """The script of the tarball, in its folder, and the command of the Debian package, where its files are."""
        return ((["./thynvm"], self.unpacked), ([os.path.join(self.bin, "thynvm")], self.library))

    def test_the_example(self):
        first = re.search(r"^    \./thynvm (run .*)$", repository.text_of("README.md"), re.M)[1]
        with open(repository.example("greet", "output")) as file:
            printed = file.read()
        for command, folder in self.calls():
            for more in ({}, {"THYNVM_HELP": "1"}):
                self.assertEqual(self.call(*command, *first.split(), folder=folder, **more), (0, printed, REPORT))
            made = self.call(*command, "--quiet", *first.split(), folder=folder)
            self.assertEqual(made, (0, printed, "exit 5 at 666\n"))

    def test_the_version(self):
        date = re.search(r"^## (.*)$", repository.text_of("CHANGELOG.md"), re.M)[1]
        for command, folder in self.calls():
            status, output, report = self.call(*command, "--version", folder=folder)
            lines = output.splitlines()
            self.assertEqual((status, report, len(lines)), (0, "", 4))
            self.assertEqual((lines[0], lines[2], lines[3]), (f"thynvm of {date}", f"kit {KIT}", self.needs))
            self.assertRegex(lines[1], "^commit [0-9a-f]{12}$")

    @needs("readelf")
    def test_the_glibc(self):
        names = set()
        for name in contents.PROGRAMS:
            said = subprocess.run(["readelf", "-V", f"{self.unpacked}/bin/{name}"], capture_output=True, text=True).stdout
            names |= {tuple(map(int, number.split("."))) for number in re.findall(r"Name: GLIBC_([0-9.]+)", said)}
        self.assertIn(f"glibc {'.'.join(map(str, max(names)[:2]))} or later", self.needs)

    def test_observed(self):
        for command, folder in self.calls():
            out = os.path.join(self.folder, "out")
            words = ["observe", out, "run", "examples/exit_seven/exit_seven.elf", "--pages", "8", "--btt", "8", "--ptt", "8"]
            status, output, report = self.call(*command, *words, folder=folder)
            self.assertEqual((status, output, report.splitlines()[-1]), (0, "", "exit 7 at 3"))
            with open(out) as file:
                self.assertEqual(file.readline(), "700 0 commit 0 overlapped 0\n")

    def test_swept(self):
        for command, folder in self.calls():
            out = os.path.join(self.folder, "out")
            words = ["--from", "701", "--to", "702", "run", "examples/exit_seven/exit_seven.elf", "--pages", "8", "--btt", "8", "--ptt", "8"]
            status, output, report = self.call(*command, "sweep", out, *words, folder=folder)
            self.assertEqual((status, output, report), (0, "", "commit 0 overlapped 0\n"))
            with open(out) as file:
                lines = file.readlines()
            self.assertTrue(lines[0].startswith("cycles 701 "), lines[0])
            self.assertEqual(lines[-1], "to 702\n")

    def test_bad_input(self):
        with open(os.path.join(self.folder, "bad"), "w") as file:
            file.write("no program\n")
        bad = os.path.join(self.folder, "bad")
        for command, folder in self.calls():
            for words, status, line in (
                (["rum"], 2, "usage"),
                (["run", "--pages"], 2, "usage"),
                (["run", bad, "--pages", "7"], 2, "value pages 7"),
                (["run", f"{bad}.none"], 3, "fetch 1"),
                (["run", bad], 4, "file 1 TooShort 0"),
            ):
                made = self.call(*command, *words, folder=folder)
                self.assertEqual((made[0], made[1], made[2].count("\n")), (status, "", 1), words)
                self.assertEqual(made[2].split()[0], line.split()[0], words)
                made = self.call(*command, *words, folder=folder, THYNVM_HELP="1")
                self.assertEqual((made[0], "thynvm: " in made[2]), (status, True), words)

    def test_nothing_is_built(self):
        for command, folder in self.calls():
            self.assertEqual(self.call(*command, "build", folder=folder), (0, "", ""))
            program = os.path.join(os.path.dirname(os.path.realpath(os.path.join(folder, command[0]))), "bin/observe")
            os.rename(program, f"{program}.away")
            try:
                made = self.call(*command, "observe", "/dev/null", "plain", "examples/exit_seven/exit_seven.elf", folder=folder)
            finally:
                os.rename(f"{program}.away", program)
            self.assertEqual(made, (125, "", f"thynvm: this package lacks its program {program}\n"))

    def test_each_script(self):
        """It finds all that it needs, and refuses in a line with status 2."""
        names = sorted(name for name in os.listdir(os.path.join(self.unpacked, "tools")) if name != "lib")
        self.assertEqual([f"thynvm-{name}" for name in names], sorted(set(os.listdir(self.bin)) - {"thynvm"}))
        for name in names:
            for command in ([f"tools/{name}"], [os.path.join(self.bin, f"thynvm-{name}")]):
                status, output, report = self.call(*command, "--help")
                self.assertEqual((status, output[:7], report), (0, "usage: ", ""), name)
                status, output, report = self.call(*command, "--no-such-option")
                self.assertEqual((status, output), (2, ""), name)
                self.assertRegex(report, rf"\A{name}: .*\n\Z")

    def test_scripts_that_call_programs(self):
        greet = ["--pages", "8", "--epoch", "240", "--cuts", "2200", "examples/greet/greet.elf", "World"]
        with open(repository.example("greet", "output")) as file:
            printed = file.read()
        for place in ("tools/", f"{self.bin}/thynvm-"):
            self.assertEqual(self.call(f"{place}exec", *greet), (5, printed, ""))
            made = self.call(f"{place}exec", "--program", "/none", "x")
            self.assertEqual(made, (2, "", "exec: there is no program /none\n"))
            words = ["examples/exit_seven/exit_seven.elf", "--around", "end", "--width", "2", "--tears", "0", "--pages", "8"]
            made = self.call(f"{place}cuts", *words)
            self.assertEqual((made[0], made[2]), (0, ""), made)
            made = self.call(f"{place}wear", "--table", "examples/greet/name")
            self.assertEqual(made[0], 2, made)

    def test_links_of_documents(self):
        """Each file that a page of the package links to is in the package, if it is not of a crate."""
        found = glob.glob(os.path.join(self.unpacked, "docs", "*.md"))
        for page in ["README.md", *(f"docs/{os.path.basename(path)}" for path in found)]:
            with open(os.path.join(self.unpacked, page)) as file:
                links = re.findall(r"\]\(([^)#:]+)[)#]", file.read())
            for link in links:
                path = os.path.normpath(os.path.join(os.path.dirname(page), link))
                self.assertTrue(path.startswith("crates/") or os.path.exists(os.path.join(self.unpacked, path)), (page, link))

    @needs("groff")
    def test_manual_pages(self):
        for page in glob.glob(os.path.join(self.unpacked, "man/man1/*.1")):
            done = subprocess.run(["groff", "-man", "-ww", "-z", "-Tutf8", page], capture_output=True, text=True)
            self.assertEqual((done.returncode, done.stderr), (0, ""), page)

    @needs("man")
    def test_manual_page_of_the_program(self):
        env = {**os.environ, "MANWIDTH": "100", "LC_ALL": "C.UTF-8"}
        page = f"{self.root}/usr/share/man/man1/thynvm.1.gz"
        done = subprocess.run(["man", "-l", page], env=env, capture_output=True, text=True)
        text = re.sub(r".\x08|\x1b\[[0-9;]*m", "", done.stdout)
        for line in ("NAME", "SYNOPSIS", "DESCRIPTION", "OPTIONS", "EXIT STATUS", "EXAMPLES", "SEE ALSO"):
            self.assertRegex(text, rf"(?m)^{line}$")
        self.assertIn("thynvm run FILE [--OPTION VALUE]..", text)
        for name in ("--base", "--digest"):
            self.assertRegex(text, rf"(?m)^ +{name}\b")
