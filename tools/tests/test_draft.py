"""tools/draft, with an rt that is a script, and the drafts of the repository, whose patches have to fit the crates."""

import glob
import os

from lib import repository
from lib.drafts import copies, tries
from tests.support import CopyTest, ToolTest

# Says of its folder what the patches have changed, and prints the words of its first case; the text under OUT is `cycles 3`.
RT = """
for cases; do :; done
echo "$PWD" | grep -q '/crates/{program}$' && grep -q 'shelf.fetch' src/main.rt || exit 9
grep -s -h '^//! Draft' src/main.rt ../made/src/lib.rt >&2
[ -e specs ] || echo 'no specs' >&2
echo "case=run-0000 {how} proved=no" >&2
echo '== run-0000'
cat "$cases/run-0000.args"
printf 'Hello\\nobserved\\ncycles 3\\n'
"""

ENDED = "run=ended status=0 runners=1"

# Changes the first line of the program observe, and has a crate more, with definitions.
PATCH = """diff --git a/crates/observe/src/main.rt b/crates/observe/src/main.rt
--- a/crates/observe/src/main.rt
+++ b/crates/observe/src/main.rt
@@ -1 +1,2 @@
+//! Draft of a change.
 {first}
diff --git a/crates/made/src/lib.rt b/crates/made/src/lib.rt
new file mode 100644
--- /dev/null
+++ b/crates/made/src/lib.rt
@@ -0,0 +1 @@
+//! Draft of a crate.
diff --git a/crates/made/specs/Lib.antt b/crates/made/specs/Lib.antt
new file mode 100644
--- /dev/null
+++ b/crates/made/specs/Lib.antt
@@ -0,0 +1 @@
+-- nothing
"""


def case(name, how, report=""):
    return f"{report}case={name} {how} proved=no\n".encode()


class Draft(CopyTest):
    tool = "draft"

    def setUp(self):
        super().setUp()
        self.crates()
        self.file("crates/observe/specs/Lib.antt")
        first = self.read("crates/observe/src/main.rt").partition("\n")[0]
        self.file("mine/0.patch", PATCH.format(first=first))

    def with_rt(self, program="observe", how=ENDED):
        return self.beside(rt=RT.format(program=program, how=how))

    def draft(self, *words, program="observe", how=ENDED):
        return self.call(*words, cwd=self.folder, env=self.with_rt(program, how))

    def test_help(self):
        self.has_help()

    def test_an_observed_run(self):
        here = os.path.realpath(self.folder)
        done = self.draft("mine", "observe", "--causes", "run", "a.elf", "--input", "in", "--pages", 8)
        words = f"observed\n--causes\nrun\n{here}/a.elf\n--input\n{here}/in\n--pages\n8\n"
        self.assertEqual(done.out, f"{words}Hellocycles 3\n")
        self.assertEqual(done.err, "//! Draft of a change.\n//! Draft of a crate.\nno specs\n")
        self.assertEqual(done.status, 0)
        # What the copy changes is not changed here.
        self.assertNotIn("Draft", self.read("crates/observe/src/main.rt"))

    def test_a_sweep_of_the_crates_as_they_are(self):
        here = os.path.realpath(self.folder)
        done = self.draft("-", "sweep", "--tears", "0,1", "run", "/a.elf", "--input=in", program="sweep")
        self.assertEqual(done.out, f"observed\n--tears\n0,1\nrun\n/a.elf\n--input={here}/in\nHellocycles 3\n")
        self.assertEqual((done.err, done.status), ("no specs\n", 0))

    def test_how_a_run_ends(self):
        for how, said in (
            ("run=ended status=8 runners=1", "the program ended with status 8"),
            ("run=fault", "run=fault proved=no"),
            ("run=no-answer", "run=no-answer proved=no"),
        ):
            done = self.draft("-", "observe", "run", "a.elf", how=how)
            self.assertEqual((done.err, done.status), (f"no specs\ndraft: {said}\n", 1))

    def test_refusals(self):
        env, words = self.with_rt(), ("observe", "run", "a")
        self.file("none/readme")
        for said, given in (
            ("there is no patch in the folder none", ("none", *words)),
            ("there is no patch in the folder nowhere", ("nowhere", *words)),
            ("invalid choice: 'run'", ("mine", "run", "a")),
            ("the words of a call are missing", ("mine", "observe")),
            ("required: DRAFT", ()),
            ("argument --seconds: invalid positive value: '0'", ("--seconds", "0", "mine", *words)),
            ("a word of a call has a line feed: bench 7 a b", ("mine", "observe", "bench", "7", "a\nb")),
        ):
            self.refuses(said, *given, cwd=self.folder, env=env)
        self.file("mine/1.patch", self.read("mine/0.patch"))
        self.refuses("mine/1.patch does not fit the crates: error: ", "mine", *words, cwd=self.folder, env=env)
        said = "rt try has made 0 of 1 runs: crates/a.rt:1:1: error[no]: wrong\n"
        wrong = self.beside(rt='top=${PWD%/crates/*}; echo "first; $top/crates/a.rt:1:1: error[no]: wrong; run=none" | tr ";" "\\n" | sed "s/^ //" >&2')
        self.refuses(said, "-", *words, cwd=self.folder, env=wrong)
        self.refuses("rt try has made 0 of 1 runs: it says nothing\n", "-", *words, cwd=self.folder, env=self.beside(rt="exit 2"))
        self.refuses("rt, the command of the Rattle kit, is not in PATH", "-", *words, env=self.without("git"))
        self.script("few/rt", "#!/bin/sh\n")
        os.remove(self.path("few/git"))
        self.refuses("git, which applies patches, is not in PATH", "-", *words, env=self.without())
        self.file("VERSION")
        self.refuses("and this is a package", "-", *words, cwd=self.folder, env=env)


class Tries(ToolTest):
    def test_the_outputs_of_several_runs(self):
        out = b"== run-0000\na\n\nobserved\ncycles 1\n== run-0001\nno text\n== run-0003\n\nobserved\n\nobserved\ncycles 2\n"
        err = case("run-0000", ENDED, "commit 0\nexit 7\n") + case("run-0001", "run=ended status=4 runners=1", "file 7\n")
        err += case("run-0002", "run=fault", "checked: fault\n") + case("run-0003", ENDED) + b"cases=4\n"
        found = tries.answers_of(out, err)
        self.assertEqual(list(found), ["run-0000", "run-0001", "run-0002", "run-0003"])
        self.assertEqual([one.status for one in found.values()], [0, 4, None, 0])
        self.assertEqual([one.report for one in found.values()], [b"commit 0\nexit 7\n", b"file 7\n", b"checked: fault\n", b""])
        self.assertEqual([one.printed for one in found.values()], [b"a\n", b"no text\n", b"", b"\nobserved\n"])
        self.assertEqual([one.text for one in found.values()], [b"cycles 1\n", None, None, b"cycles 2\n"])
        self.assertEqual(tries.answers_of(b"", b"error: wrong\n"), {})


class Drafts(ToolTest):
    def test_the_repositorys_drafts_fit(self):
        drafts = glob.glob(repository.path("drafts", "*", ""))
        self.assertTrue(drafts)
        for k, draft in enumerate(drafts):
            with self.subTest(draft=draft):
                folder = self.path(str(k))
                os.mkdir(folder)
                copies.copied(folder, copies.patches_of(draft))
                text = repository.text_of("crates/observe/src/main.rt")
                with open(os.path.join(folder, "crates/observe/src/main.rt"), encoding="utf-8") as file:
                    self.assertNotEqual(file.read(), text)
