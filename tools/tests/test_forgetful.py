"""tools/forgetful, with an rt that is a script."""

import os

from tests.support import ToolTest

# It is called in the folder of the copy's `sweep`. It finds something only if the copy has the changed lines, and its case the
# words of the sweep.
FINDS = """#!/bin/sh
for cases; do :; done
grep -q 'Round::Settle => Ok(()),' ../thy_checkpoint/src/engine.rt && grep -q 'shelf.fetch' src/main.rt || exit 9
[ "$(head -n 4 "$cases/run-0000.args" | tr '\\n' ' ')" = 'observed --tears 0,1,2,3,4,5,6,7 run ' ] || exit 9
printf '== run-0000\\nHello\\nobserved\\ndiffers 1200 by pick 2\\ndiffers 1201 by pick 3\\n'
echo 'case=run-0000 run=ended status=1 runners=1 proved=no' >&2
"""


class Forgetful(ToolTest):
    tool = "forgetful"

    def with_rt(self, text):
        """An environment in which rt is this script."""
        self.script("rt", text)
        return {**os.environ, "PATH": f"{self.folder}:{os.environ['PATH']}"}

    def test_help(self):
        self.has_help()

    def test_it_is_found(self):
        self.prints("found: differs 1200 by pick 2, and 1 more\n", env=self.with_rt(FINDS))

    def test_it_is_not_found(self):
        text = FINDS.replace("differs", "cycles").replace("status=1", "status=0")
        self.prints("not found: 0 differences, status 0\n", status=1, env=self.with_rt(text))

    def test_refusals(self):
        self.refuses("rt try has made 0 of 1 runs: wrong", env=self.with_rt("#!/bin/sh\necho wrong >&2; exit 5\n"))
        hangs = FINDS.replace("run=ended status=1 runners=1", "run=no-answer")
        self.refuses("the sweep did not end: run=no-answer", env=self.with_rt(hangs))
        self.refuses("rt, the command of the Rattle kit, is not in PATH", env={**os.environ, "PATH": "/none"})
        self.refuses("unrecognized arguments: x", "x")
