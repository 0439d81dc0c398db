"""Whether GNU parallel is there."""

import os
from unittest import mock

from lib import parallel
from lib.options import Refused
from tests.support import CopyTest


class Parallel(CopyTest):
    def said(self, env):
        """Why parallel is refused in an environment, or nothing."""
        with mock.patch.dict(os.environ, env, clear=True):
            try:
                parallel.check()
            except Refused as fault:
                return str(fault)
        return ""

    def test_which_is_taken(self):
        self.assertEqual(self.said(self.beside(parallel="[ $1 = --version ] && echo GNU parallel 20221122")), "")
        said = "the parallel in PATH is not that of GNU (on Debian it is in the package parallel)"
        self.assertEqual(self.said(self.beside(parallel="echo another")), said)
        self.assertEqual(self.said(self.without()), "parallel is not in PATH (on Debian it is in the package parallel)")
