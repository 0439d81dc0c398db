"""GNU parallel, which some scripts have make their calls."""

import shutil
import subprocess

from lib.options import Refused

PACKAGE = "(on Debian it is in the package parallel)"


def check():
    """Refuses if GNU parallel is not there."""
    if shutil.which("parallel") is None:
        raise Refused(f"parallel is not in PATH {PACKAGE}")
    version = subprocess.run(["parallel", "--version"], stdin=subprocess.DEVNULL, capture_output=True, text=True)
    if not version.stdout.startswith("GNU parallel"):
        raise Refused(f"the parallel in PATH is not that of GNU {PACKAGE}")
