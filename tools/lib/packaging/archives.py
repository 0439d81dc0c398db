"""A tarball and a Debian package of a tree of files. The same tree always makes the same bytes."""

import gzip
import hashlib
import io
import os
import subprocess
import tarfile
import tempfile

from lib.options import Refused
from lib.packaging.contents import BASH, MANUAL, ZSH, File

# Where the Debian package has the tree of the tarball.
PLACE = "usr/lib/thynvm"

DEBIAN = """Package: thynvm
Version: {version}
Architecture: {debian}
Maintainer: {author}
Installed-Size: {size}
Depends: libc6 (>= {glibc}), python3 (>= 3.8)
Suggests: gdb-multiarch, parallel, python3-matplotlib
Section: science
Priority: optional
Description: simulated RISC-V computer that survives power cuts
 Its memory controller divides execution into epochs and writes a checkpoint of
 each into non-volatile memory. After a power cut at any cycle the machine goes
 on from the last checkpoint. That is proved of the program that is called.
"""

# Python may have left what it compiled beside the scripts.
BEFORE_REMOVAL = f"""#!/bin/sh
set -e
find /{PLACE} -depth -name __pycache__ -exec rm -rf {{}} +
"""


def mode_of(file):
    return 0o755 if file.is_executable else 0o644


def folders_of(paths):
    """The folders in which some files are, each before what is in it."""
    found = set()
    for path in paths:
        while "/" in path:
            path = path.rpartition("/")[0]
            found.add(path)
    return sorted(found)


def tarball(files, state, top):
    """The bytes of a tarball whose files are all in one folder."""
    data = io.BytesIO()
    with gzip.GzipFile(filename="", mode="wb", fileobj=data, mtime=0) as packed:
        with tarfile.open(fileobj=packed, mode="w", format=tarfile.USTAR_FORMAT) as archive:
            for path in (top, *(f"{top}/{folder}" for folder in folders_of(files))):
                entry = tarfile.TarInfo(path)
                entry.type, entry.mode, entry.mtime = tarfile.DIRTYPE, 0o755, state.seconds
                archive.addfile(entry)
            for path, file in sorted(files.items()):
                entry = tarfile.TarInfo(f"{top}/{path}")
                entry.size, entry.mode, entry.mtime = len(file.content), mode_of(file), state.seconds
                archive.addfile(entry, io.BytesIO(file.content))
    return data.getvalue()


def installed(files):
    """The tree of the Debian package: that of the tarball in a folder of its own, with commands, manual pages, completions and
    documents where Debian's programs look for them."""
    done = {}
    for path, file in files.items():
        if path.startswith(f"{MANUAL}/"):
            done[f"usr/share/{path}.gz"] = File(gzip.compress(file.content, mtime=0))
        elif path == BASH:
            done["usr/share/bash-completion/completions/thynvm"] = file
        elif path == ZSH:
            done["usr/share/zsh/vendor-completions/_thynvm"] = file
        else:
            done[f"{PLACE}/{path}"] = file
        folder, _, name = path.rpartition("/")
        if folder == "tools":
            done[f"usr/bin/thynvm-{name}"] = File(link=f"../lib/thynvm/{path}")
    done["usr/bin/thynvm"] = File(link="../lib/thynvm/thynvm")
    for name in ("README.md", "CHANGELOG.md", "CONTRIBUTING.md", "docs", "examples"):
        done[f"usr/share/doc/thynvm/{name}"] = File(link=f"../../../lib/thynvm/{name}")
    return done


def write(folder, files, seconds):
    """Writes a tree into an empty folder, with modes and times that do not depend on who does it, and when."""
    folders = folders_of(files)
    for path in folders:
        os.mkdir(os.path.join(folder, path))
    for path, file in files.items():
        whole = os.path.join(folder, path)
        if file.link:
            os.symlink(file.link, whole)
        else:
            with open(whole, "wb") as opened:
                opened.write(file.content)
            os.chmod(whole, mode_of(file))
        os.utime(whole, (seconds, seconds), follow_symlinks=False)
    for path in ("", *folders):
        os.chmod(os.path.join(folder, path), 0o755)
        os.utime(os.path.join(folder, path), (seconds, seconds))


def debian_package(files, state):
    """The bytes of a Debian package."""
    done = installed(files)
    sums = [f"{hashlib.md5(file.content).hexdigest()}  {path}\n" for path, file in sorted(done.items()) if not file.link]
    size = sum(-(-len(file.content) // 1024) for file in done.values())
    about = {name: getattr(state, name) for name in ("version", "debian", "author", "glibc")}
    done["DEBIAN/control"] = File(DEBIAN.format(**about, size=size).encode())
    done["DEBIAN/md5sums"] = File("".join(sums).encode())
    done["DEBIAN/prerm"] = File(BEFORE_REMOVAL.encode(), True)
    with tempfile.TemporaryDirectory(prefix="thynvm-package-") as folder:
        tree, made = os.path.join(folder, "tree"), os.path.join(folder, "made.deb")
        os.mkdir(tree)
        write(tree, done, state.seconds)
        environment = {**os.environ, "SOURCE_DATE_EPOCH": str(state.seconds)}
        command = ["dpkg-deb", "--root-owner-group", "--build", tree, made]
        called = subprocess.run(command, env=environment, stdin=subprocess.DEVNULL, capture_output=True, text=True)
        if called.returncode != 0:
            raise Refused(f"dpkg-deb has failed: {called.stderr}")
        with open(made, "rb") as file:
            return file.read()
