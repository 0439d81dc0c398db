"""Why a file could not be read or written."""

import os
import shutil
import stat

from lib import program


def folder_fault(name):
    """Why no file can stand under a name, by its folder."""
    folder = os.path.dirname(name) or "."
    if not os.path.exists(folder):
        return f"there is no folder {folder}"
    if not os.path.isdir(folder):
        return f"{folder} is not a folder"
    return "" if os.access(folder, os.X_OK) else f"there is no permission to look into {folder}"


def why_unread(name, most):
    """Why a file of at most so many bytes could not be read, as far as that can be seen."""
    if not name:
        return "the name is empty"
    if os.path.isdir(name):
        return f"{name} is a folder"
    if not os.path.exists(name):
        if os.path.islink(name):
            return f"{name} is a link to {os.readlink(name)}, which is not there"
        return folder_fault(name) or f"there is no {os.path.basename(name)} in {os.path.abspath(os.path.dirname(name))}"
    if not os.access(name, os.R_OK):
        return f"there is no permission to read {name}"
    about = os.stat(name)
    if stat.S_ISREG(about.st_mode) and about.st_size > most:
        return f"{name} has {about.st_size} bytes, and at most {most} are read"
    return ""


def why_unwritten(name):
    """Why a file could not be written, as far as that can be seen."""
    fault = folder_fault(name) if name else "the name is empty"
    if fault:
        return fault
    if os.path.isdir(name):
        return f"{name} is a folder"
    if os.path.exists(name):
        return "" if os.access(name, os.W_OK) else f"there is no permission to write {name}"
    folder = os.path.dirname(name) or "."
    return "" if os.access(folder, os.W_OK) else f"there is no permission to make a file in {folder}"


def help_with_reads(call):
    """Why a file was not read."""
    for name in call.read():
        image = call.command == "resume" and name == call.operands[0]
        fault = why_unread(name, program.MOST_IMAGE_BYTES if image else program.MOST_BYTES)
        if fault:
            return fault
    return ""


def help_with_files(call):
    """Why a file was not read or not written."""
    fault = help_with_reads(call)
    if not fault and call.out is not None:
        fault = why_unwritten(call.out)
    target = call.written()
    if fault or target is None:
        return fault
    fault = why_unwritten(target)
    if fault or not os.path.exists(os.path.dirname(target) or "."):
        return fault
    free = shutil.disk_usage(os.path.dirname(target) or ".").free
    return f"{target} was not written; its disk has {free} bytes free"


def help_before(call):
    """Why a file that the call is to write could not be written."""
    if call.fault:
        return ""
    targets = [name for name in (call.out, call.written()) if name is not None]
    faults = [(name, why_unwritten(name)) for name in targets]
    return next((f"{name} cannot be written: {fault}" for name, fault in faults if fault), "")
