"""The kit's command `rt` as a module: its own reading of edits, its lanes, and its way of trying one edit
alone."""

import importlib.machinery
import importlib.util
import os
import shutil
import sys

sys.dont_write_bytecode = True


def load_rt():
    path = os.path.realpath(shutil.which("rt") or sys.exit(".ci/wrong_bodies: there is no rt on the path"))
    loader = importlib.machinery.SourceFileLoader("rt", path)
    made = importlib.util.module_from_spec(importlib.util.spec_from_loader("rt", loader))
    loader.exec_module(made)
    return made


rt = load_rt()


def say(*lines):
    """Says these lines at once, whatever else is said beside them."""
    sys.stdout.write("".join(f"{it}\n" for it in lines))
    sys.stdout.flush()


def text_of(path):
    with open(path, encoding="utf-8") as file:
        return file.read()


def sources_of(folder):
    """The source files of the crate in this folder, as paths below it."""
    return [os.path.relpath(it, folder) for it in rt.rtlib.files_of(folder) if it.endswith(".rt")]
