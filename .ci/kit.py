"""The commands of the rt that stands on the path, as Python: what it offers on the command line only as a whole."""
import importlib.machinery
import importlib.util
import os
import shutil
import sys

sys.dont_write_bytecode = True
ROOT = os.path.dirname(os.path.dirname(os.path.realpath(__file__)))


def load():
    found = shutil.which("rt")
    if not found:
        sys.exit("rt is not on the path")
    loader = importlib.machinery.SourceFileLoader("rt", os.path.realpath(found))
    made = importlib.util.module_from_spec(importlib.util.spec_from_loader("rt", loader))
    loader.exec_module(made)
    os.chdir(ROOT)
    # (before any thread starts)
    made.rtlib.guarded()
    return made


def crates(rt):
    return rt.rtlib.crates_below(ROOT)
