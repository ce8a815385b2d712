"""rt as a Python module, for the tools that do what rt has no command for, by rt's own functions: so they follow the kit, and may have to be
mended with a new one. To be imported by the Python scripts beside it."""

import importlib.machinery
import importlib.util
import os
import shutil
import sys

TOP = os.path.realpath(os.path.join(os.path.dirname(os.path.abspath(__file__)), ".."))


def load_rt():
    path = shutil.which("rt")
    if path is None:
        sys.exit("there is no rt in PATH")
    loader = importlib.machinery.SourceFileLoader("rt", os.path.realpath(path))
    module = importlib.util.module_from_spec(importlib.util.spec_from_loader("rt", loader))
    sys.modules["rt"] = module
    loader.exec_module(module)
    # what it starts ends with it
    module.rtlib.guarded()
    return module


def crates(rt):
    """The crates of the repository, by name."""
    return {it.name: it for it in rt.rtlib.crates_below(TOP)}
