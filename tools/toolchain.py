"""The module by which the toolchain's command rt builds and checks crates."""

import importlib.machinery
import importlib.util
import os
import shutil
import sys


def module():
    """Loads it from beside the command. An OSError says that there is none."""
    command = shutil.which("rt")
    if command is None:
        raise OSError("the command rt is not on the PATH")
    loader = importlib.machinery.SourceFileLoader("rtlib", os.path.join(os.path.dirname(os.path.realpath(command)), "rtlib.py"))
    made = importlib.util.module_from_spec(importlib.util.spec_from_loader("rtlib", loader))
    sys.modules["rtlib"] = made
    loader.exec_module(made)
    return made
