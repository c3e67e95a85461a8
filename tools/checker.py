"""What the comparisons stand on: an independent checker in a folder of its own, and the built program."""

import importlib
import os
import sys


def load(folder, module, *names):
    """Members of a module of the checker's package `oracle`; ends with a sentence where it isn't in the folder."""
    sys.path.insert(0, folder)
    try:
        found = importlib.import_module(f"oracle.{module}")
        return [getattr(found, name) for name in names]
    except (ImportError, AttributeError) as fault:
        sys.exit(f"{folder} holds no checker: {fault}")


def need_program(path):
    if not os.access(path, os.X_OK) or os.path.isdir(path):
        sys.exit(f"{path} is no program; ./hullcert builds it")
