"""The second checker, bin/cordkit-verify, as the module `cordkit_verify`: the rules of docs/FORMAT.md stand there, and nowhere in the tests."""

import importlib.machinery
import importlib.util
import os
import sys

TOP = os.path.dirname(os.path.dirname(os.path.abspath(__file__)))
PROGRAM = os.path.join(TOP, "crates/cordkit/out/cordkit")


def loaded():
    """The module. Nothing is written beside the program."""
    sys.dont_write_bytecode = True
    loader = importlib.machinery.SourceFileLoader("cordkit_verify", os.path.join(TOP, "bin/cordkit-verify"))
    module = importlib.util.module_from_spec(importlib.util.spec_from_loader("cordkit_verify", loader))
    sys.modules["cordkit_verify"] = module
    loader.exec_module(module)
    return module


verify = loaded()
