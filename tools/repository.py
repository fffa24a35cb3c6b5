"""What the tests in this folder share: the repository's files, and tools/sheet as a module."""
import importlib.machinery
import importlib.util
import os
import sys

# No __pycache__ beside the tools.
sys.dont_write_bytecode = True

ROOT = os.path.dirname(os.path.dirname(os.path.abspath(__file__)))
TOOL = os.path.join(ROOT, "tools", "sheet")

loader = importlib.machinery.SourceFileLoader("sheet", TOOL)
sheet = importlib.util.module_from_spec(importlib.util.spec_from_loader("sheet", loader))
loader.exec_module(sheet)


def content(name):
    """The text of a file, by its path from the root."""
    with open(os.path.join(ROOT, name), encoding="utf-8") as file:
        return file.read()
