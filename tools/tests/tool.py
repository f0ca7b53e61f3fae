"""Loads a tool, whose file has no ending, for the tests beside this file."""
import importlib.machinery
import importlib.util
import os

TOOLS = os.path.dirname(os.path.dirname(os.path.abspath(__file__)))


def load(name):
    """The module that a tool's file is."""
    loader = importlib.machinery.SourceFileLoader(name.replace('-', '_'), os.path.join(TOOLS, name))
    module = importlib.util.module_from_spec(importlib.util.spec_from_loader(loader.name, loader))
    loader.exec_module(module)
    return module
