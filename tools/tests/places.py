"""Where the repository, its tools and their modules are. A test imports it before these modules."""
import importlib.machinery
import importlib.util
import os
import sys

TESTS = os.path.dirname(os.path.realpath(__file__))
TOOLS = os.path.dirname(TESTS)
TOP = os.path.dirname(TOOLS)
LIB = os.path.join(TOOLS, 'lib')
sys.path.insert(0, LIB)


def load(name):
    """A tool as a module."""
    loader = importlib.machinery.SourceFileLoader(name, os.path.join(TOOLS, name))
    module = importlib.util.module_from_spec(importlib.util.spec_from_loader(name, loader))
    loader.exec_module(module)
    return module
