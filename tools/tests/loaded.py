"""Loads a tool as a module, where a test calls its functions."""
import importlib.machinery
import importlib.util
import os
import sys

TOOLS = os.path.dirname(os.path.dirname(os.path.abspath(__file__)))


def tool(name):
    sys.dont_write_bytecode = True
    loader = importlib.machinery.SourceFileLoader(f"{name}_tool", f"{TOOLS}/{name}")
    module = importlib.util.module_from_spec(importlib.util.spec_from_loader(loader.name, loader))
    loader.exec_module(module)
    return module
