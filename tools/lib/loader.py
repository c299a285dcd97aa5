"""Tools, whose names have no ending, as modules."""
import importlib.machinery
import importlib.util
import os


def load(name):
    """Returns the tool of a name, or of a path from there, as a module."""
    path = os.path.join(os.path.dirname(os.path.dirname(os.path.abspath(__file__))), name)
    loader = importlib.machinery.SourceFileLoader(os.path.basename(name).replace("-", "_"), path)
    module = importlib.util.module_from_spec(importlib.util.spec_from_loader(loader.name, loader))
    loader.exec_module(module)
    return module
