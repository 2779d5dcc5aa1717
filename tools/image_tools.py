"""Loads a tool beside this file, which has no ending, as a module: for tools that use others, and for tests."""
import sys
from importlib.machinery import SourceFileLoader
from importlib.util import module_from_spec, spec_from_loader
from pathlib import Path


def load_tool(name):
    module_name = name.replace("-", "_")
    if module_name not in sys.modules:
        loader = SourceFileLoader(module_name, str(Path(__file__).resolve().with_name(name)))
        module = module_from_spec(spec_from_loader(module_name, loader))
        sys.modules[module_name] = module
        loader.exec_module(module)
    return sys.modules[module_name]
