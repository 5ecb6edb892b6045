"""Scripts whose names have no ending, as modules, for tools that share with them; not run by itself."""
import importlib.machinery
import importlib.util
import sys


def as_module(path):
    """A script as a module, once."""
    name = f"script_{path.name.replace('-', '_')}"
    if name not in sys.modules:
        loader = importlib.machinery.SourceFileLoader(name, str(path))
        made = importlib.util.module_from_spec(importlib.util.spec_from_loader(name, loader))
        sys.modules[name] = made
        loader.exec_module(made)
    return sys.modules[name]
