"""Scripts as modules: the scripts of bench/ and oracle/ have no suffix, so `import` doesn't find them."""

import importlib.machinery
import importlib.util
import os

ROOT = os.path.dirname(os.path.dirname(os.path.abspath(__file__)))


def script(folder, name):
    loader = importlib.machinery.SourceFileLoader(f"{folder}_{name}", os.path.join(ROOT, folder, name))
    module = importlib.util.module_from_spec(importlib.util.spec_from_loader(loader.name, loader))
    loader.exec_module(module)
    return module
