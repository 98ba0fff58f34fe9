"""Programs of Python, whose names have no ending, as modules."""
from __future__ import annotations

import sys
from importlib.machinery import SourceFileLoader
from importlib.util import module_from_spec, spec_from_loader
from pathlib import Path
from types import ModuleType


def loaded(path: Path) -> ModuleType:
    spec = spec_from_loader(path.name, SourceFileLoader(path.name, str(path)))
    assert spec and spec.loader
    module = module_from_spec(spec)
    sys.modules[path.name] = module  # where its dataclasses look for it
    spec.loader.exec_module(module)
    return module
