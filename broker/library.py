"""The C library (tools/build-library), by the Python module of examples/embed."""

from __future__ import annotations

import importlib.util
import pathlib
from typing import Any

MODULE = pathlib.Path(__file__).resolve().parents[1] / "examples/embed/python/migwelun.py"


def module() -> Any:
    spec = importlib.util.spec_from_file_location(MODULE.stem, MODULE)
    assert spec is not None and spec.loader is not None
    made = importlib.util.module_from_spec(spec)
    spec.loader.exec_module(made)
    return made
