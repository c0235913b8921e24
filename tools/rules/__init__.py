"""The rules of the protocol, `conformance/rules`, by the name that the tools import them by."""

import pathlib
import sys

if sys.version_info < (3, 9):
    sys.exit(f"Python 3.9 or later is needed, and this is {sys.version.split()[0]}")

__path__ = [str(pathlib.Path(__file__).resolve().parents[2] / "conformance" / "rules")]
