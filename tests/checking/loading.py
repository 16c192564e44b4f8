"""Scripts of the repository as modules, the program to test, and folders of documentation that may be installed."""

from __future__ import annotations

import importlib.util
import os
import sys
from pathlib import Path
from types import ModuleType

ROOT = Path(__file__).resolve().parents[2]
BUILT = ROOT / "crates/mercator_cli/out/mercator_cli"
# The folders of Debian's python3.11-doc, apache2-doc and postgresql-doc-15
DOCUMENTATION = (
    "/usr/share/doc/python3.11-doc/html",
    "/usr/share/doc/apache2-doc/manual",
    "/usr/share/doc/postgresql-doc-15/html",
)


def script(name: str, path: str) -> ModuleType:
    """The script with this path below the root."""
    spec = importlib.util.spec_from_file_location(name, ROOT / path)
    assert spec is not None and spec.loader is not None
    module = importlib.util.module_from_spec(spec)
    sys.modules[name] = module
    spec.loader.exec_module(module)
    return module


def program() -> str:
    """The absolute path of the program; ends the script if there is none."""
    path = os.path.abspath(os.environ.get("PROGRAM", BUILT))
    if not os.path.isfile(path):
        sys.exit(f"no such file: {path} (run `rt run -- --help` in crates/mercator_cli to build it)")
    return path
