"""Build the wheel of the Python clients, which `pip install ./clients/python` installs.

This is the build backend of `pyproject.toml`. It needs only the standard library, so pip needs no
network. Each client is a single file here; in the wheel it is a package with that file, because
only a package can have `py.typed`, the mark of a package with types. `python3 -m mercator_service`
runs the service.

As a script, `make_wheel.py FOLDER` unpacks the wheel into FOLDER.
"""

from __future__ import annotations

import argparse
import base64
import hashlib
import os
import zipfile
from pathlib import Path
from typing import Any, Dict, Optional

HERE = Path(__file__).resolve().parent
NAME, VERSION = "mercator_clients", "0.2"
CLIENTS = ("mercator_frontier", "mercator_service", "mercator_cluster", "mercator_scrapy")
INFO = f"{NAME}-{VERSION}.dist-info"

METADATA = f"""\
Metadata-Version: 2.1
Name: mercator-clients
Version: {VERSION}
Summary: Python clients of mercator, a URL frontier for crawlers
License: MIT OR Apache-2.0
Classifier: Operating System :: POSIX :: Linux
Classifier: Typing :: Typed
Requires-Python: >=3.9
Provides-Extra: cluster
Requires-Dist: redis >=4.3 ; extra == 'cluster'
Provides-Extra: scrapy
Requires-Dist: scrapy >=2.8 ; extra == 'scrapy'
Description-Content-Type: text/markdown

"""
WHEEL = "Wheel-Version: 1.0\nGenerator: mercator\nRoot-Is-Purelib: true\nTag: py3-none-any\n"


def contents() -> Dict[str, bytes]:
    """Return the files of the wheel, by path."""
    files = {}
    for client in CLIENTS:
        files[f"{client}/__init__.py"] = (HERE / f"{client}.py").read_bytes()
        files[f"{client}/py.typed"] = b""
    files["mercator_service/__main__.py"] = b"from . import main\n\nraise SystemExit(main())\n"
    files[f"{INFO}/METADATA"] = METADATA.encode() + (HERE / "README.md").read_bytes()
    files[f"{INFO}/WHEEL"] = WHEEL.encode()
    record = [f"{name},sha256={digest(data)},{len(data)}" for name, data in files.items()]
    record.append(f"{INFO}/RECORD,,")
    files[f"{INFO}/RECORD"] = ("\n".join(record) + "\n").encode()
    return files


def digest(data: bytes) -> str:
    """Return the SHA-256 of the data in the form that a wheel's RECORD needs."""
    return base64.urlsafe_b64encode(hashlib.sha256(data).digest()).rstrip(b"=").decode()


def build_wheel(
    wheel_directory: str, config_settings: Any = None, metadata_directory: Optional[str] = None
) -> str:
    """Write the wheel into a folder and return its file name. pip calls this function."""
    name = f"{NAME}-{VERSION}-py3-none-any.whl"
    with zipfile.ZipFile(os.path.join(wheel_directory, name), "w") as wheel:
        for path, data in contents().items():
            wheel.writestr(zipfile.ZipInfo(path), data, zipfile.ZIP_DEFLATED)
    return name


def unpack(folder: Path) -> None:
    """Write the files of the wheel into a folder."""
    for path, data in contents().items():
        file = folder / path
        file.parent.mkdir(parents=True, exist_ok=True)
        file.write_bytes(data)


def main() -> None:
    parser = argparse.ArgumentParser(
        description="Unpack the wheel of the Python clients of mercator into a folder."
    )
    parser.add_argument(
        "folder", type=Path, metavar="FOLDER", help="folder to write to; created if missing"
    )
    unpack(parser.parse_args().folder)


if __name__ == "__main__":
    main()
