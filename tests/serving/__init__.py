"""The tests of `tests/serve.py` by subject, and a frontier in Python to test clients with."""

import sys
from pathlib import Path

ROOT = Path(__file__).resolve().parent.parent.parent
sys.path[:0] = [str(ROOT / "tests"), str(ROOT / "clients/python")]
