"""Where things are in the checkout."""

import pathlib

PYTHON = pathlib.Path(__file__).resolve().parent.parent
ROOT = PYTHON.parent
EXAMPLES = ROOT / "examples"
