"""Where the package lies in this repository; a bench that has installed it needs no such file."""

import sys
from pathlib import Path

sys.path.insert(0, str(Path(__file__).resolve().parents[2] / "python"))
