"""The folder of the repository of which the package is a part."""

from pathlib import Path

ROOT = Path(__file__).resolve().parent.parent.parent
