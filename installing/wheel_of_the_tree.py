"""Makes the wheel that pip installs, of the package as it stands: without another package, and without a network."""

from __future__ import annotations

import base64
import hashlib
import re
import shutil
import zipfile
from pathlib import Path

ROOT = Path(__file__).resolve().parent.parent
NAME = "mutants"
VERSION = re.findall(r'^__version__ = "(.*)"$', (ROOT / NAME / "__init__.py").read_text(encoding="utf-8"), re.M)[0]
SUMMARY = "From a program in FORTRAN 77 and its tests to what the tests kill, with the proved program mothra"
INFO = f"{NAME}-{VERSION}.dist-info"
FACTS = {"Name": NAME, "Version": VERSION, "Summary": SUMMARY, "Requires-Python": ">=3.10"}
ANY = "py3-none-any"
# The mode of a file, and of a program, as a wheel has it.
FILE, PROGRAM = 0o100644 << 16, 0o100755 << 16


def package_files() -> dict[str, bytes]:
    """The modules and the data of the package, by their paths in it."""
    found = (path for path in sorted((ROOT / NAME).rglob("*")) if path.suffix in (".py", ".txt", ".css", ".js"))
    return {path.relative_to(ROOT).as_posix(): path.read_bytes() for path in found}


def record_line(name: str, data: bytes) -> str:
    digest = base64.urlsafe_b64encode(hashlib.sha256(data).digest()).rstrip(b"=").decode()
    return f"{name},sha256={digest},{len(data)}\n"


def infos(tag: str) -> dict[str, bytes]:
    """What a wheel says of itself, by its path in it."""
    is_pure = str(tag == ANY).lower()
    texts = {
        "METADATA": "Metadata-Version: 2.1\n" + "".join(f"{name}: {value}\n" for name, value in FACTS.items()),
        "WHEEL": f"Wheel-Version: 1.0\nGenerator: wheel_of_the_tree\nRoot-Is-Purelib: {is_pure}\nTag: {tag}\n",
        "entry_points.txt": "[console_scripts]\nmutants = mutants.command:main\n",
    }
    return {f"{INFO}/{name}": text.encode() for name, text in texts.items()}


def write_wheel(folder: Path, tag: str, data: dict[str, bytes], programs: dict[str, bytes]) -> str:
    """The name of the wheel that is made in the folder: of the package, with more data and with programs."""
    files = package_files() | data | programs | infos(tag)
    record = "".join(record_line(*item) for item in files.items()) + f"{INFO}/RECORD,,\n"
    name = f"{NAME}-{VERSION}-{tag}.whl"
    with zipfile.ZipFile(folder / name, "w", zipfile.ZIP_DEFLATED) as wheel:
        for path, text in {**files, f"{INFO}/RECORD": record.encode()}.items():
            # The same files make the same wheel, whenever it is made.
            entry = zipfile.ZipInfo(path)
            entry.external_attr, entry.compress_type = PROGRAM if path in programs else FILE, zipfile.ZIP_DEFLATED
            wheel.writestr(entry, text)
    return name


def build_wheel(wheel_directory: str, config_settings: object = None, metadata_directory: object = None) -> str:
    """What pip asks for: the name of the wheel that is made in the folder, without programs."""
    name = write_wheel(Path(wheel_directory), ANY, {}, {})
    # Python keeps what it has compiled of this module: nothing is to be left in the tree.
    shutil.rmtree(Path(__file__).with_name("__pycache__"), ignore_errors=True)
    return name
