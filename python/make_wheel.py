"""Writes the wheel that pip installs (PEP 517): the module, the shared library beside it, and what a wheel says of itself."""

import base64
import hashlib
import pathlib
import platform
import re
import zipfile
from typing import Dict, List, Optional

ROOT = pathlib.Path(__file__).resolve().parent.parent
MODULE = ROOT / "python" / "sailmortar.py"
LIBRARY = ROOT / "target" / "library" / "libsailmortar.so.0"
STAMP = LIBRARY.with_name("stamp")  # The last thing that a build writes, and the first that it removes.
TAG = f"py3-none-linux_{platform.machine()}"  # Any Python 3: the library knows nothing of Python.


def build_wheel(wheel_directory: str, config_settings: Optional[dict] = None, metadata_directory: Optional[str] = None) -> str:
    """Writes the wheel into a folder and returns its name."""
    if not (LIBRARY.exists() and STAMP.exists()):
        raise SystemExit(f"{LIBRARY} is not there, or not whole: run 'cargo build' in {ROOT} first, which makes it; then 'pip install .' again.")
    said = project()
    stem = f"{said['name']}-{said['version']}"
    files = {MODULE.name: MODULE.read_bytes(), LIBRARY.name: LIBRARY.read_bytes(), **information(f"{stem}.dist-info", said)}
    record = f"{stem}.dist-info/RECORD"
    files[record] = "".join([recorded(path, data) for path, data in files.items()] + [f"{record},,\n"]).encode()
    name = f"{stem}-{TAG}.whl"
    with zipfile.ZipFile(pathlib.Path(wheel_directory) / name, "w", zipfile.ZIP_DEFLATED) as wheel:
        for path, data in files.items():
            wheel.writestr(entry(path), data)
    return name


def build_sdist(sdist_directory: str, config_settings: Optional[dict] = None) -> str:
    raise SystemExit("There is no source distribution of sailmortar: its library is proved and built in the repository, by 'cargo build'.")


def project() -> Dict[str, str]:
    """What pyproject.toml says of the project. Python reads TOML by itself from 3.11 on only, and these are lines of one text each."""
    text = (ROOT / "pyproject.toml").read_text(encoding="utf-8")
    table = text.partition("[project]\n")[2].partition("\n[")[0]
    return dict(re.findall(r'^([\w-]+) = "([^"\\]*)"$', table, re.MULTILINE))


def information(folder: str, said: Dict[str, str]) -> Dict[str, bytes]:
    metadata = [("Metadata-Version", "2.1"), ("Name", said["name"]), ("Version", said["version"])]
    metadata += [("Summary", said["description"]), ("Requires-Python", said["requires-python"])]
    wheel = [("Wheel-Version", "1.0"), ("Generator", "sailmortar"), ("Root-Is-Purelib", "false"), ("Tag", TAG)]
    return {f"{folder}/METADATA": headers(metadata), f"{folder}/WHEEL": headers(wheel)}


def headers(lines: List[tuple]) -> bytes:
    return "".join(f"{name}: {value}\n" for name, value in lines).encode()


def recorded(path: str, data: bytes) -> str:
    """A file's line in RECORD."""
    digest = base64.urlsafe_b64encode(hashlib.sha256(data).digest()).rstrip(b"=").decode()
    return f"{path},sha256={digest},{len(data)}\n"


def entry(path: str) -> zipfile.ZipInfo:
    """A file's entry, of one date for all, so that the same files make the same wheel."""
    made = zipfile.ZipInfo(path)
    made.compress_type = zipfile.ZIP_DEFLATED
    made.external_attr = (0o755 if path == LIBRARY.name else 0o644) << 16
    return made
