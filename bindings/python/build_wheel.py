"""Makes the wheel of the package, which has the shared object of the library in it, with Python alone: `pip wheel .`
and `pip install .` call `build_wheel`, and want neither another package nor a network. The shared object is the one
that JUMBETAI_LIB names, else libjumbetai.so in the folder of the package. The same files give the same bytes.
"""
from __future__ import annotations

import base64
import hashlib
import os
import re
import sysconfig
import zipfile
from typing import Any, Optional

HERE = os.path.dirname(os.path.abspath(__file__))
FILES = ("__init__.py", "_c.py", "py.typed")


def _read(file: str) -> bytes:
    with open(file, "rb") as it:
        return it.read()


def _told(project: str, name: str) -> str:
    found = re.search(rf'^{name} = "(.*)"$', project, re.M)
    if not found:
        raise ValueError(f"pyproject.toml tells no {name}")
    return found[1]


def made(folder: str, library: str) -> str:
    """Makes the wheel of this shared object in a folder; answers its name."""
    project = _read(f"{HERE}/pyproject.toml").decode()
    name, version = _told(project, "name"), _told(project, "version")
    tag = "py3-none-" + re.sub("[-.]", "_", sysconfig.get_platform())
    about = f"{name}-{version}.dist-info"
    metadata = (
        f"Metadata-Version: 2.1\nName: {name}\nVersion: {version}\nSummary: {_told(project, 'description')}\n"
        f"Requires-Python: {_told(project, 'requires-python')}\nDescription-Content-Type: text/markdown\n\n"
    )
    files = {f"{name}/{it}": _read(f"{HERE}/{name}/{it}") for it in FILES}
    files[f"{name}/libjumbetai.so"] = _read(library)
    files[f"{about}/METADATA"] = metadata.encode() + _read(f"{HERE}/README.md")
    files[f"{about}/WHEEL"] = f"Wheel-Version: 1.0\nGenerator: jumbetai\nRoot-Is-Purelib: false\nTag: {tag}\n".encode()
    lines = []
    for file, content in files.items():
        digest = base64.urlsafe_b64encode(hashlib.sha256(content).digest()).rstrip(b"=").decode()
        lines.append(f"{file},sha256={digest},{len(content)}\n")
    files[f"{about}/RECORD"] = f"{''.join(lines)}{about}/RECORD,,\n".encode()
    wheel = f"{name}-{version}-{tag}.whl"
    with zipfile.ZipFile(os.path.join(folder, wheel), "w") as out:
        for file, content in files.items():
            entry = zipfile.ZipInfo(file, (1980, 1, 1, 0, 0, 0))
            entry.external_attr = (0o755 if file.endswith(".so") else 0o644) << 16
            entry.compress_type = zipfile.ZIP_DEFLATED
            out.writestr(entry, content)
    return wheel


def build_wheel(wheel_directory: str, config_settings: Any = None, metadata_directory: Optional[str] = None) -> str:
    """What pip calls."""
    library = os.environ.get("JUMBETAI_LIB") or f"{HERE}/jumbetai/libjumbetai.so"
    if not os.path.isfile(library):
        raise SystemExit(f"no library is at {library}: JUMBETAI_LIB names another, which tools/library.py makes")
    return made(wheel_directory, library)
