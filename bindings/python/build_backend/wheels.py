"""Builds the wheel (PEP 517 and 427): the package with a machine's shared object of dist/, or with that of the folder
that CIMAROLY_LIB_DIR names.

It uses the standard library alone. What it knows of the package it takes from pyproject.toml, by the lines of its values.
"""

from __future__ import annotations

import base64
import hashlib
import os
import platform
import re
import zipfile
from typing import Any, Optional

HERE = os.path.dirname(os.path.dirname(os.path.abspath(__file__)))
LIBRARY = "libcimaroly.so"
# The processors for which there are builds, as platform.machine() and wheels call them.
PROCESSORS = ("x86_64", "aarch64")
LICENCES = ("LICENSE-APACHE", "LICENSE-MIT", "NOTICE")


def _read(path: str) -> bytes:
    with open(path, "rb") as file:
        return file.read()


def _project() -> dict[str, str]:
    """The texts of the table [project]."""
    table = _read(f"{HERE}/pyproject.toml").decode().split("\n[project]\n")[1].split("\n[")[0]
    return dict(re.findall(r'^([a-z-]+) = "(.*)"$', table, re.MULTILINE))


def _metadata(project: dict[str, str]) -> bytes:
    lines = [
        "Metadata-Version: 2.4",
        f"Name: {project['name']}",
        f"Version: {project['version']}",
        f"Summary: {project['description']}",
        f"Requires-Python: {project['requires-python']}",
        f"License-Expression: {project['license']}",
        *(f"License-File: {it}" for it in LICENCES),
        "Description-Content-Type: text/markdown",
        "",
    ]
    return "\n".join(lines).encode() + b"\n" + _read(f"{HERE}/{project['readme']}")


def _shared_object(processor: str) -> bytes:
    folder = os.environ.get("CIMAROLY_LIB_DIR") or f"{HERE}/../../dist/{processor}-linux"
    path = os.path.abspath(f"{folder}/{LIBRARY}")
    if not os.path.isfile(path):
        builds = "there are builds for Linux on x86-64 and aarch64, and the WebAssembly module in web/ runs anywhere"
        raise FileNotFoundError(f"there is no {path} ({builds}): name another folder of {LIBRARY} by CIMAROLY_LIB_DIR")
    return _read(path)


def _package(processor: str) -> dict[str, bytes]:
    """The files of the package, by their paths in the wheel."""
    names = [it for it in sorted(os.listdir(f"{HERE}/cimaroly")) if it.endswith((".py", ".typed"))]
    files = {f"cimaroly/{it}": _read(f"{HERE}/cimaroly/{it}") for it in names}
    return files | {f"cimaroly/{LIBRARY}": _shared_object(processor)}


def _record(files: dict[str, bytes], name: str) -> bytes:
    lines = []
    for path, content in files.items():
        digest = base64.urlsafe_b64encode(hashlib.sha256(content).digest()).rstrip(b"=").decode()
        lines.append(f"{path},sha256={digest},{len(content)}\n")
    return "".join([*lines, f"{name},,\n"]).encode()


def _write(folder: str, files: dict[str, bytes], processor: str) -> str:
    """Writes the wheel of these files, and gives its name."""
    project = _project()
    tag = f"py3-none-manylinux_2_34_{processor}"
    stem = f"{project['name']}-{project['version']}"
    about = f"{stem}.dist-info"
    files = files | {
        **{f"{about}/licenses/{it}": _read(f"{HERE}/../../{it}") for it in LICENCES},
        f"{about}/METADATA": _metadata(project),
        f"{about}/WHEEL": f"Wheel-Version: 1.0\nGenerator: cimaroly\nRoot-Is-Purelib: false\nTag: {tag}\n".encode(),
    }
    files[f"{about}/RECORD"] = _record(files, f"{about}/RECORD")
    name = f"{stem}-{tag}.whl"
    with zipfile.ZipFile(f"{folder}/{name}", "w", zipfile.ZIP_DEFLATED) as wheel:
        for path, content in files.items():
            # (with one time for all, so that the same files make the same wheel)
            entry = zipfile.ZipInfo(path)
            entry.compress_type = zipfile.ZIP_DEFLATED
            entry.external_attr = 0o644 << 16
            wheel.writestr(entry, content)
    return name


def build_for(processor: str, folder: str) -> str:
    """Writes the wheel for a processor, and gives its name."""
    return _write(folder, _package(processor), processor)


def build_wheel(wheel_directory: str, config_settings: Optional[Any] = None, metadata_directory: Optional[str] = None) -> str:
    """The hook of `pip install` and `pip wheel`."""
    return build_for(platform.machine(), wheel_directory)


def build_editable(wheel_directory: str, config_settings: Optional[Any] = None, metadata_directory: Optional[str] = None) -> str:
    """The hook of `pip install -e`: a path to this folder, whose library is that of dist/."""
    return _write(wheel_directory, {"cimaroly.pth": f"{HERE}\n".encode()}, platform.machine())


def build_sdist(sdist_directory: str, config_settings: Optional[Any] = None) -> str:
    """There is no source distribution: the library is built from the whole repository."""
    raise NotImplementedError("cimaroly is installed from its repository, or from a wheel")
