"""Builds the package that `pip install .` installs, by the standard library alone, so that a fresh venv without a network can install it.

The build backend of pyproject.toml, by the hooks of PEP 517 and 660. A wheel holds the package of Python and, in its folder `program`, what
runs without the repository: the script, both built programs with their sums, and the table of words.
"""
from __future__ import annotations

import base64
import hashlib
import re
import sys
import zipfile
from pathlib import Path
from typing import Any, Dict, Iterable, Iterator, List, Optional, Tuple

TOP = Path(__file__).resolve().parent.parent
# what stands in the folder `program` of the installed package as it does at the top of the repository
PROGRAM = (
    "hydroplan", "python/__main__.py", "bin/CRATES", "bin/SHA256SUMS", "bin/choose.bash", "bin/commands.txt", "bin/hydroplan-x86_64-linux",
    "bin/words.bash", "bin/worker/CRATES", "bin/worker/SHA256SUMS", "bin/worker/hydroplan_worker-x86_64-linux",
)
TAG = "py3-none-linux_x86_64"
EXECUTABLE, PLAIN = 0o100755, 0o100644
# the first time that an archive can hold: the same files make the same wheel
TIME = (1980, 1, 1, 0, 0, 0)
Entry = Tuple[str, bytes, int]


def get_requires_for_build_wheel(config_settings: Optional[Dict[str, Any]] = None) -> List[str]:
    """What has to be installed before a wheel is built: nothing, but what reads TOML in an older Python."""
    return [] if sys.version_info >= (3, 11) else ["tomli"]


get_requires_for_build_editable = get_requires_for_build_wheel


def build_wheel(wheel_directory: str, config_settings: Optional[Dict[str, Any]] = None, metadata_directory: Optional[str] = None) -> str:
    """Writes the wheel into a folder; its name."""
    return _write(Path(wheel_directory), [*package_files(), *program_files()])


def build_editable(wheel_directory: str, config_settings: Optional[Dict[str, Any]] = None, metadata_directory: Optional[str] = None) -> str:
    """Writes a wheel that leads to the package in this repository into a folder; its name."""
    return _write(Path(wheel_directory), [("hydroplan.pth", f"{TOP / 'python'}\n".encode(), PLAIN)])


def package_files() -> Iterator[Entry]:
    """The package of Python."""
    package = TOP / "python" / "hydroplan"
    for file in sorted(it for it in package.rglob("*") if it.is_file() and "__pycache__" not in it.parts):
        yield f"hydroplan/{file.relative_to(package).as_posix()}", file.read_bytes(), PLAIN


def program_files() -> Iterator[Entry]:
    """The built programs and what runs them, each as executable as it is here."""
    for name in PROGRAM:
        file = TOP / name
        yield f"hydroplan/program/{name}", file.read_bytes(), EXECUTABLE if file.stat().st_mode & 0o100 else PLAIN


def _write(folder: Path, entries: Iterable[Entry]) -> str:
    """Writes a wheel of these files and of what pip has to know of the package; its name."""
    project = _project()
    about = f"{project['name']}-{project['version']}.dist-info"
    files = [*entries, *((f"{about}/{name}", text.encode("utf-8"), PLAIN) for name, text in _about(project))]
    record = "".join(f"{name},sha256={_digest(data)},{len(data)}\n" for name, data, _ in files) + f"{about}/RECORD,,\n"
    name = f"{project['name']}-{project['version']}-{TAG}.whl"
    with zipfile.ZipFile(folder / name, "w", zipfile.ZIP_DEFLATED) as wheel:
        for path, data, mode in [*files, (f"{about}/RECORD", record.encode("utf-8"), PLAIN)]:
            entry = zipfile.ZipInfo(path, TIME)
            entry.external_attr, entry.compress_type = mode << 16, zipfile.ZIP_DEFLATED
            wheel.writestr(entry, data)
    return name


def _project() -> Dict[str, Any]:
    """The table `project` of pyproject.toml."""
    if sys.version_info >= (3, 11):
        import tomllib
    else:
        import tomli as tomllib
    project: Dict[str, Any] = tomllib.loads((TOP / "pyproject.toml").read_text(encoding="utf-8"))["project"]
    return project


def _about(project: Dict[str, Any]) -> Iterator[Tuple[str, str]]:
    """The files that tell pip of the package: what it is, of which form, and its commands."""
    heads = [
        "Metadata-Version: 2.1", f"Name: {project['name']}", f"Version: {project['version']}", f"Summary: {project['description']}",
        f"Requires-Python: {project['requires-python']}", *(f"Requires-Dist: {it}" for it in project["dependencies"]),
    ]
    for extra, wanted in project["optional-dependencies"].items():
        heads += [f"Provides-Extra: {extra}", *(f"Requires-Dist: {_only_with(extra, it)}" for it in wanted)]
    readme = (TOP / project["readme"]).read_text(encoding="utf-8")
    yield "METADATA", "\n".join([*heads, "Description-Content-Type: text/markdown", "", readme])
    yield "WHEEL", f"Wheel-Version: 1.0\nGenerator: hydroplan\nRoot-Is-Purelib: true\nTag: {TAG}\n"
    yield "entry_points.txt", "[console_scripts]\n" + "".join(f"{name} = {place}\n" for name, place in project["scripts"].items())


def _only_with(extra: str, requirement: str) -> str:
    """A requirement that holds where an extra is asked for, beside the condition that it has."""
    name, _, condition = (it.strip() for it in requirement.partition(";"))
    return f'{name}; {f"({condition}) and " if condition else ""}extra == "{re.sub("[^a-z0-9]+", "-", extra.lower())}"'


def _digest(data: bytes) -> str:
    """The SHA-256 of a file as a record of a wheel has it."""
    return base64.urlsafe_b64encode(hashlib.sha256(data).digest()).rstrip(b"=").decode("ascii")
