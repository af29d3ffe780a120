"""Makes the wheel of the package: the modules, the shared object, and what pip wants to know of them.

It is the build backend that pyproject.toml names, so that pip can install this folder; `build-wheel` calls it too. It needs
nothing but Python from 3.11 on.

The same sources and the same shared object make the same bytes: all files are dated SOURCE_DATE_EPOCH, in seconds, or else to the
first day that a zip file can name.
"""

import base64
import hashlib
import os
import subprocess
import sys
import time
import tomllib
import zipfile
from pathlib import Path

HERE = Path(__file__).resolve().parent
ROOT = HERE.parent.parent
# Linux on x86-64-v2, and no more of Python than the stable ABI
TAG = "py3-none-linux_x86_64"
MODULES = ("__init__.py", "_calls.py", "_faults.py", "_library.py", "py.typed")


def build_wheel(wheel_directory, config_settings=None, metadata_directory=None):
    """Makes the wheel in a folder, and answers its name."""
    project = tomllib.loads((HERE / "pyproject.toml").read_text())["project"]
    version = (ROOT / "VERSION").read_text().strip()
    facts = f"{project['name']}-{version}.dist-info"
    files = {f"gedtool/{name}": (HERE / "src/gedtool" / name).read_bytes() for name in MODULES}
    files["gedtool/libgedtool.so"] = _library().read_bytes()
    files[f"{facts}/METADATA"] = _metadata(project, version).encode()
    files[f"{facts}/WHEEL"] = f"Wheel-Version: 1.0\nGenerator: gedtool\nRoot-Is-Purelib: false\nTag: {TAG}\n".encode()
    files[f"{facts}/LICENSE"] = (ROOT / "LICENSE").read_bytes()
    files[f"{facts}/RECORD"] = _record(files, f"{facts}/RECORD").encode()
    name = f"{project['name']}-{version}-{TAG}.whl"
    Path(wheel_directory).mkdir(parents=True, exist_ok=True)
    _write_zip(Path(wheel_directory) / name, files)
    return name


def build_sdist(sdist_directory, config_settings=None):
    """There is none: the shared object is proved and built in the repository."""
    raise NotImplementedError("gedtool has no source distribution")


def _library():
    """The shared object that GEDTOOL_LIBRARY names, or the one of ffi/c, which is made first where it is not there or a source has changed."""
    if named := os.environ.get("GEDTOOL_LIBRARY"):
        return Path(named)
    subprocess.run(["make", "-s", "-C", ROOT / "ffi/c", "out/libgedtool.so"], check=True, stdout=sys.stderr)
    return ROOT / "ffi/c/out/libgedtool.so"


def _metadata(project, version):
    """The wheel's METADATA, by pyproject.toml."""
    heads = {
        "Metadata-Version": "2.1",
        "Name": project["name"],
        "Version": version,
        "Summary": project["description"],
        "License": project["license"]["text"],
        "Keywords": ",".join(project["keywords"]),
        "Requires-Python": project["requires-python"],
        "Description-Content-Type": "text/markdown",
    }
    rows = [f"{name}: {value}" for name, value in heads.items()]
    rows += [f"Classifier: {value}" for value in project["classifiers"]]
    return "\n".join(rows) + "\n\n" + (HERE / project["readme"]).read_text()


def _record(files, name):
    """The wheel's RECORD: of each file its digest and its length, but not of itself."""
    rows = []
    for path, content in files.items():
        digest = base64.urlsafe_b64encode(hashlib.sha256(content).digest()).rstrip(b"=").decode()
        rows.append(f"{path},sha256={digest},{len(content)}\n")
    return "".join(rows) + f"{name},,\n"


def _write_zip(path, files):
    """Writes a zip file in which nothing depends on the day, the machine or its user."""
    first_day = 315532800
    date = time.gmtime(max(int(os.environ.get("SOURCE_DATE_EPOCH", first_day)), first_day))[:6]
    with zipfile.ZipFile(path, "w") as wheel:
        for name, content in files.items():
            entry = zipfile.ZipInfo(name, date)
            entry.external_attr = (0o100755 if name.endswith(".so") else 0o100644) << 16
            entry.create_system = 3
            wheel.writestr(entry, content, zipfile.ZIP_DEFLATED, 9)
