"""Makes a wheel, a zip of the package with the shared object in it, when `pip` asks for one. It needs only Python.

It works on the copy that `make library` leaves in bindings/out/python, since the object is there. As a program it writes the
wheel into a folder: make_wheel.py FOLDER. The same files give the same bytes.
"""

from __future__ import annotations

import re
import sys
import zipfile
from base64 import urlsafe_b64encode
from hashlib import sha256
from pathlib import Path

HERE = Path(__file__).resolve().parent

# Any Python 3, on Linux: the object needs nothing newer than that year's C library.
TAG = "py3-none-manylinux2014_"


def build_wheel(folder: str, config_settings: object = None, metadata_directory: object = None) -> str:
    """Writes the wheel into a folder, and returns its name."""
    if not (HERE / "unixvol/libunixvol.so.0").is_file():
        raise FileNotFoundError("the shared object isn't here: run `make library`, and install bindings/out/python")
    told = dict(re.findall(r'^(\w[\w-]*) = "(.*)"$', (HERE / "pyproject.toml").read_text(), re.M))
    name = f"unixvol-{told['version']}"
    # `make library` adds the machine to pyproject.toml, if it is another one.
    tag = TAG + told.get("machine", "x86_64")
    files = {f"unixvol/{it.name}": it.read_bytes() for it in sorted((HERE / "unixvol").iterdir()) if it.is_file()}
    files[f"{name}.dist-info/METADATA"] = (
        f"Metadata-Version: 2.1\nName: unixvol\nVersion: {told['version']}\nSummary: {told['description']}\n"
        f"License: MIT\nRequires-Python: {told['requires-python']}\n"
    ).encode()
    files[f"{name}.dist-info/LICENSE"] = (HERE / "LICENSE").read_bytes()
    files[f"{name}.dist-info/WHEEL"] = f"Wheel-Version: 1.0\nRoot-Is-Purelib: false\nTag: {tag}\n".encode()
    files[f"{name}.dist-info/RECORD"] = record_of(files, f"{name}.dist-info/RECORD").encode()
    with zipfile.ZipFile(Path(folder, f"{name}-{tag}.whl"), "w") as wheel:
        for path, data in files.items():
            entry = zipfile.ZipInfo(path)
            entry.external_attr = 0o644 << 16
            # Not compressed: releases are, as a whole, and versions of zlib compress to different bytes.
            wheel.writestr(entry, data, zipfile.ZIP_STORED)
    return f"{name}-{tag}.whl"


def record_of(files: dict[str, bytes], itself: str) -> str:
    """Returns the list of the files, each with its checksum and size."""
    sums = {path: urlsafe_b64encode(sha256(data).digest()).rstrip(b"=").decode() for path, data in files.items()}
    return "".join(f"{path},sha256={sums[path]},{len(data)}\n" for path, data in files.items()) + f"{itself},,\n"


if __name__ == "__main__":
    print(build_wheel(sys.argv[1]))
