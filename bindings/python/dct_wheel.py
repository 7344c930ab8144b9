"""Makes the wheel of dct.py with the shared object inside, for pip (PEP 517) and by itself: `python3 dct_wheel.py FOLDER`."""
import base64
import hashlib
import os
import platform
import runpy
import subprocess
import sys
import zipfile
from pathlib import Path

_HERE = Path(__file__).resolve().parent
_ROOT = _HERE.parent.parent
_TAG = "py3-none-linux_x86_64"
_METADATA = """Metadata-Version: 2.1
Name: dct
Version: {version}
Summary: Reading and writing the coded fields of diagnostic messages
License: Apache-2.0
Requires-Python: >=3.8
"""
_WHEEL = f"""Wheel-Version: 1.0
Generator: dct_wheel
Root-Is-Purelib: false
Tag: {_TAG}
"""


class UnsupportedOperation(Exception):
    """What PEP 517 has a backend raise that makes no sdist."""


def _shared():
    """Has the repository make its shared object, where that is missing or old."""
    script = _ROOT / "bindings" / "shared"
    if not script.exists():
        raise SystemExit(f"dct: no {script}: the wheel is made in the repository, or DCT_LIBRARY names a libdct.so")
    status = subprocess.run([str(script)], stdout=sys.stderr).returncode
    if status != 0:
        raise SystemExit(status)  # it has said why, in a line
    return _ROOT / "target" / "shared" / "libdct.so"


def _module():
    """What dct.py defines once it has loaded the shared object that goes in: no wheel is made of one that it cannot use."""
    if platform.machine() not in ("x86_64", "AMD64"):
        raise SystemExit(f"dct: the library is x86-64 code, and this machine is {platform.machine()}: see docs/MACHINES.md")
    if not os.environ.get("DCT_LIBRARY"):
        os.environ["DCT_LIBRARY"] = str(_shared())
    try:
        return runpy.run_path(str(_HERE / "dct.py"))
    except ImportError as error:
        raise SystemExit(str(error)) from None


def _record(files, path):
    """The list of all files with their hashes; it cannot have its own."""
    lines = []
    for name, data in files.items():
        digest = base64.urlsafe_b64encode(hashlib.sha256(data).digest()).rstrip(b"=").decode()
        lines.append(f"{name},sha256={digest},{len(data)}\n")
    return "".join([*lines, f"{path},,\n"]).encode()


def build_wheel(wheel_directory, config_settings=None, metadata_directory=None):
    """Writes the wheel into a folder and returns its name. The same sources make the same bytes."""
    module = _module()
    version = module["__version__"]
    info = f"dct-{version}.dist-info"
    files = {"dct/__init__.py": (_HERE / "dct.py").read_bytes(), "dct/libdct.so": Path(module["_library"]._name).read_bytes()}
    files[f"{info}/METADATA"] = _METADATA.format(version=version).encode()
    files[f"{info}/WHEEL"] = _WHEEL.encode()
    for name in ("LICENSE", "NOTICE"):
        if (_ROOT / name).is_file():
            files[f"{info}/{name}"] = (_ROOT / name).read_bytes()
    files[f"{info}/RECORD"] = _record(files, f"{info}/RECORD")
    wheel = f"dct-{version}-{_TAG}.whl"
    with zipfile.ZipFile(os.path.join(wheel_directory, wheel), "w") as archive:
        for name, data in files.items():
            entry = zipfile.ZipInfo(name)  # its time is always the same
            entry.external_attr = 0o100644 << 16
            archive.writestr(entry, data)
    return wheel


def get_requires_for_build_wheel(config_settings=None):
    return []


def build_sdist(sdist_directory, config_settings=None):
    raise UnsupportedOperation("dct: there is no sdist, since the wheel needs the proved archive of the repository")


if __name__ == "__main__":
    if len(sys.argv) != 2:
        raise SystemExit("dct: it takes the folder to put the wheel into: dct_wheel.py FOLDER")
    os.makedirs(sys.argv[1], exist_ok=True)
    print(os.path.join(sys.argv[1], build_wheel(sys.argv[1])))
