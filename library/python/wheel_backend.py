"""Makes the wheel of the package, with libfarmap.so in it, without anything from outside.

FARMAP_PREFIX names the folder of libfarmap, which `bin/build library` prints. Without it the wheel has no library, and the
package looks for one at run time: in FARMAP_LIBRARY, and where the system has its libraries.
"""
import base64
import hashlib
import os
import zipfile
from pathlib import Path

HERE = Path(__file__).resolve().parent
NAME, VERSION = "farmap", "0.4.0"
INFO = f"{NAME}-{VERSION}.dist-info"
METADATA = f"""Metadata-Version: 2.1
Name: {NAME}
Version: {VERSION}
Summary: A concurrent map of bytes that may be larger than its memory
License: Apache-2.0
Requires-Python: >=3.9
"""


def library():
    prefix = os.environ.get("FARMAP_PREFIX")
    if not prefix:
        return None
    path = Path(prefix) / "lib/libfarmap.so"
    if not path.is_file():
        raise SystemExit(f"there is no {path}: FARMAP_PREFIX has to be the folder that `bin/build library` prints")
    return path


def build_wheel(wheel_directory, config_settings=None, metadata_directory=None):
    own = library()
    tag = "py3-none-linux_x86_64" if own else "py3-none-any"
    files = {f"{NAME}/{path.name}": path.read_bytes() for path in sorted((HERE / "src/farmap").iterdir()) if path.is_file()}
    if own:
        files[f"{NAME}/libfarmap.so"] = own.read_bytes()
    files[f"{INFO}/METADATA"] = METADATA.encode()
    files[f"{INFO}/WHEEL"] = f"Wheel-Version: 1.0\nGenerator: {NAME}\nRoot-Is-Purelib: {str(not own).lower()}\nTag: {tag}\n".encode()
    lines = []
    for path, content in files.items():
        digest = base64.urlsafe_b64encode(hashlib.sha256(content).digest()).rstrip(b"=").decode()
        lines.append(f"{path},sha256={digest},{len(content)}\n")
    files[f"{INFO}/RECORD"] = ("".join(lines) + f"{INFO}/RECORD,,\n").encode()
    wheel = f"{NAME}-{VERSION}-{tag}.whl"
    with zipfile.ZipFile(Path(wheel_directory) / wheel, "w", zipfile.ZIP_DEFLATED) as out:
        for path, content in files.items():
            out.writestr(zipfile.ZipInfo(path, (2020, 1, 1, 0, 0, 0)), content, zipfile.ZIP_DEFLATED)
    return wheel
