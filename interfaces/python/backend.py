"""Builds the package for pip, with Python and a C compiler alone: a wheel with the modules and the shared library.

The library is dochirwa/libdochirwa.so, if it is there. Otherwise it is linked from $ARCHIVE, or from the archive that
`rt lib` leaves in crates/dochirwa/out, with what it needs of the toolchain's folder in $RATTLE_KIT (/opt/rattle).
"""
import base64
import glob
import hashlib
import os
import shlex
import subprocess
import sysconfig
import tempfile
import zipfile

HERE = os.path.dirname(os.path.abspath(__file__))
PACKAGE = os.path.join(HERE, "dochirwa")
LICENSE = os.path.join(HERE, "..", "..", "LICENSE")
ARCHIVE = os.path.join(HERE, "..", "..", "crates", "dochirwa", "out", "libdochirwa.a")
LIBRARY = "libdochirwa.so"
NAME = "dochirwa-0.2.0"
METADATA = """Metadata-Version: 2.4
Name: dochirwa
Version: 0.2.0
Summary: Reports errors, logs, metrics and traces to Sentry, by a proved engine
License-Expression: MIT
License-File: LICENSE
Requires-Python: >=3.9
Keywords: sentry,errors,logs,metrics,traces
Classifier: Development Status :: 4 - Beta
Classifier: Intended Audience :: Developers
Classifier: Operating System :: POSIX :: Linux
Classifier: Programming Language :: Python :: 3
Classifier: Framework :: Flask
Classifier: Typing :: Typed
Provides-Extra: flask
Requires-Dist: flask>=2.2; extra == "flask"
"""


def read(path):
    with open(path, "rb") as file:
        return file.read()


def linked_library():
    """The bytes of the shared library."""
    kit = os.path.join(os.environ.get("RATTLE_KIT", "/opt/rattle"), "c")
    archive, *others = os.environ.get("ARCHIVE") or ARCHIVE, *(os.path.join(kit, it) for it in ("liblibc_c.a", "libos_c.a"))
    for it in (archive, *others):
        if not os.path.isfile(it):
            raise SystemExit(f"{it} is not there: `rt lib` in crates/dochirwa builds the library (docs/INTERFACES.md)")
    with tempfile.TemporaryDirectory() as folder:
        path = os.path.join(folder, LIBRARY)
        whole = "-Wl,--whole-archive", archive, "-Wl,--no-whole-archive"
        compiler = shlex.split(os.environ.get("CC") or "cc")
        subprocess.run([*compiler, "-shared", "-o", path, *whole, *others], check=True)
        return read(path)


def package_files():
    """The files of the package, by their names in the wheel."""
    kinds = "**/*.py", "py.typed", LIBRARY
    paths = sorted(path for kind in kinds for path in glob.glob(os.path.join(PACKAGE, kind), recursive=True))
    found = {os.path.relpath(path, HERE): read(path) for path in paths}
    if f"dochirwa/{LIBRARY}" not in found:
        found[f"dochirwa/{LIBRARY}"] = linked_library()
    return found


def recorded(name, content):
    digest = base64.urlsafe_b64encode(hashlib.sha256(content).digest()).rstrip(b"=").decode()
    return f"{name},sha256={digest},{len(content)}\n"


def build_wheel(wheel_directory, config_settings=None, metadata_directory=None):
    """What pip calls. It answers the name of the wheel, which is for one kind of machine."""
    tag = f"py3-none-{sysconfig.get_platform().replace('-', '_').replace('.', '_')}"
    info = f"{NAME}.dist-info"
    about = f"Wheel-Version: 1.0\nGenerator: dochirwa\nRoot-Is-Purelib: false\nTag: {tag}\n"
    files = {**package_files(), f"{info}/METADATA": METADATA.encode(), f"{info}/WHEEL": about.encode()}
    files[f"{info}/licenses/LICENSE"] = read(LICENSE)
    record = f"{info}/RECORD"
    lines = "".join(recorded(*it) for it in files.items()) + f"{record},,\n"
    with zipfile.ZipFile(os.path.join(wheel_directory, f"{NAME}-{tag}.whl"), "w", zipfile.ZIP_DEFLATED) as wheel:
        for name, content in {**files, record: lines.encode()}.items():
            wheel.writestr(name, content)
    return f"{NAME}-{tag}.whl"
