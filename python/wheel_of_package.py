"""Makes the wheel of `fadrinzo`, for `pip install` (PEP 517), with Python's own library and a C compiler alone.

    python3 python/wheel_of_package.py FOLDER

The shared library in it is compiled of `rust/dist/MACHINE.s`, `c/fadrinzo.c` and `c/heap.c`. These lie beside `python/`, or in it, in a
package of the sources. `CC` names the compiler.
"""
import base64
import hashlib
import os
import pathlib
import platform
import re
import shlex
import subprocess
import sys
import tarfile
import tempfile
import zipfile

HERE = pathlib.Path(__file__).resolve().parent
NAME = "fadrinzo"
VERSION = re.search(r'^__version__ = "(.*)"', (HERE / NAME / "__init__.py").read_text(encoding="utf-8"), re.M)[1]
INFO = f"{NAME}-{VERSION}.dist-info"
FROM_C = ["fadrinzo.c", "fadrinzo.h", "fadrinzo_exports.h", "heap.c", "fadrinzo.map"]
TIME = (2020, 1, 1, 0, 0, 0)


def part(path):
    """A file of the repository."""
    found = [it for it in (HERE / path, HERE.parent / path) if it.is_file()]
    if not found:
        raise SystemExit(f"{NAME}: there is no {path}: the proved library is there for x86_64-linux")
    return found[0]


def modules():
    """The files of the package, and the one that says that it has type hints."""
    return [*sorted((HERE / NAME).glob("*.py")), HERE / NAME / "py.typed"]


def machine():
    """The machine that this Python runs on, as `rust/dist/` names it."""
    return f"{platform.machine()}-{platform.system().lower()}"


def shared_library(folder):
    """Compiles the shared library, and returns its path."""
    made = pathlib.Path(folder) / "libfadrinzo.so"
    compiler = shlex.split(os.environ.get("CC", "cc"))
    flags = ["-std=c11", "-O2", "-fPIC", "-shared", "-Wl,--gc-sections", "-Wl,-z,noexecstack", "-Wl,-z,relro,-z,now", "-Wl,-s"]
    sources = [part("c/fadrinzo.c"), part("c/heap.c"), part(f"rust/dist/{machine()}.s")]
    subprocess.run([*compiler, *flags, f"-Wl,--version-script={part('c/fadrinzo.map')}", *sources, "-o", made], check=True)
    return made


def oldest_libc(library):
    """The version of the C library that the shared library needs, by the names of versions in it, as `2_17`."""
    needed = [tuple(map(int, it)) for it in re.findall(rb"GLIBC_(\d+)\.(\d+)(?:\.\d+)?\0", library.read_bytes())]
    return "{}_{}".format(*max([(2, 17), *needed]))


def tag(library):
    """The tag of the wheel: any Python 3, on this machine, with that C library or a later one."""
    has_glibc = b"GLIBC_" in library.read_bytes()
    return f"py3-none-{f'manylinux_{oldest_libc(library)}' if has_glibc else 'musllinux_1_1'}_{platform.machine()}"


def metadata():
    """What the wheel says of the package."""
    return (f"Metadata-Version: 2.1\nName: fadrinzo\nVersion: {VERSION}\nSummary: Overlays of polygons by a proved library\n"
            f"License: MIT OR Apache-2.0\nRequires-Python: >=3.8\nDescription-Content-Type: text/markdown\n\n"
            + (HERE / "README.md").read_text(encoding="utf-8"))


def build_wheel(wheel_directory, config_settings=None, metadata_directory=None):
    """Writes the wheel, and returns its name."""
    with tempfile.TemporaryDirectory() as folder:
        library = shared_library(folder)
        files = {f"{NAME}/{it.name}": it.read_bytes() for it in modules()}
        files[f"{NAME}/libfadrinzo.so"] = library.read_bytes()
        wheel_tag = tag(library)
    files[f"{INFO}/METADATA"] = metadata().encode()
    files[f"{INFO}/WHEEL"] = f"Wheel-Version: 1.0\nGenerator: {NAME}\nRoot-Is-Purelib: false\nTag: {wheel_tag}\n".encode()
    files[f"{INFO}/entry_points.txt"] = f"[console_scripts]\nfadrinzo = {NAME}.__main__:main\n".encode()
    for name in ("LICENSE-MIT", "LICENSE-APACHE", "rust/dist/MANIFEST"):
        files[f"{INFO}/{os.path.basename(name)}"] = part(name).read_bytes()
    record = ""
    for name, data in files.items():
        digest = base64.urlsafe_b64encode(hashlib.sha256(data).digest()).rstrip(b"=").decode()
        record += f"{name},sha256={digest},{len(data)}\n"
    files[f"{INFO}/RECORD"] = f"{record}{INFO}/RECORD,,\n".encode()
    wheel = f"{NAME}-{VERSION}-{wheel_tag}.whl"
    with zipfile.ZipFile(os.path.join(wheel_directory, wheel), "w", zipfile.ZIP_DEFLATED) as packed:
        for name, data in files.items():
            entry = zipfile.ZipInfo(name, TIME)
            entry.external_attr, entry.compress_type = 0o100644 << 16, zipfile.ZIP_DEFLATED
            packed.writestr(entry, data)
    return wheel


def build_sdist(sdist_directory, config_settings=None):
    """Writes a package of the sources, which has the parts of the repository that the wheel is made of, and returns its name."""
    top = f"{NAME}-{VERSION}"
    files = {it: HERE / it for it in ("pyproject.toml", "wheel_of_package.py", "README.md")}
    files.update({f"{NAME}/{it.name}": it for it in modules()})
    files.update({f"c/{it}": part(f"c/{it}") for it in FROM_C})
    files.update({it: part(it) for it in ("LICENSE-MIT", "LICENSE-APACHE", "rust/dist/MANIFEST")})
    texts = sorted(part("rust/dist/MANIFEST").parent.glob("*.s"))
    # that of the program is no part of the library
    files.update({f"rust/dist/{it.name}": it for it in texts if not it.name.startswith("polygons-")})
    with tempfile.TemporaryDirectory() as folder, tarfile.open(os.path.join(sdist_directory, f"{top}.tar.gz"), "w:gz") as packed:
        info = pathlib.Path(folder) / "PKG-INFO"
        info.write_text(metadata(), encoding="utf-8")
        for name, path in {"PKG-INFO": info, **files}.items():
            packed.add(path, f"{top}/{name}")
    return f"{top}.tar.gz"


if __name__ == "__main__":
    if len(sys.argv) != 2:
        sys.exit(__doc__)
    print(build_wheel(sys.argv[1]))
