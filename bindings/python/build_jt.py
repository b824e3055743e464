"""Builds the package: pip calls it, as pyproject.toml says. It needs nothing but Python and `cc`.

The wheel holds the shared library, made from a static library: that of the variable
`JT_STATIC_LIBRARY`, else that of this source distribution, else that of the checkout. The source
distribution holds the static library, so that it builds where there is no kit.
"""
import ast
import base64
import gzip
import hashlib
import io
import os
import pathlib
import platform
import re
import subprocess
import sysconfig
import tarfile
import tempfile
import zipfile

HERE = pathlib.Path(__file__).resolve().parent
PACKAGE = HERE / "src" / "jt"
# (A source distribution has the files of the other folders in this one.)
IS_UNPACKED = (HERE / "build.sh").exists()
ROOT = HERE if IS_UNPACKED else HERE.parent.parent
BINDINGS = HERE if IS_UNPACKED else HERE.parent
BUILT = HERE / "libjt_ffi.a" if IS_UNPACKED else ROOT / "crates/jt_ffi/out/libjt_ffi.a"
# Each symbol of glibc in the library is of this version or an earlier one: see README.md.
GLIBC = (2, 34)


def build_wheel(wheel_directory, config_settings=None, metadata_directory=None):
    """Writes the wheel to a folder and returns its name."""
    with tempfile.TemporaryDirectory() as room:
        library = _library(room).read_bytes()
    files = {f"jt/{_name(file)}": file.read_bytes() for file in _modules()}
    return _write_wheel(wheel_directory, {**files, "jt/libjt.so": library}, library)


def build_editable(wheel_directory, config_settings=None, metadata_directory=None):
    """Writes a wheel that points to this folder, where the shared library is put."""
    library = _library(PACKAGE).read_bytes()
    return _write_wheel(wheel_directory, {"jt.pth": f"{PACKAGE.parent}\n".encode()}, library)


def build_sdist(sdist_directory, config_settings=None):
    """Writes the source distribution to a folder and returns its name."""
    project = _project()
    name = f"{project['name']}-{project['version']}"
    files = {f"src/jt/{_name(file)}": file for file in _modules()}
    own = ("README.md", "build_jt.py", "example.py", "expected", "pyproject.toml")
    tests = ("test_jt.py", "test_runs.py", "test_each.py", "test_forks.py")
    files.update({path: HERE / path for path in own + tests})
    for other in ("build.sh", "c/heap.c", "c/jt.h", "c/jt.map"):
        files[other] = BINDINGS / other
    files.update({licence: ROOT / licence for licence in project["license-files"]})
    files["libjt_ffi.a"] = _static_library()
    data = {path: file.read_bytes() for path, file in files.items()}
    data["PKG-INFO"] = _metadata(project).encode()
    packed = gzip.compress(_tar(name, data), mtime=0)
    (pathlib.Path(sdist_directory) / f"{name}.tar.gz").write_bytes(packed)
    return f"{name}.tar.gz"


def _tar(folder, data):
    """Returns an archive with this folder, of files with these bytes."""
    buffer = io.BytesIO()
    with tarfile.open(fileobj=buffer, mode="w") as archive:
        for path in sorted(data):
            entry = tarfile.TarInfo(f"{folder}/{path}")
            entry.size, entry.mtime = len(data[path]), 0
            entry.mode = 0o755 if path.endswith(".sh") else 0o644
            archive.addfile(entry, io.BytesIO(data[path]))
    return buffer.getvalue()


def _modules():
    """Returns the files of the package and of the packages in it."""
    return sorted([*PACKAGE.rglob("*.py"), *PACKAGE.rglob("*.html"), PACKAGE / "py.typed"])


def _name(file):
    """Returns the name of a file in the package."""
    return file.relative_to(PACKAGE).as_posix()


def _static_library():
    """Returns the path of the static library, or ends with what makes one."""
    _check_platform()
    static = pathlib.Path(os.environ.get("JT_STATIC_LIBRARY") or BUILT)
    if not (BINDINGS / "build.sh").exists():
        raise SystemExit(f"jt: no {BINDINGS}/build.sh: build in bindings/python of a checkout")
    if not static.exists():
        raise SystemExit(
            f"jt: there is no static library {static}.\n"
            "    For a trial, without a proof, in some minutes:\n"
            f"        {ROOT}/bindings/unproved.py FOLDER\n"
            f"        JT_STATIC_LIBRARY=FOLDER/libjt_ffi.a pip install {HERE}\n"
            "    With the proofs, in some 40 minutes the first time:\n"
            f"        cd {ROOT}/crates/jt_ffi && rt lib\n"
            "    The variable JT_STATIC_LIBRARY names a library that is built already."
        )
    return static


def _check_platform():
    """Ends with a message if the static library is not for this machine."""
    found = (platform.system(), platform.machine(), platform.libc_ver()[0])
    if found != ("Linux", "x86_64", "glibc"):
        raise SystemExit(
            f"jt: the library is for x86-64 Linux with glibc, and this is {' '.join(found)}"
        )


def _library(folder):
    """Makes the shared library in a folder and returns its path."""
    subprocess.run([str(BINDINGS / "build.sh"), str(_static_library()), str(folder)], check=True)
    return pathlib.Path(folder) / "libjt.so"


def _project():
    """Returns the table `project` of pyproject.toml. (Python has no reader of TOML before 3.11.)"""
    text = (HERE / "pyproject.toml").read_text(encoding="utf-8")
    table = text.partition("[project]\n")[2].partition("\n[")[0]
    fields = re.findall(r'^([\w-]+) = (".*"|\[[^{}]*?\])$', table, re.M)
    return {name: ast.literal_eval(value) for name, value in fields}


def _metadata(project):
    """Returns the metadata of the package, as of version 2.4 of their format."""
    lines = ["Metadata-Version: 2.4", f"Name: {project['name']}", f"Version: {project['version']}"]
    lines.append(f"Summary: {project['description']}")
    lines.append(f"Keywords: {','.join(project['keywords'])}")
    lines.append("Author: the authors of jt")
    lines.append(f"License-Expression: {project['license']}")
    lines += [f"License-File: {name}" for name in project["license-files"]]
    lines += [f"Classifier: {name}" for name in project["classifiers"]]
    lines.append(f"Requires-Python: {project['requires-python']}")
    # (The server and the page need nothing else; the name is there for who asks for them.)
    lines.append("Provides-Extra: editor")
    lines += ["Description-Content-Type: text/markdown", ""]
    return "\n".join([*lines, (HERE / project["readme"]).read_text(encoding="utf-8")])


def _tag(library):
    """Returns the tag of the wheel: for each Python 3, since ctypes needs no ABI of Python.

    An index takes `manylinux_2_34`, which states that the library runs with glibc 2.34.
    """
    versions = {tuple(map(int, it)) for it in re.findall(rb"GLIBC_(\d+)\.(\d+)[.\d]*\0", library)}
    if versions and max(versions) <= GLIBC:
        return f"py3-none-manylinux_{GLIBC[0]}_{GLIBC[1]}_x86_64"
    return "py3-none-" + re.sub(r"[-.]", "_", sysconfig.get_platform())


def _write_wheel(folder, files, library):
    """Writes a wheel with these files."""
    project, tag = _project(), _tag(library)
    name = f"{project['name']}-{project['version']}"
    info = f"{name}.dist-info"
    files[f"{info}/METADATA"] = _metadata(project).encode()
    wheel = f"Wheel-Version: 1.0\nGenerator: jt\nRoot-Is-Purelib: false\nTag: {tag}\n"
    files[f"{info}/WHEEL"] = wheel.encode()
    for licence in project["license-files"]:
        files[f"{info}/licenses/{licence}"] = (ROOT / licence).read_bytes()
    lines = [f"{path},{_sum(data)},{len(data)}\n" for path, data in files.items()]
    files[f"{info}/RECORD"] = "".join([*lines, f"{info}/RECORD,,\n"]).encode()
    with zipfile.ZipFile(
        pathlib.Path(folder) / f"{name}-{tag}.whl", "w", zipfile.ZIP_DEFLATED
    ) as archive:
        for path, data in files.items():
            entry = zipfile.ZipInfo(path, (1980, 1, 1, 0, 0, 0))
            entry.external_attr = (0o755 if path.endswith(".so") else 0o644) << 16
            entry.compress_type = zipfile.ZIP_DEFLATED
            archive.writestr(entry, data)
    return f"{name}-{tag}.whl"


def _sum(data):
    """Returns the sum of a file as RECORD spells it."""
    digest = base64.urlsafe_b64encode(hashlib.sha256(data).digest())
    return "sha256=" + digest.rstrip(b"=").decode()
