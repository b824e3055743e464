"""Tests what pip makes of this folder, and the messages without a library.

It uses no network, and no package but pip. bindings/test.sh installs the wheel and runs test_jt.py.
`JT_STATIC_LIBRARY` names the static library if it is not that of the checkout.
"""
import os
import pathlib
import re
import subprocess
import sys
import tarfile
import tempfile
import unittest
import zipfile

HERE = pathlib.Path(__file__).resolve().parent
sys.path.insert(0, str(HERE))
sys.dont_write_bytecode = True
import build_jt  # noqa: E402

OFFLINE = ("--no-index", "--no-deps", "--disable-pip-version-check")


def run(*words, folder, **more):
    """Runs a command in a folder, without the variables that name a library or modules."""
    left_out = ("JT_LIBRARY", "PYTHONPATH")
    environment = {name: value for name, value in os.environ.items() if name not in left_out}
    environment.update(more)
    words = [str(word) for word in words]
    done = subprocess.run(words, cwd=folder, env=environment, text=True, capture_output=True)
    return done.returncode, done.stdout + done.stderr


class Installed(unittest.TestCase):
    def setUp(self):
        room = tempfile.TemporaryDirectory()
        self.addCleanup(room.cleanup)
        self.room = pathlib.Path(room.name)

    def runs(self, *words, **more):
        status, said = run(*words, folder=more.pop("folder", self.room), **more)
        self.assertEqual(status, 0, said)
        return said

    def wheel(self, **more):
        pip = (sys.executable, "-m", "pip", "wheel", *OFFLINE, "--wheel-dir", self.room)
        return run(*pip, ".", folder=HERE, **more)

    def test_the_wheel(self):
        before = sorted(HERE.rglob("*"))
        status, said = self.wheel()
        self.assertEqual(status, 0, said)
        self.assertEqual(sorted(HERE.rglob("*")), before, "the build leaves files in the tree")
        (wheel,) = self.room.glob("*.whl")
        # (bindings/c/test.sh checks by objdump which glibc the library needs.)
        self.assertRegex(wheel.name, r"^jt-[\d.]+-py3-none-manylinux_2_34_x86_64\.whl$")
        with zipfile.ZipFile(wheel) as file:
            names = file.namelist()
            metadata = file.read(next(it for it in names if it.endswith("/METADATA"))).decode()
        self.assertEqual(metadata, build_jt._metadata(build_jt._project()))
        self.assertIn(f"\nVersion: {wheel.name.split('-')[1]}\n", metadata)
        self.assertIn("\nLicense-Expression: MIT OR Apache-2.0\n", metadata)
        modules = ("lsp/__init__.py", "playground/__init__.py", "playground/page.html")
        for name in ("__init__.py", "__main__.py", "py.typed", "libjt.so", *modules):
            self.assertIn(f"jt/{name}", names)
        for name in ("licenses/LICENSE-MIT", "licenses/LICENSE-APACHE", "RECORD"):
            self.assertTrue(any(it.endswith(f".dist-info/{name}") for it in names), name)
        self.assertNotIn("Requires-Dist", metadata)
        first = wheel.read_bytes()
        self.assertEqual(self.wheel()[0], 0)
        self.assertEqual(wheel.read_bytes(), first, "the same wheel is made again")

    def test_the_project_is_what_tools_read(self):
        project = build_jt._project()
        version = re.search(
            r'^__version__ = "(.*)"', (HERE / "src/jt/__init__.py").read_text(), re.M
        )
        self.assertEqual(project["version"], version[1])
        try:
            import tomllib
        except ImportError:
            self.skipTest("no tomllib before Python 3.11")
        table = tomllib.loads((HERE / "pyproject.toml").read_text())["project"]
        self.assertEqual([it["name"] for it in table.pop("authors")], ["the authors of jt"])
        self.assertEqual(table.pop("optional-dependencies"), {"editor": []})
        self.assertEqual(table, project)

    def test_the_source_distribution(self):
        make = "import build_jt, sys; print(build_jt.build_sdist(sys.argv[1]))"
        names = [
            self.runs(sys.executable, "-B", "-c", make, self.room, folder=HERE).strip()
            for _ in range(2)
        ]
        archive = self.room / names[0]
        self.assertRegex(archive.name, r"^jt-[\d.]+\.tar\.gz$")
        with tarfile.open(archive) as file:
            held = {name.partition("/")[2] for name in file.getnames()}
        self.assertLessEqual({"PKG-INFO", "pyproject.toml", "LICENSE-MIT", "src/jt/py.typed"}, held)
        # (It builds with the library that it holds, and in an unpacked folder as pip does it.)
        pip = (sys.executable, "-m", "pip", "wheel", *OFFLINE, "--wheel-dir", self.room)
        self.runs(*pip, archive, JT_STATIC_LIBRARY="")
        (wheel,) = self.room.glob("*.whl")
        with zipfile.ZipFile(wheel) as file:
            built = {name: file.read(name) for name in file.namelist()}
        wheel.unlink()
        self.assertEqual(self.wheel()[0], 0)
        with zipfile.ZipFile(wheel) as file:
            self.assertEqual({name: file.read(name) for name in file.namelist()}, built)

    def test_the_folder_is_installed_itself(self):
        self.runs(sys.executable, "-m", "venv", "venv")
        python = self.room / "venv" / "bin" / "python"
        self.runs(python, "-m", "pip", "install", *OFFLINE, HERE)
        # (-I: neither the folder of the script nor the present one is searched)
        place = "import jt; print(jt.__file__, jt.__version__, jt.library_version)"
        path, version, library = self.runs(python, "-W", "ignore", "-I", "-c", place).split()
        self.assertTrue(path.startswith(str(self.room / "venv")), path)
        self.assertTrue(library.startswith(version), library)
        said = self.runs(python, "-m", "pip", "uninstall", "--yes", "jt")
        self.assertIn(f"Successfully uninstalled jt-{version}", said)
        status, said = run(python, "-I", "-c", "import jt", folder=self.room)
        self.assertIn("No module named", said)

    def test_no_static_library(self):
        status, said = self.wheel(JT_STATIC_LIBRARY=str(self.room / "none.a"))
        self.assertNotEqual(status, 0)
        self.assertIn("none.a.\n", said)
        trial, proof = said.index("bindings/unproved.py FOLDER"), said.index("rt lib")
        self.assertLess(trial, proof, "the trial comes first")

    def test_no_shared_library(self):
        (self.room / "other.so").write_text("no library")
        for path in (self.room / "none.so", self.room / "other.so"):
            status, said = run(
                sys.executable, "-c", "import jt", folder=HERE / "src", JT_LIBRARY=str(path)
            )
            self.assertNotEqual(status, 0)
            self.assertIn("ImportError: jt: ", said)
            self.assertIn(str(path), said)
            self.assertIn("run `bindings/build.sh crates/jt_ffi/out/libjt_ffi.a", said)


if __name__ == "__main__":
    unittest.main()
