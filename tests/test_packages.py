"""The packages that are installed by one file: into empty folders and environments, without a network and without this checkout."""
import base64
import csv
import hashlib
import importlib.machinery
import importlib.util
import io
import json
import os
import pathlib
import platform
import re
import shutil
import subprocess
import sys
import tempfile
import unittest
import zipfile

TOP = pathlib.Path(__file__).resolve().parent.parent
# Packages of the system, such as pip, are those of its own Python.
PYTHON = "/usr/bin/python3" if os.access("/usr/bin/python3", os.X_OK) else sys.executable
ARM = 183
VERSION = re.search(r'__version__ = "(.+)"', (TOP / "adapters/python/elk_layout/__init__.py").read_text())[1]
DOCUMENT = '{"id":"r","children":[{"id":"a","width":30,"height":30}]}'
SCRIPT = """
from elk_layout import check, layout
from elk_layout.program import find_program
placed = layout({"id": "r", "children": [{"id": "a", "width": 30, "height": 30, "labels": [{"text": "a"}]}]})
print(placed["width"], check(placed), "<svg" in placed.to_svg(), [it.split("/")[-1] for it in find_program()])
"""
ELSEWHERE = "import platform; platform.system = lambda: 'Darwin'; platform.machine = lambda: 'arm64'"


def packer():
    """The tool that makes the packages, as a module."""
    loader = importlib.machinery.SourceFileLoader("packages", str(TOP / "tools/packages"))
    found = importlib.util.module_from_spec(importlib.util.spec_from_loader("packages", loader))
    sys.dont_write_bytecode = True
    loader.exec_module(found)
    return found


PACKER = packer()


def has_pip():
    return subprocess.run([PYTHON, "-c", "import pip, venv"], stderr=subprocess.DEVNULL).returncode == 0


class Room(unittest.TestCase):
    def setUp(self):
        folder = tempfile.TemporaryDirectory()
        self.addCleanup(folder.cleanup)
        self.room = pathlib.Path(folder.name).resolve()

    def run_in(self, words, path="/nowhere", given=None, status=0):
        """Runs a command in the folder with nothing of this environment."""
        env = {"PATH": str(path), "HOME": str(self.room)}
        done = subprocess.run([*map(str, words)], cwd=self.room, env=env, input=given, capture_output=True, text=True, timeout=300)
        self.assertEqual(done.returncode, status, done.stdout + done.stderr)
        return done.stdout if status == 0 else done.stdout + done.stderr

    def put(self, name, content):
        (self.room / name).write_bytes(content)
        return self.room / name


@unittest.skipUnless(PACKER.tomllib, "this Python is older than 3.11")
class Wheels(Room):
    @classmethod
    def setUpClass(cls):
        cls.wheels = dict(PACKER.wheels())

    def wheel_for(self, system):
        return next((name, content) for name, content in self.wheels.items() if system in name)

    def test_there_is_one_for_each_program_and_one_for_other_systems(self):
        names = [
            f"elk_layout-{VERSION}-py3-none-manylinux_2_17_{it}.manylinux2014_{it}.musllinux_1_1_{it}.whl" for it in ("x86_64", "aarch64")
        ]
        self.assertEqual(list(self.wheels), [*names, f"elk_layout-{VERSION}-py3-none-any.whl"])

    def test_the_same_sources_make_the_same_bytes(self):
        self.assertEqual(dict(PACKER.wheels()), self.wheels)
        for name, content in self.wheels.items():
            with self.subTest(name), zipfile.ZipFile(io.BytesIO(content)) as archive:
                names = archive.namelist()
                self.assertEqual(names, sorted(names, key=lambda it: (".dist-info/" in it, it.endswith("/RECORD"), it)))
                self.assertEqual({it.date_time for it in archive.infolist()}, {(1980, 1, 1, 0, 0, 0)})

    def test_the_record_has_the_sum_of_each_file(self):
        for name, content in self.wheels.items():
            with self.subTest(name), zipfile.ZipFile(io.BytesIO(content)) as archive:
                about = f"elk_layout-{VERSION}.dist-info"
                rows = list(csv.reader(archive.read(f"{about}/RECORD").decode().splitlines()))
                self.assertEqual([it[0] for it in rows], archive.namelist())
                for file, sum, size in rows[:-1]:
                    found = base64.urlsafe_b64encode(hashlib.sha256(archive.read(file)).digest()).decode().rstrip("=")
                    self.assertEqual((sum, size), (f"sha256={found}", str(archive.getinfo(file).file_size)))
                tags = re.findall("^Tag: py3-none-(.*)$", archive.read(f"{about}/WHEEL").decode(), re.M)
                self.assertTrue(name.endswith(f"-py3-none-{'.'.join(tags)}.whl"))
                self.assertIn(f"Version: {VERSION}\n", archive.read(f"{about}/METADATA").decode())

    def test_the_one_for_arm_has_the_program_for_arm(self):
        with zipfile.ZipFile(io.BytesIO(self.wheel_for("aarch64")[1])) as archive:
            program = archive.read("elk_layout/bin/elk-draw")
            self.assertEqual(archive.getinfo("elk_layout/bin/elk-draw").external_attr >> 16, 0o100755)
        self.assertEqual((program[:4], int.from_bytes(program[18:20], "little")), (b"\x7fELF", ARM))

    def installed(self, wheel):
        """An environment with nothing but a wheel: its Python."""
        place = self.room / "environment"
        self.run_in([PYTHON, "-m", "venv", "--without-pip", place])
        python = place / "bin/python"
        self.run_in([PYTHON, "-m", "pip", "--python", python, "install", "-q", "--no-index", "--no-cache-dir", self.put(*wheel)])
        return python

    @unittest.skipUnless(has_pip() and platform.machine() == "x86_64" and sys.platform == "linux", "pip, venv and Linux are needed")
    def test_pip_installs_the_program_with_it(self):
        python = self.installed(self.wheel_for("x86_64"))
        self.assertEqual(self.run_in([python, "-c", SCRIPT]), "54 yes True ['elk-draw']\n")
        self.assertEqual(self.run_in([python, "-m", "elk_layout", "--version"]), f"elk-layout {VERSION}\n")
        command = python.parent / "elk-draw"
        placed = self.run_in([command, "layout"], given=DOCUMENT)
        self.assertEqual(json.loads(placed)["width"], 54)
        self.assertEqual(self.run_in([command, "check"], given=placed), "yes\n")
        self.assertIn("refused 1 NotJson", self.run_in([command, "layout"], given="{", status=2))
        self.put("a.json", DOCUMENT.encode())
        self.assertIn("1 of 1", self.run_in([python, "-m", "elk_layout", "layout", "a.json", "-o", "out"]))

    @unittest.skipUnless(has_pip() and shutil.which("node"), "pip, venv and Node are needed")
    def test_elsewhere_node_runs_the_module(self):
        python = self.installed(self.wheel_for("none-any"))
        path = self.room / "path"
        path.mkdir()
        (path / "node").symlink_to(os.path.realpath(shutil.which("node")))
        for script in (SCRIPT, f"{ELSEWHERE}\n{SCRIPT}"):
            self.assertEqual(self.run_in([python, "-c", script], path), "54 yes True ['node', 'elk-draw']\n")
        # Whatever package stands around it.
        self.put("package.json", b'{"type":"module"}')
        self.assertEqual(self.run_in([python, "-c", SCRIPT], path), "54 yes True ['node', 'elk-draw']\n")
        said = self.run_in([python, "-c", f"{ELSEWHERE}\n{SCRIPT}"], status=1)
        self.assertIn("there is no program elk-draw for Darwin arm64. Its WebAssembly module runs by Node 18 or later", said)


@unittest.skipUnless(PACKER.tomllib and shutil.which("npm"), "npm is missing")
class Tarball(Room):
    def test_npm_installs_it_from_one_file(self):
        name, content = PACKER.tarball()
        self.assertEqual(name, f"elk-layout-{VERSION}.tgz")
        self.assertEqual(PACKER.tarball(), (name, content))
        self.put("package.json", b"{}")
        path = os.pathsep.join({os.path.dirname(shutil.which(it)) for it in ("node", "npm", "sh")})
        self.run_in(["npm", "install", "--offline", "--no-audit", "--no-fund", self.put(name, content)], path)
        script = f"const ELK = require('elk-layout'); new ELK().layout({DOCUMENT}).then((it) => console.log(it.width))"
        self.assertEqual(self.run_in(["node", "--eval", script], path), "54\n")
        self.assertEqual(json.loads(self.run_in(["node_modules/.bin/elk", "layout"], path, given=DOCUMENT))["width"], 54)


class Version(unittest.TestCase):
    def test_all_packages_have_the_same_one_and_the_changes_tell_it(self):
        self.assertEqual(json.loads((TOP / "adapters/js/package.json").read_text())["version"], VERSION)
        self.assertRegex((TOP / "docs/CHANGES.md").read_text().split("\n## ")[1], rf"\b{re.escape(VERSION)}\b")


@unittest.skipUnless(PACKER.tomllib, "this Python is older than 3.11")
class Checked(unittest.TestCase):
    def test_packages_of_other_sources_are_reported(self):
        made = dict(PACKER.wheels())
        name = next(iter(made))
        with tempfile.TemporaryDirectory() as folder:
            room = pathlib.Path(folder)
            for it, content in made.items():
                (room / it).write_bytes(content)
            found = {it: room / it for it in made}
            self.assertEqual(list(PACKER.faults(made, found)), [])
            (room / name).write_bytes(PACKER.wheel(["any"], {"elk_layout/more": b""})[1])
            self.assertRegex(list(PACKER.faults(made, found))[0], f"release/{re.escape(name)} is not of these sources: .*elk_layout/bin/elk-draw")
            self.assertEqual(list(PACKER.faults({}, {name: room / name})), [f"release/{name} is not a package of these sources"])
            self.assertEqual(list(PACKER.faults(made, {}))[0], f"release/{sorted(made)[0]} is missing")


if __name__ == "__main__":
    unittest.main()
