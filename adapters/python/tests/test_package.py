"""The package works in any place: copied, in an archive, or as a wheel."""

import os
import shutil
import subprocess
import sys
import tempfile
import unittest
import zipfile
from pathlib import Path

from .program import PACKAGE, PROGRAM, needs, with_program

SCRIPT = """
import elk_layout, sys
from elk_layout import layout
print(elk_layout.__file__.startswith(sys.argv[1]), layout({"id": "r", "children": [{"id": "a"}]})["width"])
"""


class Package(unittest.TestCase):
    def setUp(self):
        folder = tempfile.TemporaryDirectory()
        self.addCleanup(folder.cleanup)
        self.folder = Path(folder.name)

    def assert_works(self, place):
        environment = {**os.environ, "PYTHONPATH": str(place), "ELK_DRAW_PROGRAM": PROGRAM}
        words = [sys.executable, "-c", SCRIPT, str(place)]
        ended = subprocess.run(words, stdout=subprocess.PIPE, env=environment, cwd=self.folder)
        self.assertEqual((ended.returncode, ended.stdout), (0, b"True 24\n"))

    @with_program
    def test_a_copy_and_an_archive_of_the_folder_work(self):
        away = self.folder / "away"
        shutil.copytree(PACKAGE / "elk_layout", away / "elk_layout")
        self.assert_works(away)
        self.assert_works(shutil.make_archive(str(self.folder / "archive"), "zip", PACKAGE, "elk_layout"))

    @needs("build", "setuptools", "wheel")
    @with_program
    def test_a_wheel_works(self):
        source = self.folder / "source"
        shutil.copytree(PACKAGE, source)
        words = [sys.executable, "-m", "build", "--no-isolation", "--wheel", str(source), "-o", str(self.folder)]
        ended = subprocess.run(words, stdout=subprocess.PIPE, stderr=subprocess.STDOUT, cwd=self.folder)
        self.assertEqual(ended.returncode, 0, ended.stdout.decode())
        (wheel,) = self.folder.glob("*.whl")
        self.assertIn("elk_layout/py.typed", zipfile.ZipFile(wheel).namelist())
        self.assert_works(wheel)

    @needs("mypy")
    def test_types_hold(self):
        cache = f"--cache-dir={self.folder}"
        ended = subprocess.run([sys.executable, "-m", "mypy", cache, "elk_layout"], cwd=PACKAGE, stdout=subprocess.PIPE)
        self.assertEqual(ended.returncode, 0, ended.stdout.decode())


if __name__ == "__main__":
    unittest.main()
