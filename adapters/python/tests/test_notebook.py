"""The notebook runs from its first cell to its last, and shows pictures."""

import base64
import json
import os
import re
import shutil
import subprocess
import tempfile
import unittest
import xml.etree.ElementTree as xml
from pathlib import Path

from .program import PACKAGE, PROGRAM, needs, with_program

NOTEBOOK = PACKAGE / "examples" / "drawings.ipynb"
SECONDS = 300


def outputs_of(notebook):
    return [output for cell in notebook["cells"] for output in cell.get("outputs", [])]


class Notebook(unittest.TestCase):
    def test_no_outputs_are_stored(self):
        self.assertEqual(outputs_of(json.loads(NOTEBOOK.read_text())), [])

    @needs("ipykernel", "networkx", "pandas")
    @with_program
    @unittest.skipUnless(shutil.which("jupyter-nbconvert"), "jupyter-nbconvert isn't there")
    def test_it_runs_and_shows_pictures(self):
        with tempfile.TemporaryDirectory() as folder:
            words = ["--to", "notebook", "--execute", str(NOTEBOOK), "--output-dir", folder, "--output", "run.ipynb"]
            environment = {**os.environ, "ELK_DRAW_PROGRAM": PROGRAM, "IPYTHONDIR": folder, "HOME": folder}
            ended = subprocess.run(
                ["jupyter-nbconvert", *words], stderr=subprocess.PIPE, env=environment, timeout=SECONDS
            )
            self.assertEqual(ended.returncode, 0, ended.stderr.decode())
            outputs = outputs_of(json.loads((Path(folder) / "run.ipynb").read_text()))
            words = ["--to", "html", str(Path(folder) / "run.ipynb"), "--output", "page.html"]
            ended = subprocess.run(["jupyter-nbconvert", *words], stderr=subprocess.PIPE, env=environment, timeout=SECONDS)
            self.assertEqual(ended.returncode, 0, ended.stderr.decode())
            page = (Path(folder) / "page.html").read_text()
        pictures = ["".join(it["data"]["image/svg+xml"]) for it in outputs if "image/svg+xml" in it.get("data", ())]
        self.assertEqual(len(pictures), 3)
        for picture in pictures:
            self.assertTrue(xml.fromstring(picture).tag.endswith("svg"))
        shown = [base64.b64decode(it).decode() for it in re.findall('<img[^>]* src="data:image/svg[+]xml;base64,([^"]+)"', page)]
        self.assertEqual(shown, pictures)
        said = ["".join(it["text"]) for it in outputs if it["output_type"] == "stream"]
        self.assertEqual(said[0], "yes\n")
        self.assertIn("rule 8, UnknownEnd", said[1])


if __name__ == "__main__":
    unittest.main()
