"""The scripts of pages run unchanged, and print what their comments say."""

import json
import os
import re
import subprocess
import sys
import tempfile
import unittest
from pathlib import Path

from .program import PACKAGE, PROGRAM, TOP, chain, needs, with_program


def scripts_of(page):
    return re.findall(r"```python\n(.*?)```", (TOP / page).read_text(), re.DOTALL)


@with_program
class Pages(unittest.TestCase):
    def run_script(self, script, folder=TOP):
        environment = {**os.environ, "PYTHONPATH": str(PACKAGE), "ELK_DRAW_PROGRAM": PROGRAM}
        words = [sys.executable, "-c", script]
        ended = subprocess.run(words, env=environment, cwd=folder, stdout=subprocess.PIPE, stderr=subprocess.PIPE, text=True)
        self.assertEqual(ended.returncode, 0, ended.stderr)
        return ended.stdout

    @needs("networkx", "pandas")
    def test_the_scripts_of_the_package_say_what_their_comments_say(self):
        scripts = scripts_of("adapters/python/README.md")
        self.assertEqual(len(scripts), 7)
        for script in scripts:
            with self.subTest(script):
                said = "".join(f"{it}\n" for it in re.findall(r"print\(.*  # (.*)", script))
                self.assertEqual(self.run_script(script), said)

    def test_the_script_of_the_page_for_pipelines_tells_what_was_refused(self):
        script = scripts_of("docs/PIPELINES.md")[0]
        with tempfile.TemporaryDirectory() as folder:
            documents = [chain(3), {"id": "r", "children": [{"id": "r"}]}, chain(2)]
            (Path(folder) / "graphs.jsonl").write_text("".join(f"{json.dumps(it)}\n" for it in documents))
            said = '1 the id "r" is used twice: children[0].id is "r", as id is (rule 7, DoubleId)\n'
            self.assertEqual(self.run_script(script, folder), said)


if __name__ == "__main__":
    unittest.main()
