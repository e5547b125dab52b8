"""The command, which lays out files and checks them.

Most of these wait for the members `text` and `placed` of requests, and those that check for the command `check`.
"""

import json
import os
import shutil
import subprocess
import sys
import tempfile
import unittest
from pathlib import Path

from .program import PACKAGE, PROGRAM, chain, with_program
from elk_layout import __version__, layout, svg


class Command(unittest.TestCase):
    def setUp(self):
        folder = tempfile.TemporaryDirectory()
        self.addCleanup(folder.cleanup)
        self.folder = Path(folder.name)

    def run_command(self, *words, given=None, **more):
        environment = {**os.environ, "PYTHONPATH": str(PACKAGE), "ELK_DRAW_PROGRAM": PROGRAM, **more}
        return subprocess.run(
            [sys.executable, "-m", "elk_layout", *map(str, words)],
            **{"stdout": subprocess.PIPE, "stderr": subprocess.PIPE, "cwd": self.folder, "env": environment},
            text=True,
            input=given,
        )

    def file(self, name, document):
        path = self.folder / name
        path.parent.mkdir(parents=True, exist_ok=True)
        path.write_text(document if isinstance(document, str) else json.dumps(document))
        return name

    @with_program
    def test_files_come_out_as_the_program_writes_them_with_pictures_where_they_are_asked_for(self):
        files = [self.file(f"in/{at}/{at}.json", chain(at)) for at in range(1, 8)]
        (self.folder / "list").write_text("\n".join(files) + "\n")
        for jobs, words in ((1, files), (3, ["@list"])):
            ended = self.run_command("layout", *words, "-o", f"out{jobs}", "--svg", "--jobs", jobs)
            self.assertEqual((ended.returncode, ended.stdout, ended.stderr), (0, "7 of 7 files laid out\n", ""))
            for file in files:
                graph, placed = json.loads((self.folder / file).read_text()), self.folder / f"out{jobs}" / file[3:]
                self.assertEqual(json.loads(placed.read_text()), layout(graph, program=PROGRAM), file)
                self.assertEqual(placed.with_suffix(".svg").read_text(), svg(graph, program=PROGRAM))
            self.assertEqual((self.folder / f"out{jobs}" / "refused.jsonl").read_text(), "")
        written = [it.name for it in (self.folder / "out1").rglob("*") if it.is_file()]
        self.assertEqual(len(written), 15)

    @with_program
    def test_a_report_tells_which_files_were_refused_and_why(self):
        files = [
            self.file("good.json", chain(3)),
            self.file("double.json", {"id": "é", "children": [{"id": "é"}]}),
            self.file("fraction.json", {"id": 1, "layoutOptions": {"elk.layered.effort": 0.5}}),
            self.file("broken.json", '{"id":\n  5,, }'),
            self.file("again.json", {"id": 5, "children": [{"id": 5}]}),
            "missing.json",
        ]
        for jobs in (1, 2):
            ended = self.run_command("layout", *files, "-o", "out", "--jobs", jobs)
            self.assertEqual(ended.returncode, 2)
            said = ended.stderr.splitlines()
            self.assertEqual([it.split(": ")[0] for it in said], files[1:])
            self.assertIn('double.json: the id "é" is used twice', said[0])
            self.assertEqual(said[4], "missing.json: No such file or directory")
            self.assertEqual(
                ended.stdout.splitlines(),
                [
                    *("1 of 6 files laid out", "1 not read or not written", "1 refused by rule 1, NotJson"),
                    *("1 refused by rule 2, NotWhole", "2 refused by rule 7, DoubleId"),
                    "which and why: out/refused.jsonl",
                ],
            )
            report = [json.loads(it) for it in (self.folder / "out" / "refused.jsonl").read_text().splitlines()]
            self.assertEqual([it["file"] for it in report], files[1:])
            self.assertEqual([it.get("rule") for it in report], [7, 2, 1, 7, None])
            self.assertEqual([it.get("id") for it in report], ["é", None, None, 5, None])
            self.assertIn('the id "é" is used twice', report[0]["reason"])
            self.assertIn("layoutOptions", report[1]["reason"])
            self.assertIn("the document is not JSON: line 2, column 5", report[2]["reason"])
            self.assertEqual(report[0]["path"], "children[0].id")
        self.assertEqual(sorted(it.name for it in (self.folder / "out").iterdir()), ["good.json", "refused.jsonl"])

    @with_program
    def test_options_hold_where_a_document_has_none(self):
        self.file("a.json", chain(2))
        ended = self.run_command("layout", "a.json", "-o", "out", "--option", "elk.direction=DOWN")
        self.assertEqual(ended.returncode, 0, ended.stderr)
        first, second = json.loads((self.folder / "out" / "a.json").read_text())["children"]
        self.assertEqual(first["x"], second["x"])

    @with_program
    def test_one_document_goes_from_stdin_to_stdout(self):
        text, placed = json.dumps(chain(2)), layout(chain(2), program=PROGRAM)
        self.file("a.json", chain(2))
        for words, given in ((["layout", "-"], text), (["layout", "a.json"], None)):
            ended = self.run_command(*words, given=given)
            self.assertEqual((ended.returncode, json.loads(ended.stdout), ended.stderr), (0, placed, ""))
        ended = self.run_command("layout", "-", "--svg", "--no-arrows", given=text)
        self.assertEqual(ended.stdout, svg(chain(2), arrows=False, program=PROGRAM))
        ended = self.run_command("layout", "-", given='{"id":1,"children":[{"id":1}]}')
        self.assertEqual((ended.returncode, ended.stdout), (2, ""))
        self.assertEqual(ended.stderr, "-: the id 1 is used twice: children[0].id is 1, as id is (rule 7, DoubleId)\n")

    @with_program
    def test_files_in_dot_are_laid_out_and_warnings_are_reported(self):
        self.file("a.dot", "digraph { a -> b [minlen=2] }")
        self.file("b.json", {**chain(1), "widht": 5})
        ended = self.run_command("layout", "a.dot", "b.json", "-o", "out")
        self.assertEqual(ended.returncode, 0, ended.stderr)
        self.assertEqual([it["id"] for it in json.loads((self.folder / "out/a.json").read_text())["children"]], ["a", "b"])
        said = ["a.dot: warning: the attribute minlen has no effect", 'b.json: warning: widht is not read; did you mean "width"?']
        self.assertEqual(ended.stderr.splitlines(), said)

    @with_program
    def test_placed_graphs_are_checked(self):
        placed = self.run_command("layout", "-", given=json.dumps(chain(2))).stdout
        self.file("good.json", placed)
        moved = json.loads(placed)
        moved["children"][1]["x"] = moved["children"][0]["x"]
        self.file("bad.json", moved)
        bad = 'no: definition 6, Apart, fails at "n0", "n1"'
        for files, given, status, out, notes in (
            (["-"], placed, 0, "yes\n", ""),
            (["good.json", "good.json"], None, 0, "good.json: yes\n" * 2, ""),
            (["good.json", "bad.json"], None, 1, f"good.json: yes\nbad.json: {bad}\n", ""),
            (["bad.json"], None, 1, f"{bad}\n", ""),
            (["none.json", "good.json"], None, 2, "good.json: yes\n", "none.json: No such file or directory\n"),
        ):
            with self.subTest(files):
                ended = self.run_command("check", *files, given=given)
                self.assertEqual((ended.returncode, ended.stdout, ended.stderr), (status, out, notes))
        ended = self.run_command("check", "-", given="{}")
        self.assertEqual((ended.returncode, ended.stdout), (2, ""))
        self.assertIn("-: ", ended.stderr)

    def test_the_version_is_reported(self):
        ended = self.run_command("--version")
        self.assertEqual((ended.returncode, ended.stdout), (0, f"elk-layout {__version__}\n"))

    def test_words_that_are_not_taken_are_reported(self):
        self.file("a.json", chain(2))
        self.file("b/a.json", chain(2))
        for words, note in (
            ([], "required"),
            (["layout", "a.json", "b/a.json"], "-o/--output"),
            (["layout", "-", "-o", "out"], "leave out -o/--output"),
            (["check"], "required"),
            (["draw", "a.json"], "invalid choice"),
            (["layout", "a.json", "-o", "."], "is one of the given files"),
            (["layout", "a.json", "a.json", "-o", "out", "--jobs", "0"], "--jobs is at least 1"),
            (["layout", "a.json", "a.txt", "-o", "out"], "would both be written"),
            (["layout", "a.json", "-o", "a.json"], "exists"),
        ):
            with self.subTest(words):
                ended = self.run_command(*words)
                self.assertEqual((ended.returncode, ended.stdout), (5, ""))
                self.assertIn(note, ended.stderr)

    def test_a_program_that_is_not_there_is_reported_once(self):
        self.file("a.json", chain(2))
        shutil.copytree(PACKAGE / "elk_layout", self.folder / "elk_layout")
        ended = self.run_command("layout", "a.json", "-o", "out", ELK_DRAW_PROGRAM="", PATH="/nowhere", PYTHONPATH=".")
        self.assertEqual((ended.returncode, ended.stdout), (70, ""))
        self.assertIn("the program elk-draw isn't found", ended.stderr)


if __name__ == "__main__":
    unittest.main()
