"""Commands of pages do what the pages say, pasted as they are."""
import pathlib
import re
import shutil
import subprocess
import tempfile
import unittest

TOP = pathlib.Path(__file__).resolve().parent.parent
NEEDED = ("elk", "elk-draw", "examples", "adapters", "crates", "release", "tools")
# What needs other machines, a server, a registry of packages, or a test of its own.
ELSEWHERE = re.compile(r"ssh|dask-|npm |npx |tools/")


def commands_of(text):
    """Yields each command of the indented blocks and the lines that the page shows below it."""
    for block in re.findall(r"(?:^    .*\n)+", text, re.M):
        lines = [line[4:] for line in block.splitlines()]
        starts = [number for number, line in enumerate(lines) if line.startswith("$ ")]
        for start, end in zip(starts, [*starts[1:], len(lines)]):
            yield lines[start][2:], lines[start + 1 : end]


class Pages(unittest.TestCase):
    def setUp(self):
        self.room = tempfile.TemporaryDirectory()
        self.addCleanup(self.room.cleanup)
        for name in NEEDED:
            (pathlib.Path(self.room.name) / name).symlink_to(TOP / name)

    def run_in_room(self, script):
        return subprocess.run(["bash", "-c", script], cwd=self.room.name, stdout=subprocess.PIPE, stderr=subprocess.STDOUT, text=True)

    def test_the_commands_of_the_format_write_what_the_page_shows(self):
        shown = list(commands_of((TOP / "docs/FORMAT.md").read_text()))
        self.assertGreater(len(shown), 8)
        before = ""
        for command, lines in shown:
            with self.subTest(command):
                # The status is that of the command above it.
                ran = self.run_in_room(f"{before} >/dev/null 2>&1; {command}" if "$?" in command else command)
                before = command
                if lines:
                    self.assertEqual(ran.stdout.splitlines(), lines)
                else:
                    self.assertEqual(ran.returncode, 0, ran.stdout)

    @unittest.skipUnless(all(map(shutil.which, ("jq", "node", "parallel"))), "jq, node or parallel is missing")
    def test_the_commands_for_editors_and_for_many_graphs_do_what_the_pages_say(self):
        room = pathlib.Path(self.room.name)
        shutil.copytree(TOP / "docs", room / "docs")
        for page, count in (("EDITORS", 4), ("PIPELINES", 6)):
            shown = [it for it in commands_of((TOP / f"docs/{page}.md").read_text()) if not ELSEWHERE.search(it[0])]
            self.assertEqual(len(shown), count)
            for command, lines in shown:
                with self.subTest(command):
                    ran = self.run_in_room(command)
                    # The status says whether there are faults, or whether grep found a line.
                    self.assertEqual(ran.returncode, 2 if lines else command.startswith("grep"), ran.stdout)
                    if lines:
                        self.assertEqual(ran.stdout.splitlines(), lines)
        for name in ("labels.svg", "layers.svg"):
            self.assertEqual((room / "docs" / name).read_bytes(), (TOP / "docs" / name).read_bytes())
        self.assertEqual(len((room / "replies.jsonl").read_text().splitlines()), 3)
        self.assertTrue((room / "placed/stack.svg").is_file())

    def test_the_commands_of_the_front_page_end_in_a_picture(self):
        part = (TOP / "README.md").read_text().partition("## Try it")[2].partition("\n## ")[0]
        lines = [line[4:] for line in part.splitlines() if line.startswith("    ")]
        self.assertEqual(len(lines), 3)
        ran = self.run_in_room("set -e\n" + "\n".join(lines))
        self.assertEqual(ran.returncode, 0, ran.stdout)
        self.assertIn("yes\n", ran.stdout)
        self.assertEqual((pathlib.Path(self.room.name) / "diagram.svg").read_bytes(), (TOP / "docs/diagram.svg").read_bytes())


if __name__ == "__main__":
    unittest.main()
