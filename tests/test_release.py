"""Tries the checksums of sources and the checks of a release in small copies of this checkout: `tools/sources-sum`, `tools/release`."""
import gzip
import pathlib
import shutil
import subprocess
import tempfile
import unittest

TOP = pathlib.Path(__file__).resolve().parent.parent
CODE = 'fn main() {\n    let text = "a // b";\n    println!("{text}");\n}\n'
FORMS = [f"{program}{form}" for program in ("elk", "elk-draw") for form in ("-x86_64-linux", "-x86_64-linux-static", "-aarch64-linux-static", ".wasm")]

# A file, and an edit of it that leaves the program as it is.
SAME = [
    ("src/main.rt", "", "// A comment.\n\n"),
    ("src/main.rt", "", "/* A comment\n of two lines. */\n"),
    ("src/main.rt", "fn main", "/// What it does, as in \"text\".\nfn main"),
    ("src/main.rt", "fn main() {", "fn main() {  // It begins."),
    ("src/main.rt", "fn main() {", "fn main() {\n\n    // Here too."),
    ("specs/Lib.antt", "", "-- A comment.\n"),
]

# One that doesn't.
OTHER = [
    ("src/main.rt", "a // b", "a // c"),
    ("src/main.rt", "a // b", "a\n    // b"),
    ("src/main.rt", "text}", "text}\n"),
    ("src/main.rt", "fn main", "/* A comment. */ pub fn main"),
    ("src/main.rt", "}\n", "}\nfn more() {}\n"),
    ("specs/Lib.antt", "", "pub mod More\n"),
    ("specs/Lib.antt", "", "--- no comment\n"),
]


class Copy(unittest.TestCase):
    """A checkout with a program of one crate, and one crate that the program doesn't stand on."""

    def setUp(self):
        folder = tempfile.TemporaryDirectory()
        self.addCleanup(folder.cleanup)
        self.top = pathlib.Path(folder.name)
        for name in ("tools/sources-sum", "tools/release", "tools/wasm", "wasm/order.py", "wasm/heap.c", "wasm/test.c"):
            (self.top / name).parent.mkdir(exist_ok=True)
            shutil.copy(TOP / name, self.top / name)
        self.write("crates.txt", "elk: low # the program\nlow:\nelk_draw: elk\nbeside:\n")
        self.write("crates/low/src/main.rt", CODE)
        self.write("crates/low/specs/Lib.antt", "pub mod Spec\n")

    def write(self, name, content):
        (self.top / name).parent.mkdir(parents=True, exist_ok=True)
        (self.top / name).write_text(content)

    def edit(self, name, old, new):
        """Replaces the first place of a text. An empty one is the beginning."""
        self.write(name, (self.top / name).read_text().replace(old, new, 1))

    def tool(self, *words):
        done = subprocess.run(words, cwd=self.top, capture_output=True, text=True)
        return done.returncode, done.stdout + done.stderr

    def sum(self, *words):
        status, out = self.tool("tools/sources-sum", *words)
        self.assertEqual(status, 0, out)
        return out


class Sums(Copy):
    def check_edits(self, edits, is_same):
        for name, old, new in edits:
            with self.subTest(name, new=new):
                before, text = self.sum(), (self.top / "crates/low" / name).read_text()
                self.edit(f"crates/low/{name}", old, new)
                self.assertEqual(self.sum() == before, is_same)
                self.write(f"crates/low/{name}", text)

    def test_a_comment_does_not_count(self):
        self.check_edits(SAME, True)

    def test_code_counts(self):
        self.check_edits(OTHER, False)

    def test_a_line_of_a_text_that_looks_like_a_comment_counts(self):
        for begin, end in [('"', '"'), ('r#"a"', '"#'), ('"a \\" b', '"')]:
            with self.subTest(begin=begin):
                self.write("crates/low/src/main.rt", f"const TEXT: &str = {begin}\n// One\n\n{end};\n")
                before = self.sum()
                self.edit("crates/low/src/main.rt", "// One", "// Two")
                self.assertNotEqual(self.sum(), before)

    def test_the_crates_below_count_and_no_others(self):
        before = self.sum("elk_draw")
        self.write("crates/beside/src/lib.rt", "fn more() {}\n")
        self.edit("crates.txt", "beside:", "beside: low")
        self.edit("crates.txt", "# the program", "# a program")
        self.assertEqual(self.sum("elk_draw"), before)
        self.edit("crates.txt", "low:", "low: serde_json")
        self.assertNotEqual(self.sum("elk_draw"), before)

    def test_the_forms_count_what_makes_them(self):
        before = self.sum("--forms")
        self.edit("wasm/test.c", "", "int more;\n")
        self.edit("wasm/heap.c", "", "/* A comment. */\n")
        self.assertEqual(self.sum("--forms"), before)
        self.edit("wasm/heap.c", "", "int more;\n")
        after = self.sum("--forms")
        self.edit("tools/wasm", "-O3", "-O2")
        last = self.sum("--forms")
        self.edit("wasm/order.py", "30_000", "20_000")
        self.assertEqual(len({before, after, last, self.sum("--forms")}), 4)


class Release(Copy):
    def setUp(self):
        super().setUp()
        (self.top / "release").mkdir()
        (self.top / "room").mkdir()
        for name in FORMS:
            (self.top / f"release/{name}.gz").write_bytes(gzip.compress(name.encode(), mtime=0))
            self.write(f"room/{name}", name)
        for crate, name in [("elk", "elk-x86_64-linux"), ("elk_draw", "elk-draw-x86_64-linux")]:
            self.write(f"crates/{crate}/out/{crate}", name)
        self.write("release/RECORD", f"forms {self.sum('--forms')}binaryen {self.binaryen()}\n")

    def binaryen(self):
        return subprocess.run(["wasm-opt", "--version"], capture_output=True, text=True).stdout.strip() if shutil.which("wasm-opt") else ""

    def test_another_tool_for_the_forms_makes_them_stale(self):
        self.edit("tools/wasm", "-O3", "-O2")
        status, said = self.tool("tools/release", "--check")
        self.assertEqual(status, 1)
        self.assertIn("another tools/wasm", said)

    def test_other_sources_make_a_program_stale(self):
        status, said = self.tool("tools/release", "--check")
        self.assertEqual(status, 1)
        self.assertIn("program elk is not of these sources", said)

    def test_all_forms_that_differ_are_named(self):
        self.assertEqual(self.tool("tools/release", "--compare", "room"), (0, ""))
        wrong = ["elk-x86_64-linux-static", "elk.wasm", "elk-draw-aarch64-linux-static"]
        for name in wrong:
            self.write(f"room/{name}", "other")
        self.write("crates/elk_draw/out/elk_draw", "other")
        status, said = self.tool("tools/release", "--compare", "room")
        self.assertEqual(status, 1)
        for name in FORMS:
            self.assertEqual(f"release/{name}.gz is not" in said, name in [*wrong, "elk-draw-x86_64-linux"], name)

    def test_a_form_that_is_not_made_is_not_compared(self):
        (self.top / "room/elk-aarch64-linux-static").unlink()
        status, said = self.tool("tools/release", "--compare", "room")
        self.assertEqual(status, 0)
        self.assertIn("elk-aarch64-linux-static is not compared", said)


if __name__ == "__main__":
    unittest.main()
