"""Tries the launchers `elk` and `elk-draw`, `tools/unpack` and `tools/install` in small copies of this checkout, with the real program as the released one."""
import gzip
import hashlib
import os
import pathlib
import shutil
import subprocess
import tempfile
import unittest

TOP = pathlib.Path(__file__).resolve().parent.parent
PROGRAM = TOP / "crates/elk/out/elk"
COMMANDS = "sh awk cat chmod cp cut dirname env find grep gzip id mkdir mktemp mv readlink rm sed sha256sum sort touch uname xargs".split()
NO_PROGRAM = 70
TOO_OLD = b"#!/bin/sh\necho \"version 'GLIBC_2.34' not found\" >&2\nexit 1\n"
ANSWER = b"nodes 3 edges 3 weight 4 span 4\n"


def packed(content):
    return gzip.compress(content, mtime=0)


class Copy:
    """A checkout with one crate of one source, a release that is made of it, and a path of its own."""

    def __init__(self, room, programs):
        self.top, self.path = room / "checkout", room / "path"
        for name in ("elk", "elk-draw", "tools/unpack", "tools/install", "tools/sources-sum"):
            (self.top / name).parent.mkdir(parents=True, exist_ok=True)
            shutil.copy(TOP / name, self.top / name)
        (self.top / "crates.txt").write_text("elk:\nelk_draw:\n")
        for folder in ("src", "specs", "proofs"):
            (self.top / "crates/elk" / folder).mkdir(parents=True)
        self.source = self.top / "crates/elk/src/main.rt"
        self.source.write_text("fn main() {}\n")
        self.path.mkdir()
        for command in COMMANDS:
            (self.path / command).symlink_to(shutil.which(command))
        self.release(programs)

    def release(self, programs):
        folder = self.top / "release"
        folder.mkdir(exist_ok=True)
        for name, content in programs.items():
            (folder / f"{name}.gz").write_bytes(packed(content))
        sums = [f"{name} {hashlib.sha256(content).hexdigest()}" for name, content in programs.items()]
        totals = [f"{line} {self.sum_of(crate)}" for line, crate in [("sources", "elk"), ("sources-elk-draw", "elk_draw")]]
        (folder / "RECORD").write_text("\n".join([*sums, *totals, ""]))

    def sum_of(self, crate):
        return subprocess.run([self.top / "tools/sources-sum", crate], capture_output=True, text=True, check=True).stdout.strip()

    def command(self, name, text):
        """A command on the path of the copy."""
        (self.path / name).unlink(missing_ok=True)
        (self.path / name).write_text("#!/bin/sh\n" + text)
        (self.path / name).chmod(0o755)

    def kit(self):
        """A stand-in for the kit, which builds the program from any sources and keeps that it was called."""
        self.command("rt", f'touch "{self.top}/../was-called"\nmkdir -p out && cp {PROGRAM} out/elk && touch out/elk\nexit 5\n')

    @property
    def has_called_kit(self):
        return (self.top.parent / "was-called").exists()

    def run(self, *words, given=b"", program=None, before=(), **more):
        env = {"PATH": str(self.path), "HOME": str(self.top.parent / "home"), "TMPDIR": str(self.top.parent), **more}
        done = subprocess.run([*before, program or self.top / "elk", *words], input=given, capture_output=True, env=env, cwd="/")
        return done.returncode, done.stdout, done.stderr.decode()

    def edit(self, text="fn main() { }\n"):
        """Changes a source, after the release and then the program were made."""
        self.source.write_text(text)
        now = self.source.stat().st_mtime
        os.utime(self.top / "release/RECORD", (now, now - 20))
        program = self.top / "crates/elk/out/elk"
        if program.exists():
            os.utime(program, (now, now - 10))

    def files(self):
        return sorted(str(it.relative_to(self.top.parent)) for it in self.top.parent.rglob("*"))


def setUpModule():
    """Without a program of these sources the launcher would build one here, which takes an hour."""
    if not PROGRAM.exists():
        PROGRAM.parent.mkdir(parents=True, exist_ok=True)
        done = subprocess.run([TOP / "tools/unpack", PROGRAM])
        assert done.returncode == 0, "there is no program, and the release is of other sources: build it first"


class Launcher(unittest.TestCase):
    def setUp(self):
        folder = tempfile.TemporaryDirectory()
        self.addCleanup(folder.cleanup)
        self.room = pathlib.Path(folder.name)
        self.room.chmod(0o755)
        self.real = PROGRAM.read_bytes()
        self.copy = Copy(self.room, {"elk-x86_64-linux": self.real})

    def answers(self, copy=None, **how):
        self.assertEqual((copy or self.copy).run("demo", "3", **how), (0, ANSWER, ""))

    def ends(self, *parts, **how):
        """The launcher ends with 70 and one line with these parts."""
        status, out, notes = self.copy.run("demo", "3", **how)
        self.assertEqual((status, out, notes.count("\n")), (NO_PROGRAM, b"", 1), notes)
        for part in parts:
            self.assertIn(part, notes)

    def test_the_first_call_unpacks_and_later_ones_start_what_is_there(self):
        self.answers()
        before = self.copy.files()
        self.assertIn("checkout/crates/elk/out/elk", before)
        self.answers()
        self.assertEqual(self.copy.files(), before)

    def test_words_streams_and_status_pass_through(self):
        self.assertEqual(self.copy.run("layout", given=b"{"), (2, b"", "refused 1 NotJson -\n"))
        self.assertEqual(self.copy.run("a word", "")[0], 5)

    def test_elk_draw_starts_its_own_program(self):
        script = b'#!/bin/sh\n[ $# -gt 0 ] || exit 2\necho "draws $*"\nexit 3\n'
        self.copy.release({"elk-x86_64-linux": self.real, "elk-draw-x86_64-linux": script})
        for _ in range(2):
            self.assertEqual(self.copy.run("--a word", program=self.copy.top / "elk-draw"), (3, b"draws --a word\n", ""))
        self.assertIn("checkout/crates/elk_draw/out/elk_draw", self.copy.files())
        self.answers()

    def test_without_a_released_elk_draw_and_without_a_kit_it_says_so(self):
        status, out, notes = self.copy.run(program=self.copy.top / "elk-draw")
        self.assertEqual((status, out), (NO_PROGRAM, b""))
        self.assertTrue(notes.startswith("elk-draw: "), notes)

    def test_it_is_called_by_a_link(self):
        (self.room / "link").symlink_to(self.copy.top / "elk")
        self.answers(program=self.room / "link")

    def test_a_new_release_is_unpacked_anew(self):
        self.answers()
        self.copy.release({"elk-x86_64-linux": b"#!/bin/sh\n[ $# -eq 0 ] && exit 5\necho new\n"})
        kept = self.copy.top / "crates/elk/out/elk"
        os.utime(kept, (0, 0))
        self.assertEqual(self.copy.run("demo", "3"), (0, b"new\n", ""))

    def test_a_stale_source_is_built_where_the_kit_is_there(self):
        self.answers()
        self.copy.kit()
        self.copy.edit()
        status, out, notes = self.copy.run("demo", "3")
        self.assertEqual((status, out), (0, ANSWER))
        self.assertIn("building the program", notes)
        self.assertTrue(self.copy.has_called_kit)
        self.answers()

    def test_a_comment_is_no_reason_to_build(self):
        self.answers()
        self.copy.kit()
        self.copy.edit("// It does nothing.\nfn main() {}\n")
        self.answers()
        self.assertFalse(self.copy.has_called_kit)

    def test_a_stale_source_is_no_reason_to_build_without_the_kit(self):
        self.answers()
        self.copy.edit()
        self.answers()

    def test_a_release_of_other_sources_is_not_unpacked(self):
        self.copy.edit()
        self.ends("made from these sources")

    def test_a_missing_release_is_reported_without_the_kit(self):
        shutil.rmtree(self.copy.top / "release")
        self.ends("made from these sources")

    def test_a_missing_release_is_built_where_the_kit_is_there(self):
        shutil.rmtree(self.copy.top / "release")
        self.copy.kit()
        self.assertEqual(self.copy.run("demo", "3")[:2], (0, ANSWER))

    def test_a_packed_program_that_is_not_the_recorded_one_is_not_started(self):
        (self.copy.top / "release/elk-x86_64-linux.gz").write_bytes(packed(b"#!/bin/sh\nexit 5\n"))
        self.ends("adapters/js/bin/elk")

    def test_the_static_program_is_taken_first(self):
        self.copy.release({"elk-x86_64-linux": TOO_OLD, "elk-x86_64-linux-static": self.real})
        self.answers()

    def test_the_other_program_is_taken_where_the_static_one_can_not_start(self):
        self.copy.release({"elk-x86_64-linux": self.real, "elk-x86_64-linux-static": TOO_OLD})
        self.answers()

    def test_the_program_for_arm_is_taken_there(self):
        self.copy.command("uname", "echo Linux aarch64\n")
        self.copy.release({"elk-x86_64-linux": TOO_OLD, "elk-aarch64-linux-static": self.real})
        self.answers()

    def test_another_system_is_reported_what_to_take(self):
        self.copy.command("uname", "echo Darwin arm64\n")
        self.ends("Darwin arm64", "adapters/js/bin/elk", "Node 18")

    def read_only(self):
        """Words that run a command as one who may not write into the copy."""
        if os.getuid() != 0:
            for path in [self.copy.top, *self.copy.top.rglob("*")]:
                path.chmod(path.stat().st_mode & ~0o222)
            self.addCleanup(lambda: [it.chmod(0o755) for it in [self.copy.top, *self.copy.top.rglob("*")]])
            return []
        if not shutil.which("setpriv"):
            self.skipTest("nobody is there who may not write: this is run by root, without setpriv")
        self.room.chmod(0o1777)
        return [shutil.which("setpriv"), "--reuid=65534", "--regid=65534", "--clear-groups"]

    def test_a_read_only_copy_starts_the_released_program_and_leaves_nothing(self):
        before, files = self.read_only(), self.copy.files()
        self.answers(before=before)
        self.assertEqual(self.copy.run("layout", given=b"{", before=before)[0], 2)
        self.assertEqual(self.copy.files(), files)

    def test_a_read_only_copy_with_a_stale_source_starts_no_build(self):
        self.copy.kit()
        self.copy.edit()
        before, files = self.read_only(), self.copy.files()
        self.ends("made from these sources", before=before)
        self.assertFalse(self.copy.has_called_kit)
        self.assertEqual(self.copy.files(), files)


class Install(unittest.TestCase):
    def setUp(self):
        folder = tempfile.TemporaryDirectory()
        self.addCleanup(folder.cleanup)
        self.prefix = pathlib.Path(folder.name).resolve() / "a prefix"

    def install(self, *words, **more):
        done = subprocess.run([TOP / "tools/install", *words], capture_output=True, text=True, env={**os.environ, **more}, check=True)
        self.assertEqual(done.stderr, "")
        return done.stdout

    def program_answers(self):
        done = subprocess.run(["elk", "demo", "3"], env={"PATH": f"{self.prefix}/bin"}, capture_output=True)
        self.assertEqual((done.returncode, done.stdout), (0, ANSWER))

    def test_the_program_is_found_on_the_path(self):
        said = self.install(self.prefix)
        self.assertIn(f"PATH={self.prefix}/bin", said)
        self.program_answers()
        self.assertNotIn("PATH=", "".join(self.install(self.prefix, PATH=f"{self.prefix}/bin:{os.environ['PATH']}").splitlines()[2:3]))
        self.assertEqual(sorted(it.name for it in (self.prefix / "bin").iterdir()), ["elk", "elk-draw"])
        given = (TOP / "examples/diagram.json").read_bytes()
        drawn = subprocess.run(["elk-draw"], input=given, env={"PATH": f"{self.prefix}/bin"}, capture_output=True)
        self.assertEqual((drawn.returncode, drawn.stdout), (0, (TOP / "docs/diagram.svg").read_bytes()))

    def test_without_a_prefix_it_goes_below_the_home(self):
        self.prefix = self.prefix / ".local"
        self.install(HOME=str(self.prefix.parent))
        self.program_answers()

    @unittest.skipUnless((TOP / "adapters/python/elk_layout").is_dir(), "the Python package is not there")
    def test_the_python_package_is_found(self):
        home = self.prefix
        said = self.install(HOME=str(home))
        self.assertIn("elk_layout is there", said)
        self.assertNotIn("PYTHONPATH", said)
        code = "import elk_layout; print(elk_layout.layout({'id': 'r', 'children': [{'id': 'a'}]})['children'][0]['x'])"
        path = f"{home}/.local/bin:{os.environ['PATH']}"
        done = subprocess.run(["python3", "-c", code], env={**os.environ, "HOME": str(home), "PATH": path}, capture_output=True, text=True, cwd="/")
        self.assertEqual((done.returncode, done.stdout), (0, "12\n"), done.stderr)
        elsewhere = self.install(self.prefix / "elsewhere")
        self.assertIn("PYTHONPATH=", elsewhere)


if __name__ == "__main__":
    unittest.main()
