"""What the tests stand on: the program that they ask, and one whose replies they choose.

The program is the one that ELK_DRAW names, or else the one that was built. No test builds it.
"""

import atexit
import os
import shutil
import sys
import tempfile
import unittest
from pathlib import Path

PACKAGE = Path(__file__).resolve().parent.parent
TOP = PACKAGE.parent.parent
sys.path.insert(0, str(PACKAGE))

PROGRAM = os.environ.get("ELK_DRAW") or str(TOP / "crates" / "elk_draw" / "out" / "elk_draw")


def _puppet():
    """A program of tests/puppet.py that starts by this Python, as fast as it can."""
    folder = tempfile.mkdtemp()
    atexit.register(shutil.rmtree, folder, True)
    program = Path(folder) / "puppet"
    program.write_text(f"#!{sys.executable} -IS\n" + (PACKAGE / "tests" / "puppet.py").read_text())
    program.chmod(0o755)
    return str(program)


PUPPET = _puppet()

with_program = unittest.skipUnless(
    os.access(PROGRAM, os.X_OK), f"there is no program {PROGRAM}: build it, or name one by ELK_DRAW"
)


def needs(*names):
    """Leaves a test out where a package isn't there."""
    missing = []
    for name in names:
        try:
            __import__(name)
        except ImportError:
            missing.append(name)
    return unittest.skipIf(missing, f"{', '.join(missing)} isn't there")


def box(id, width=30, height=20, **more):
    return {"id": id, "width": width, "height": height, **more}


def edge(source, target, **more):
    return {"id": f"{source} {target}", "sources": [source], "targets": [target], **more}


def chain(size, id="root"):
    """A graph of some nodes in a chain."""
    edges = [{**edge(f"n{at - 1}", f"n{at}"), "id": f"e{at}"} for at in range(1, size)]
    return {"id": id, "children": [box(f"n{at}") for at in range(size)], "edges": edges}
