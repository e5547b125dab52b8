"""Where the program `elk-draw` is."""

from __future__ import annotations

import os
import platform
import shutil
import sys
from pathlib import Path
from typing import NoReturn, Tuple, Union

from .errors import ProgramError

Program = Union[str, "os.PathLike[str]", None]

#: The words with which the program is started, before its own.
Command = Tuple[str, ...]

NAME = "elk-draw"
VARIABLE = "ELK_DRAW_PROGRAM"
FOLDER = Path(__file__).resolve().parent
# The program that came with the package, and the script that runs its WebAssembly module by Node.
OWN = FOLDER / "bin" / NAME
OWN_MODULE = FOLDER / "module" / "bin" / NAME
# The launcher of the repository and its script, if the package stands in it. It may also stand in the root of a system.
TOP = Path(os.path.abspath(FOLDER / "../../.."))
LAUNCHER = TOP / NAME
MODULE = TOP / "adapters" / "js" / "bin" / NAME
# The systems for which there is a program.
SYSTEMS = (("Linux", "x86_64"), ("Linux", "aarch64"))


def find_program(program: Program = None) -> Command:
    """What starts the program: the given one, or that of ELK_DRAW_PROGRAM, of the package, of the search path, or of
    the repository. On a system without a program, Node runs its module.
    """
    named = os.fspath(program) if program else os.environ.get(VARIABLE)
    if named:
        return (named,)
    system = platform.system(), platform.machine()
    # The launcher starts on every system, but has no program for some.
    for path in (OWN, shutil.which(NAME), LAUNCHER if system in SYSTEMS else None):
        if path and os.access(path, os.X_OK):
            return (str(path),)
    node = shutil.which("node")
    for script in (OWN_MODULE, MODULE):
        if node and script.is_file():
            return (node, str(script))
    if system in SYSTEMS:
        ways = f"put it on the search path, name it in the environment variable {VARIABLE}, or pass its path as program=.."
        raise ProgramError(f"the program {NAME} isn't found: {ways}")
    way = "install Node, so that node is on the search path, and the package whose file name ends with none-any.whl"
    module = "Its WebAssembly module runs by Node 18 or later"
    raise ProgramError(f"there is no program {NAME} for {' '.join(system)}. {module}: {way}")


def start() -> NoReturn:
    """The command `elk-draw` of an installed package: the program itself, with the same arguments."""
    os.execv(OWN, [NAME, *sys.argv[1:]])
