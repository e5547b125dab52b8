"""The command:  python -m elk_layout layout FILE.. -o FOLDER  and  python -m elk_layout check FILE.."""

from __future__ import annotations

import argparse
import json
import os
import sys
from collections import Counter
from functools import partial
from pathlib import Path
from typing import Any, Dict, Iterator, List, NoReturn, Optional, Sequence, Union

from . import __version__
from .errors import ElkError, Fault, ProgramError, Refusal
from .processes import Pool, Request
from .program import find_program
from .query import Query
from .streams import HELD, answered, shown
from .verdict import check

# The name of a file that stands for stdin.
STDIN = "-"
DOT_ENDINGS = (".dot", ".gv")
REPORT = "refused.jsonl"

# Statuses as those of the program and its launcher.
DONE, NOT_GOOD, REFUSED, USAGE, NO_PROGRAM = 0, 1, 2, 5, 70


class _Parser(argparse.ArgumentParser):
    def error(self, message: str) -> NoReturn:
        self.print_usage(sys.stderr)
        self.exit(USAGE, f"{self.prog}: {message}\n")


def _parser() -> argparse.ArgumentParser:
    parser = _Parser(
        prog="python -m elk_layout",
        description="Lays out graphs of ELK's JSON or DOT, and checks placed ones.",
        epilog="The status is 1 if a graph isn't good, 2 if one is refused or can't be read, 5 if the arguments are invalid, 70 if the program can't be started, else 0.",
    )
    parser.add_argument("--version", action="version", version=f"elk-layout {__version__}")
    commands = parser.add_subparsers(dest="command", required=True, metavar="COMMAND")
    about = (
        f"Lays out each file into a folder; {REPORT} there lists the files that weren't, and why. One graph without a "
        "folder goes to stdout. Files whose names end with .dot or .gv are DOT. @LIST stands for the lines of the file LIST."
    )
    layout = commands.add_parser("layout", help="lays out files", description=about, fromfile_prefix_chars="@")
    layout.add_argument("-o", "--output", metavar="FOLDER", help="where the placed graphs are written")
    layout.add_argument("--svg", action="store_true", help="draws a picture of each too; to stdout, the picture alone")
    layout.add_argument("--no-arrows", action="store_true", help="draws no arrow heads")
    layout.add_argument("--jobs", type=int, default=1, metavar="N", help="how many files are laid out at once")
    about = "Checks placed graphs that have their certificates, and prints a verdict for each."
    for one in (layout, commands.add_parser("check", help="checks placed graphs", description=about)):
        one.add_argument("files", nargs="+", metavar="FILE", help="a graph; - stands for stdin")
        one.add_argument("--numbers", choices=["ceil", "exact"], default="ceil", help="rounds fractions, or refuses them")
        one.add_argument("--option", action="append", default=[], metavar="NAME=VALUE", help="a layout option for all elements that don't set it")
        one.add_argument("--program", metavar="PATH", help="the program elk-draw")
    return parser


def main(words: Optional[List[str]] = None) -> int:
    parser = _parser()
    given = parser.parse_args(words)
    given.options = dict(it.partition("=")[::2] for it in given.option)
    try:
        find_program(given.program)
        if given.command == "check":
            return max(_checked(file, given) for file in given.files)
        return _laid_out(given)
    except ProgramError as error:
        print(error, file=sys.stderr)
        return NO_PROGRAM
    except (ValueError, OSError) as error:
        parser.error(str(error))


def _checked(file: str, given: argparse.Namespace) -> int:
    """Prints the verdict on a file, and returns the status."""
    try:
        verdict = check(_text_of(file), options=given.options, numbers=given.numbers, program=given.program)
    except (Refusal, OSError) as error:
        print(f"{file}: {_error_of(error)}", file=sys.stderr)
        return REFUSED
    print(verdict if len(given.files) == 1 else f"{file}: {verdict}")
    return DONE if verdict else NOT_GOOD


def _laid_out(given: argparse.Namespace) -> int:
    """Lays files out into a folder, or one to stdout, and reports which failed."""
    folder, count = given.output, len(given.files)
    if given.jobs < 1:
        raise ValueError(f"--jobs is at least 1, not {given.jobs}")
    if count > 1 and not folder:
        raise ValueError("several files need a folder: -o/--output FOLDER")
    targets = _targets_of(given.files, folder) if folder else [None]
    errors = list(shown(_errors(given, targets), bool(folder) and sys.stderr.isatty(), count))
    refused = [(file, error) for file, error in zip(given.files, errors) if error]
    for file, error in refused:
        print(f"{file}: {error}", file=sys.stderr)
    if folder:
        report = Path(folder) / REPORT
        report.write_text("".join(f"{json.dumps(_told_of(*it), ensure_ascii=False)}\n" for it in refused), encoding="utf-8")
        print(f"{count - len(refused):,} of {count:,} files laid out")
        for kind, times in sorted(Counter(_kind_of(error) for _, error in refused).items()):
            print(f"{times:,} {kind}")
        if refused:
            print(f"which and why: {report}")
    return REFUSED if refused else DONE


def _targets_of(files: List[str], folder: str) -> Sequence[Optional[Path]]:
    """What is written for each file: in the folder they lie as the files lie to one another."""
    if STDIN in files:
        raise ValueError("stdin, as -, is laid out to stdout: leave out -o/--output")
    paths = [Path(os.path.abspath(it)) for it in files]
    top = os.path.commonpath([it.parent for it in paths])
    targets = [(Path(folder) / it.relative_to(top)).with_suffix(".json") for it in paths]
    given = {it.resolve() for it in paths}
    seen: Dict[Path, str] = {}
    for file, target in zip(files, targets):
        if target.resolve() in given:
            raise ValueError(f"{target} is one of the given files: choose another folder")
        if seen.setdefault(target, file) != file:
            raise ValueError(f"{file} and {seen[target]} would both be written to {target}")
    Path(folder).mkdir(parents=True, exist_ok=True)
    return targets


def _errors(given: argparse.Namespace, targets: Sequence[Optional[Path]]) -> Iterator[Optional[ElkError]]:
    """Lays files out, some at once, and yields the error of each in order, or None."""
    give = "placed warnings svg" if given.svg else "placed warnings"
    how = {"options": given.options, "numbers": given.numbers, "arrows": not given.no_arrows}
    kinds = ["dot" if file.endswith(DOT_ENDINGS) else "graph" for file in given.files]
    queries = [Query(give, given.program, kind, partial(_warn, file), **how) for kind, file in zip(kinds, given.files)]
    pool = Pool(queries[0].command, given.jobs)
    requests = answered(zip(queries, given.files), lambda it: _request(*it), pool, HELD * given.jobs)
    for query, target, request in zip(queries, targets, requests):
        try:
            _write(query.reply_of(request), target, given.svg)
            yield None
        except (ElkError, OSError) as cause:
            yield _error_of(cause)


def _warn(file: str, warning: Fault) -> None:
    print(f"{file}: warning: {warning.message}", file=sys.stderr)


def _request(query: Query, file: str) -> Request:
    try:
        return query.request(_text_of(file))
    except OSError as cause:
        return Request(b"", error=_error_of(cause))


def _text_of(file: str) -> str:
    """The text of a file or of stdin. What isn't UTF-8 is read as Latin-1."""
    content = sys.stdin.buffer.read() if file == STDIN else Path(file).read_bytes()
    try:
        return content.decode("utf-8-sig")
    except UnicodeDecodeError:
        return content.decode("latin-1")


def _write(reply: Dict[str, Any], target: Optional[Path], has_picture: bool) -> None:
    placed = json.dumps(reply["placed"], ensure_ascii=False, separators=(",", ":"), sort_keys=True) + "\n"
    if target is None:
        sys.stdout.write(reply["svg"] if has_picture else placed)
        return
    target.parent.mkdir(parents=True, exist_ok=True)
    for ending, text in ((".json", placed), (".svg", reply.get("svg"))):
        if text is not None:
            # No reader finds half of a file.
            part = target.with_name(f".{target.name}.{os.getpid()}")
            try:
                part.write_text(text, encoding="utf-8")
                part.replace(target.with_suffix(ending))
            finally:
                part.unlink(missing_ok=True)


def _error_of(cause: Union[ElkError, OSError]) -> ElkError:
    return ElkError(cause.strerror or str(cause)) if isinstance(cause, OSError) else cause


def _kind_of(error: ElkError) -> str:
    """What went wrong with a file, in short."""
    if isinstance(error, Refusal):
        return f"refused: {error.name}" if error.rule is None else f"refused by rule {error.rule}, {error.name}"
    return "not answered by the program" if isinstance(error, ProgramError) else "not read or not written"


def _told_of(file: str, error: ElkError) -> Dict[str, Any]:
    """The line of the report about a file that wasn't laid out."""
    more = ("rule", "name", "id", "path", "line", "column") if isinstance(error, Refusal) else ()
    return {"file": file, "reason": str(error), **{name: getattr(error, name) for name in more}}


if __name__ == "__main__":
    try:
        sys.exit(main())
    except KeyboardInterrupt:
        sys.exit(130)
