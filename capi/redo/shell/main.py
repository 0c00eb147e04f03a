"""The command: its words, its statuses, and lines from a pipe."""
from __future__ import annotations

import argparse
import io
import os
import signal
import sys
from collections.abc import Iterator, Sequence
from typing import Optional

import redo

from . import answers, explain
from .session import Leave, NoInput, NoOutput, Session
from .words import WORDS

_MOST = 1 << 23         # bytes of a line
_NO_INPUT, _NO_OUTPUT = 6, 7

_STATUSES = """\
Status: 0 all was done (at a terminal also where a line was not); 1 a line of the input was bad, refused, or answered `full` or
`end`; 2 the words are wrong; 3 the folder has no store; 4 a file of it is damaged; 5, 6, 7 the disk, the input or the output
failed; 8 out of memory; 71 another program has the store; 72 the folder is not there, or cannot be locked. At the end of the
input, and with .quit, what was accepted is forced; with 5 to 8, or a signal, it may be lost as by a kill. docs/SHELL.md tells the
rest."""


def main(words: Optional[Sequence[str]] = None) -> int:
    """Answers lines from a terminal, or from a pipe, and gives the status."""
    asked = _parser().parse_args(words)
    signal.signal(signal.SIGINT, signal.SIG_DFL)        # (a kill, until a person is answered)
    if sys.stdout is None:
        return _NO_OUTPUT
    _be_utf8()
    s = Session(sys.stdout, sys.stderr or open(os.devnull, "w"), WORDS)
    s.mode = asked.mode
    try:
        return _run(s, asked.folder, asked.stop)
    finally:
        s.close()
        _write_no_more()


def _run(s: Session, folder: Optional[str], stop: bool) -> int:
    """Opens the store and answers all lines; what fails for good gets its status, and nothing is forced."""
    is_typed = sys.stdin is not None and sys.stdin.isatty() and sys.stdout.isatty()
    try:
        _open(s, folder, is_typed)
        return _talk(s) if is_typed else _answer(s, stop)
    except redo.Error as error:
        s.tell(f"redo: {explain.refusal(error, redo.Params(0, 0, 0))}")
        return error.code
    except NoInput as error:
        s.tell(f"redo: the input cannot be read: {error}")
        return _NO_INPUT
    except NoOutput as error:
        s.tell(f"redo: the output cannot be written: {error}")
        return _NO_OUTPUT


def _be_utf8() -> None:
    """A text is written as it is stored, whatever the locale says; and no byte of a line is lost."""
    for stream in (sys.stdin, sys.stdout, sys.stderr):
        if isinstance(stream, io.TextIOWrapper):
            stream.reconfigure(encoding="utf-8", errors="surrogateescape")


def _parser() -> argparse.ArgumentParser:
    parser = argparse.ArgumentParser(
        prog=os.environ.get("REDO_SHELL_NAME", "redo-shell"),
        description="Answers lines, typed or from a pipe: those of `redo run`, with values as text, and more: see `.help`.",
        epilog=_STATUSES, formatter_class=argparse.RawDescriptionHelpFormatter)
    parser.add_argument("folder", metavar="DIR", nargs="?", help="the folder of the store; the current one where none is named")
    parser.add_argument("--mode", choices=answers.MODES, default="table", help="how answers are written")
    parser.add_argument("--stop", action="store_true",
                        help="from a pipe: stop at the first line that is not done; of an open group nothing is kept")
    return parser


def _open(s: Session, folder: Optional[str], is_typed: bool) -> None:
    """Opens the store. Where no folder was named, and the current one has none, a line may open one."""
    try:
        s.open(folder or ".")
    except redo.NotAStore:
        if folder is not None:
            raise
        if is_typed:
            s.tell(explain.refusal(redo.NotAStore(), redo.Params(0, 0, 0)))
    if is_typed and s.store is not None:
        s.greet()


def _write_no_more() -> None:
    """What could not be written is not tried once more as this process ends."""
    for stream in (sys.stdout, sys.stderr):
        try:
            if stream is not None:
                stream.flush()
        except OSError:
            os.dup2(os.open(os.devnull, os.O_WRONLY), stream.fileno())


def _talk(s: Session) -> int:
    """Answers a person."""
    from . import terminal      # (a start from a pipe reads no readline)

    pause = terminal.Pause()
    s.stopped, s.width = pause.stopped, terminal.width
    if terminal.has_colours():
        s.colour = terminal.coloured
    terminal.prepare()
    s.tell("`.help` lists the lines; Ctrl-D, or .quit, forces and leaves; Ctrl-C gives up a line.")
    try:
        _take_all(s, ((line, "") for line in terminal.lines(s, pause)), stop=False)
    finally:
        terminal.keep()
    return 0


def _answer(s: Session, stop: bool) -> int:
    """Answers the lines of a pipe or a file."""
    _take_all(s, _piped(), stop)
    return 1 if s.failed else 0


def _piped() -> Iterator[tuple[str, str]]:
    """The lines of standard input, and the place of each. Raises NoInput."""
    number = 0
    while line := _read():
        number += 1
        if len(line) == _MOST and not line.endswith(b"\n"):
            while (rest := _read()) and not rest.endswith(b"\n"):
                pass
            yield f"a line of more than {_MOST} bytes", f"line {number}: "
        else:
            yield line.decode("utf-8", "surrogateescape").rstrip("\n"), f"line {number}: "


def _read() -> bytes:
    try:
        return sys.stdin.buffer.readline(_MOST) if sys.stdin is not None else b""
    except OSError as error:
        raise NoInput(error.strerror) from None


def _take_all(s: Session, lines: Iterator[tuple[str, str]], stop: bool) -> None:
    """Takes the lines, and leaves the store as they say."""
    forced = True
    try:
        for line, place in lines:
            s.take(line, place)
            if stop and s.failed:
                forced = s.group is None
                break
    except Leave as leave:
        forced = leave.forced
    s.leave(forced)
