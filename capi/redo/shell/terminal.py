"""The prompt: lines that are edited, completed and kept, colours, and Ctrl-C."""
from __future__ import annotations

import glob
import os
import shutil
import signal
import sys
from collections.abc import Callable, Iterator
from contextlib import suppress
from types import FrameType
from typing import Optional

from . import forms
from .session import NoInput, Session, Stopped

try:
    import readline
except ImportError:             # a Python that was built without it edits no lines
    readline = None             # type: ignore[assignment]

_KEPT = 1000
_COLOURS = {"red": "31", "dim": "2", "bold": "1"}


def has_colours() -> bool:
    """Whether both streams are a terminal with colours, and a person has not turned them off by NO_COLOR."""
    wanted = not os.environ.get("NO_COLOR") and os.environ.get("TERM") != "dumb"
    return wanted and sys.stdout.isatty() and sys.stderr.isatty()


def coloured(text: str, colour: str) -> str:
    """A text in a colour."""
    return f"\033[{_COLOURS[colour]}m{text}\033[0m"


def width() -> int:
    """How many columns the terminal has."""
    return shutil.get_terminal_size().columns


class Pause:
    """Ctrl-C: while a line is typed it gives up the line, and while one is done it is remembered until `stopped` asks, between
    two commands. So no call of the library is cut short."""

    def __init__(self) -> None:
        self._asked = False
        self._typing = False
        signal.signal(signal.SIGINT, self._interrupt)

    def _interrupt(self, _signal: int, _frame: Optional[FrameType]) -> None:
        if self._typing:
            raise KeyboardInterrupt
        self._asked = True

    def stopped(self) -> None:
        """Raises Stopped where Ctrl-C was typed since the line was."""
        if self._asked:
            self._asked = False
            raise Stopped

    def typed(self, prompt: str) -> str:
        """A line that is typed. Raises EOFError at the end, KeyboardInterrupt where the line is given up, NoInput where the
        terminal is gone."""
        try:
            self._typing = True
            return input(prompt)
        except OSError as error:
            raise NoInput(error.strerror) from None
        finally:
            self._typing = False
            self._asked = False


def lines(s: Session, pause: Pause) -> Iterator[str]:
    """The lines that a person types, up to Ctrl-D. What is pasted may be several."""
    with_colours = has_colours()
    while True:
        try:
            text = pause.typed(_prompt(s, with_colours))
        except EOFError:
            print()
            return
        except KeyboardInterrupt:
            print("^C" if readline is None else "")
            continue
        yield from text.split("\n")


def _prompt(s: Session, with_colours: bool) -> str:
    text = "redo, no store> " if s.store is None else "redo, in a group> " if s.group else "redo> "
    if with_colours and readline is not None:           # (readline counts no columns between \1 and \2)
        return f"\1\033[1m\2{text}\1\033[0m\2"
    return text


def prepare() -> None:
    """Completion and history, where this Python has readline."""
    if readline is None:
        return
    readline.set_completer(_Completer())
    readline.set_completer_delims(" ")
    is_edit = "libedit" in (readline.__doc__ or "")
    readline.parse_and_bind("bind ^I rl_complete" if is_edit else "tab: complete")
    readline.set_history_length(_KEPT)
    if path := _history():
        with suppress(OSError):
            readline.read_history_file(path)


def keep() -> None:
    """Writes the history, which only its owner may read."""
    path = _history()
    if readline is None or not path:
        return
    with suppress(OSError):
        os.close(os.open(path, os.O_WRONLY | os.O_CREAT, 0o600))
        readline.write_history_file(path)


def _history() -> str:
    return os.environ.get("REDO_HISTORY", os.path.expanduser("~/.redo_history"))


class _Completer:
    """What may stand where a person has typed a part: a word, a choice, the name of a file."""

    def __init__(self) -> None:
        self._found: list[str] = []

    def __call__(self, text: str, state: int) -> Optional[str]:
        if state == 0:
            before = readline.get_line_buffer()[:readline.get_begidx()].split()
            self._found = completions(before, text)
        return self._found[state] if state < len(self._found) else None


def completions(before: list[str], text: str) -> list[str]:
    """What begins with a text, behind these fields."""
    if not before:
        return _ended(word for word in forms.FORMS if word.startswith(text) and (text or not word.startswith(".")))
    form = forms.FORMS.get(before[0])
    if form is None or len(before) > len(form.fields):
        return []
    name = form.fields[len(before) - 1]
    if name == "WORD":
        return _ended(word for word in forms.FORMS if word.startswith(text))
    if name in ("DIR", "FILE"):
        return _files(text, os.path.isdir if name == "DIR" else os.path.exists)
    if text.startswith("@") and name in ("HEX", "KEY", "VAL", "FROM", "TO"):
        return [f"@{path}" for path in _files(text[1:], os.path.exists)]
    return _ended(word for word in name.split("|") if word.islower() and word.startswith(text))


def _ended(words: Iterator[str]) -> list[str]:
    return [f"{word} " for word in words]


def _files(text: str, wanted: Callable[[str], bool]) -> list[str]:
    found = (path for path in sorted(glob.glob(glob.escape(os.path.expanduser(text)) + "*")) if " " not in path)
    return [f"{path}/" if os.path.isdir(path) else f"{path} " for path in found if wanted(path)]
