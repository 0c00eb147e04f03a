"""A store that is open, what is done to it, and how it is left."""
from __future__ import annotations

import os
import time
from collections.abc import Callable, Iterator, Mapping
from contextlib import ExitStack, contextmanager, suppress
from typing import NamedTuple, Optional, TextIO

import redo

from . import answers, explain, forms, lines, notation
from .answers import Answer
from .reading import BadLine, Line, read

Words = Mapping[str, Callable[..., Optional[Answer]]]


class Leave(Exception):
    """The line that ends the session was given: whether what was accepted is forced."""

    def __init__(self, forced: bool) -> None:
        super().__init__()
        self.forced = forced


class Stopped(Exception):
    """Ctrl-C came between two commands of a line."""


class NoInput(Exception):
    """A line could not be read."""


class NoOutput(Exception):
    """An answer could not be written."""


class Watch(NamedTuple):
    """What is told after each line that changes it: an object, or `stat` where it is None; and when it was told last."""

    target: Optional[int]
    seconds: float
    seen: str
    at: float


class Session:
    """Takes lines, and writes what they are answered; explanations go to another stream. `words` does the lines with a dot.

    `failed` tells whether a line was not done, and `stopped` is called between two commands of a line: it raises Stopped where a
    person has asked for it."""

    def __init__(self, out: TextIO, told: TextIO, words: Words) -> None:
        self.store: Optional[redo.Store] = None
        self.folder = ""
        self.mode = "table"
        self.timer = False
        self.watch: Optional[Watch] = None
        self.failed = False
        self.group: Optional[ExitStack] = None
        self.width: Callable[[], int] = lambda: 0
        self.stopped: Callable[[], None] = lambda: None
        self.colour: Callable[[str, str], str] = lambda text, _: text
        self._out, self._told, self._words = out, told, words

    def take(self, text: str, place: str = "") -> None:
        """Does a line, and says what it is answered; `place` says where it stood. Raises Leave, NoOutput, or redo.DiskFault,
        after which nothing is answered."""
        begun = time.monotonic()
        line: Optional[Line] = None
        try:
            line = read(text)
            if line is None:
                return
            self.say(self._done(line))
        except BadLine as error:
            self._say_bad(text, error, place)
        except redo.Error as error:
            if self._is_broken():
                raise
            self.say(lines.failed(error))
            self.tell(f"{place}{explain.refusal(error, self._params(), line.form.form if line else '')}")
        except MemoryError:
            self.say(answers.refused("OutOfMemory"))
        except Stopped:
            self.say(answers.refused("Stopped"))
        if self.timer:
            self.tell(f"{time.monotonic() - begun:.6f} s")
        self.look()

    def _done(self, line: Line) -> Optional[Answer]:
        if line.word.startswith("."):
            return self._words[line.word](self, *line.words)
        return self.done(line)

    def done(self, line: Line) -> Answer:
        """Does a line of a script. Raises redo.Error where it is refused, and BadLine where only `redo run` answers it."""
        if line.word == "begin":
            return self._begin()
        if line.word == "end":
            return self._end()
        if line.word == "abort":
            return self.abort()
        if line.word in explain.BACKUPS:
            raise BadLine(0, explain.no_call(line))
        return lines.done(self.opened(), line)

    def _begin(self) -> Answer:
        with ExitStack() as group:
            group.enter_context(self.opened().group())
            self.group = group.pop_all()
        return answers.OK

    def _end(self) -> Answer:
        self.opened()
        if self.group is None:
            raise redo.NoGroup("no group is open")
        group, self.group = self.group, None
        group.close()
        return answers.OK

    def abort(self) -> Answer:
        """Gives up the group that is open, and opens the store anew. Raises redo.Error, and where that fails none is open."""
        store = self.opened()
        if self.group is None:
            raise redo.NoGroup("no group is open")
        lost = store.stat()
        self.reopen()
        self.tell(f"{lost.accepted - lost.forced} commands of the group are given up, and the store is opened anew")
        return answers.OK

    def opened(self) -> redo.Store:
        """The store. Raises redo.NotOpen where none is open."""
        if self.store is None:
            raise redo.NotOpen("no store is open")
        return self.store

    def _is_broken(self) -> bool:
        """Whether the disk of the store has failed, and not that of another one that a line was about."""
        try:
            return self.store is not None and not self.store.stat()
        except redo.DiskFault:
            return True

    def _params(self) -> redo.Params:
        return self.store.params() if self.store is not None else redo.Params(0, 0, 0)

    def say(self, answer: Optional[Answer]) -> None:
        """Writes what a line is answered."""
        if answer is None:
            return
        self.failed = self.failed or answer.failed
        text = answers.written(answer, self.mode, self.width())
        self.print(self.colour(text, "red") if answer.failed else text)

    def print(self, text: str) -> None:
        """Writes lines among the answers. Raises NoOutput."""
        try:
            print(text, file=self._out, flush=True)
        except OSError as error:
            raise NoOutput(error.strerror) from None

    def tell(self, text: str) -> None:
        """Writes what is for a person, beside the answers."""
        with suppress(OSError):
            print(self.colour(text, "dim"), file=self._told, flush=True)

    def _say_bad(self, text: str, error: BadLine, place: str) -> None:
        self.say(answers.BAD)
        start = max(0, error.column - 60)
        before, shown = text[start:error.column], text[start:start + 100]
        room = "".join(c if c == "\t" else " " * answers.columns_of(c) for c in before)
        room += " " * (error.column - start - len(before))
        self.tell("\n".join(f"  {line}" for line in (notation.on_one_line(shown), f"{room}^")) + f"\n{place}{error}")

    def look(self, last: bool = False) -> None:
        """Tells what is watched, where it is not what it was when that was told last."""
        watch, now = self.watch, time.monotonic()
        if watch is None or self.store is None or not last and now - watch.at < watch.seconds:
            return
        seen = self.seen(watch.target)
        if seen != watch.seen:
            self.watch = watch._replace(seen=seen, at=now)
            self.tell(f"watch {seen}")

    def seen(self, target: Optional[int]) -> str:
        """What there is to see of an object, or of `stat`."""
        if target is None:
            return lines.done(self.opened(), Line(forms.FORMS["stat"], [])).plain
        return f"{target}: {notation.shown(self.opened().get(target))}"

    def open(self, folder: str) -> None:
        """Opens the store in this folder, and then leaves the one before: that is open still where redo.Error is raised, unless
        it is in the same folder, and is left first."""
        if self.store is not None and os.path.realpath(folder) == os.path.realpath(self.folder):
            self.leave()
        self._take_over(redo.open(folder), folder)

    def create(self, folder: str, objects: int, cap: int, limit: int, pages: bool = False) -> None:
        """Makes a store in this folder, which is made if it is not there, and opens it. Raises redo.Error."""
        with folder_for(folder):
            made = redo.create(folder, objects, cap, limit, pages=pages)
        self._take_over(made, folder)

    def _take_over(self, store: redo.Store, folder: str) -> None:
        self.leave()
        self.store, self.folder, self.watch = store, folder, None

    def leave(self, forced: bool = True) -> None:
        """Forces what was accepted, an open group as it is, and closes the store; tells of what was not on the disk yet. Raises
        redo.DiskFault."""
        store = self.store
        if store is None:
            return
        self.look(last=True)
        if self.group is not None and forced:
            self._end()
            self.tell("the group that was open is ended here, and kept")
        stat = store.stat()
        waiting = stat.accepted - stat.forced
        if forced and waiting:
            self.tell(f"forced {store.force()}: {waiting} of them were not on the disk before")
        elif waiting:
            self.tell(f"{waiting} commands were not forced, and are lost")
        self.close()

    def reopen(self) -> None:
        """Closes the store, forces nothing, and opens it again. Raises redo.Error, and then none is open."""
        self.close()
        self.store = redo.open(self.folder)

    def close(self) -> None:
        """Closes the store, and forces nothing."""
        store, group = self.store, self.group
        self.store, self.group = None, None
        with suppress(redo.Error), ExitStack() as stack:
            if store is not None:
                stack.callback(store.close)
            if group is not None:
                stack.push(group)

    def greet(self) -> None:
        """Tells what store is open."""
        store = self.opened()
        params, stat = store.params(), store.stat()
        self.tell(f"{self.folder}: {params.objects} objects of at most {params.cap} bytes, {stat.accepted} commands so far; "
                  f"{stat.used} of {params.limit} bytes of the log are used")


@contextmanager
def folder_for(path: str) -> Iterator[None]:
    """A folder for a store that is made: it is made if it is not there, and is gone again where the store was not made."""
    made = not os.path.isdir(path)
    try:
        if made:
            os.mkdir(path)
    except OSError as error:
        raise redo.NoFolder(f"cannot make {path}: {error.strerror}") from None
    try:
        yield
    except BaseException:
        if made:
            with suppress(OSError):
                os.rmdir(path)
        raise
