"""Files that are exported and imported: CSV, JSON lines, and a script of lines that makes the same objects again."""
from __future__ import annotations

import csv
import io
import json
import os
from collections.abc import Callable, Iterator, Sequence
from contextlib import suppress
from typing import NamedTuple, TextIO

import redo

from . import answers, explain, forms, notation
from .answers import Answer, Cell
from .reading import BadLine, Line, opened, read
from .session import Session

_PIECE = 19_900         # bytes of a value in one line of `redo run`
_OWN = 200              # bytes of the log that are not those of the lines: header, checks, blocks
_TREE = 120             # bytes of the log that a pair takes at most
_AGAIN = frozenset(form.word for form in forms.LINES) - {"arun", "prun"}        # may be given once more after a part was done
_FILE = len(".import ")


class BadRow(Exception):
    """A row of a file that cannot be read."""


class Kind(NamedTuple):
    """A kind of file: how its rows are read and written."""

    read: Callable[[str, Sequence[int]], Iterator[tuple[int, Line]]]
    write: Callable[[Session, redo.Store, Sequence[int]], Iterator[str]]


def objects(s: Session, store: redo.Store) -> Iterator[tuple[int, bytes]]:
    """The objects that are not empty, by rising number. Raises Stopped between two."""
    for x in range(store.params().objects):
        s.stopped()
        if value := store.get(x):
            yield x, value


def _rows(s: Session, store: redo.Store, of: Sequence[int]) -> Iterator[tuple[Cell, ...]]:
    if of:
        yield from store.tree(of[0], of[1]).range()
    else:
        yield from objects(s, store)


def _columns(of: Sequence[int]) -> tuple[str, ...]:
    return ("key", "value") if of else ("object", "value")


def exported(s: Session, path: str, of: Sequence[int]) -> Answer:
    """Writes all objects, or the pairs of a tree, into a file that is not there yet. Raises BadLine where that fails."""
    kind, store = _kind(path), s.opened()
    count = sum(1 for _ in _rows(s, store, of))
    try:
        with open(path, "x", encoding="utf-8", newline="") as file:
            try:
                for line in kind.write(s, store, of):
                    file.write(line + "\n")
                file.flush()
            except BaseException:
                with suppress(OSError):
                    os.unlink(path)
                raise
    except FileExistsError:
        raise BadLine(_FILE, f"{path} is there already, and is not written over") from None
    except OSError as error:
        raise BadLine(_FILE, f"cannot write {path}: {error.strerror}") from None
    return answers.number("exported", count)


def imported(s: Session, path: str, into: Sequence[int]) -> Answer:
    """Does what the rows of a file say, all of which can be read, up to the first that is refused. A log that is full is drained
    and trimmed, but within a group. Raises BadLine where a row cannot be read, and then nothing is done."""
    kind = _kind(path)
    s.opened()
    count = 0
    place = path
    try:
        for _ in kind.read(path, into):
            s.stopped()
        for number, line in kind.read(path, into):
            place = f"{path}, line {number}"
            s.stopped()
            _done(s, line)
            count += 1
            s.look()
    except OSError as error:
        raise BadLine(_FILE, f"cannot read {path}: {error.strerror}") from None
    except BaseException as error:
        if not isinstance(error, BadLine):
            s.tell(f"{place}: stopped here; {count} before it are done")
        raise
    return answers.number("imported", count)


def _done(s: Session, line: Line) -> None:
    try:
        s.done(line)
    except redo.LogFull:
        if s.group is not None or line.word not in _AGAIN:
            raise
        s.opened().drain()
        s.opened().trim()
        try:
            s.done(line)
        except redo.NoKey:
            if line.word != "mdel":         # whose key went first
                raise


def _kind(path: str) -> Kind:
    kind = KINDS.get(os.path.splitext(path)[1].lower())
    if kind is None:
        raise BadLine(_FILE, "expected FILE, a name that ends in .csv, .jsonl or .redo")
    return kind


def _text(path: str, newline: str = "\n") -> TextIO:
    """A file of text, perhaps with the mark of a spreadsheet at its begin; bytes that are no text are kept. Raises OSError."""
    return io.TextIOWrapper(opened(path), encoding="utf-8-sig", errors="surrogateescape", newline=newline)


# CSV

def _write_csv(s: Session, store: redo.Store, of: Sequence[int]) -> Iterator[str]:
    yield ",".join(_columns(of))
    yield from map(answers.csv_row, _rows(s, store, of))


def _read_csv(path: str, into: Sequence[int]) -> Iterator[tuple[int, Line]]:
    csv.field_size_limit(1 << 23)
    with _text(path, newline="") as file:
        rows = csv.reader(file, strict=True)
        while True:
            try:
                row = next(rows)
                if row and tuple(row) != _columns(into):
                    yield rows.line_num, _line_of_cells(row, into)
            except StopIteration:
                return
            except (csv.Error, BadRow, notation.BadNotation) as error:
                raise BadLine(_FILE, f"{path}, line {rows.line_num}: {error}") from None


def _line_of_cells(row: Sequence[str], into: Sequence[int]) -> Line:
    if len(row) != 2:
        raise BadRow(f"expected two fields, {' and '.join(_columns(into))}, and here are {len(row)}")
    if into:
        return _pair(into, notation.of_cell(row[0]), notation.of_cell(row[1]))
    if not row[0].isdecimal() or not row[0].isascii():
        raise BadRow("expected the number of an object in the first field")
    return _put(int(row[0]), notation.of_cell(row[1]))


def _put(x: int, value: bytes) -> Line:
    if not 0 <= x < 1 << 32:
        raise BadRow("no object has this number")
    return Line(forms.FORMS["put"], [x, value])


def _pair(into: Sequence[int], key: bytes, value: bytes) -> Line:
    if not (1 <= len(key) <= 32 and 1 <= len(value) <= 32):
        raise BadRow(f"a key and its value have 1 to 32 bytes, and here are {len(key)} and {len(value)}")
    return Line(forms.FORMS["tinsert"], [into[0], into[1], key, value])


# JSON lines

def _write_json(s: Session, store: redo.Store, of: Sequence[int]) -> Iterator[str]:
    for row in _rows(s, store, of):
        yield json.dumps(answers.json_row(_columns(of), row), ensure_ascii=False)


def _read_json(path: str, into: Sequence[int]) -> Iterator[tuple[int, Line]]:
    with _text(path) as file:
        for number, text in enumerate(file, 1):
            try:
                if text.strip():
                    yield number, _line_of_json(json.loads(text), into)
            except (ValueError, RecursionError, BadRow, notation.BadNotation) as error:
                raise BadLine(_FILE, f"{path}, line {number}: {error}") from None


def _line_of_json(row: object, into: Sequence[int]) -> Line:
    if not isinstance(row, dict):
        example = '{"key": "ann", "value": "100"}' if into else '{"object": 1, "value": "hello"}'
        raise BadRow(f"expected an object, such as {example}")
    if len(row) != 2:
        raise BadRow(f"expected two names, {' and '.join(_columns(into))}")
    value = _of_json(row, "value")
    if into:
        return _pair(into, _of_json(row, "key"), value)
    x = row.get("object")
    if type(x) is not int:
        raise BadRow('expected "object", and a whole number')
    return _put(x, value)


def _of_json(row: dict[object, object], name: str) -> bytes:
    text, digits = row.get(name), row.get(f"{name}_hex")
    if isinstance(text, str):
        return notation.encoded(text)
    if isinstance(digits, str):
        return notation.of_notation(f"0x{digits}") if digits else b""
    raise BadRow(f'expected "{name}" and a text, or "{name}_hex" and hexadecimal digits')


# scripts

def _read_script(path: str, into: Sequence[int]) -> Iterator[tuple[int, Line]]:
    if into:
        raise BadLine(_FILE, "expected a file of .csv or .jsonl: the lines of a script say themselves where they put something")
    with _text(path) as file:
        for number, text in enumerate(file, 1):
            try:
                line = read(text.rstrip("\n"))
            except BadLine as error:
                raise BadLine(_FILE, f"{path}, line {number}, column {error.column + 1}: {error}") from None
            if line is None:
                continue
            if line.word.startswith("."):
                raise BadLine(_FILE, f"{path}, line {number}: a line with a dot is none of a script")
            if line.word in explain.BACKUPS:
                raise BadLine(_FILE, f"{path}, line {number}: {explain.no_call(line)}")
            yield number, line


def _write_script(s: Session, store: redo.Store, of: Sequence[int]) -> Iterator[str]:
    """Lines for `redo run` and for this shell. Where the log would be full it is drained and trimmed."""
    params = store.params()
    yield f"# for a store made by: redo init {params.objects} {params.cap} {params.limit}"
    used = _OWN
    for line, size in _pair_lines(store, of) if of else _object_lines(s, store):
        used += size
        if used > params.limit:
            yield "drain"
            yield "trim"
            used = _OWN + size
        yield line


def _pair_lines(store: redo.Store, of: Sequence[int]) -> Iterator[tuple[str, int]]:
    for key, value in store.tree(of[0], of[1]).range():
        yield f"tinsert {of[0]} {of[1]} {key.hex()} {value.hex()}", _TREE


def _object_lines(s: Session, store: redo.Store) -> Iterator[tuple[str, int]]:
    """The lines that make all objects, with the bytes of the log that each takes."""
    filled: list[int] = []
    long: list[int] = []
    for x, value in objects(s, store):
        (long if len(value) > _PIECE else filled).append(x)
    order = long + filled
    empty = next((x for x in range(store.params().objects) if not store.get(x)), None)
    for x in order:
        s.stopped()
        yield from _lines_of(x, store.get(x), order[-1] if empty is None else empty)
    if empty is not None and long:
        yield f"put {empty} -", 18


def _lines_of(x: int, value: bytes, spare: int) -> Iterator[tuple[str, int]]:
    """The lines that make one object. A value that is too long for a line of `redo run` is put together, in pieces that the
    spare object has in turn, which is empty or made later; where that is none, its line is long, and for the shell alone."""
    first = value if x == spare else value[:_PIECE]
    yield f"put {x} {notation.plain(first)}", 18 + len(first)
    for start in range(len(first), len(value), _PIECE):
        piece = value[start:start + _PIECE]
        yield f"put {spare} {piece.hex()}", 18 + len(piece)
        yield f"append {spare} {x}", 18


KINDS: dict[str, Kind] = {
    ".csv": Kind(_read_csv, _write_csv),
    ".jsonl": Kind(_read_json, _write_json),
    ".redo": Kind(_read_script, _write_script),
}
