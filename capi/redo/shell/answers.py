"""What is answered, and how it is written: a table, JSON, CSV, or as `redo run` does."""
from __future__ import annotations

import csv
import io
import json
import unicodedata
from typing import NamedTuple, Optional, Union

from . import notation

Cell = Union[int, float, bytes, str, None]
MODES = ("table", "json", "csv", "plain")


class Answer(NamedTuple):
    """What a line is answered: `plain` as `redo run` says it, and the same as rows of named columns.

    `shape` is "word" for an answer of one row that a person reads as `redo run` says it, "value" for one value, "row" for the
    numbers of one row, "state" for those that a table names in words, "rows" for as many as there are. `failed` tells that
    the line was not done."""

    plain: str
    columns: tuple[str, ...]
    rows: list[tuple[Cell, ...]]
    shape: str = "word"
    failed: bool = False


OK = Answer("ok", ("answer",), [("ok",)])
BAD = Answer("bad", ("answer",), [("bad",)], failed=True)
ABSENT = Answer("none", ("value",), [(None,)])


def number(word: str, n: int) -> Answer:
    """So many, as in `forced 3`."""
    return Answer(f"{word} {n}", (word,), [(n,)])


def value(found: Optional[bytes]) -> Answer:
    """A value; None where there is none, which is answered as an empty one is."""
    return Answer(notation.plain(found or b""), ("value",), [(found or b"",)], "value")


def pairs(found: list[tuple[bytes, bytes]]) -> Answer:
    """The pairs of a map."""
    said = " ".join(f"{key.hex()}:{val.hex()}" for key, val in found) or "-"
    return Answer(said, ("key", "value"), list(found), "rows")


def objects(found: list[tuple[int, bytes]], commands: int) -> Answer:
    """All objects that are not empty, as `redo dump` prints them."""
    said = [f"{x} {val.hex()}" for x, val in found]
    return Answer("\n".join([*said, f"commands {commands}"]), ("object", "value"), list(found), "rows")


def numbers(columns: tuple[str, ...], row: tuple[int, ...]) -> Answer:
    """The numbers of `stat`."""
    return Answer(" ".join(["stat", *map(str, row)]), columns, [row], "row")


def refused(name: str) -> Answer:
    """A line that cannot be done, and the name of the reason."""
    return Answer(f"refused {name}", ("refused",), [(name,)], failed=True)


def full(used: int, need: int, limit: int) -> Answer:
    """The log has no room."""
    return Answer(f"full {used} {need} {limit}", ("full_used", "full_need", "full_limit"), [(used, need, limit)], failed=True)


def exhausted(n: int) -> Answer:
    """The numbers of records are used up."""
    return Answer(f"end {n}", ("end",), [(n,)], failed=True)


def written(answer: Answer, mode: str, width: int = 0) -> str:
    """The answer in a mode; a table is at most so wide, and with 0 as wide as it has to be."""
    if mode == "plain" or mode != "json" and answer.shape == "word" or mode == "table" and answer.shape == "state":
        return answer.plain
    if mode == "json":
        return _json(answer)
    if mode == "csv":
        return _csv(answer)
    if answer.shape == "value":
        return _shown(answer.rows[0][0])
    return _table(answer, width)


def _shown(cell: Cell) -> str:
    return notation.shown(cell) if isinstance(cell, bytes) else str(cell)


def _json(answer: Answer) -> str:
    rows = [json_row(answer.columns, row) for row in answer.rows]
    return json.dumps(rows if answer.shape == "rows" else rows[0], ensure_ascii=False)


def json_row(columns: tuple[str, ...], row: tuple[Cell, ...]) -> dict[str, Cell]:
    """A row as an object of JSON: bytes that are no text are under the name of their column with `_hex` behind it."""
    made: dict[str, Cell] = {}
    for name, cell in zip(columns, row):
        text = notation.text_of(cell) if isinstance(cell, bytes) else cell
        if isinstance(cell, bytes) and text is None:
            made[f"{name}_hex"] = cell.hex()
        else:
            made[name] = text
    return made


def csv_row(row: tuple[Cell, ...]) -> str:
    """A line of CSV, without its newline."""
    line = io.StringIO()
    cells = [notation.cell(cell) if isinstance(cell, bytes) else cell for cell in row]
    csv.writer(line, quoting=csv.QUOTE_NONNUMERIC, lineterminator="").writerow(cells)
    return line.getvalue()


def _csv(answer: Answer) -> str:
    head = [] if answer.shape == "value" else [",".join(answer.columns)]
    return "\n".join([*head, *map(csv_row, answer.rows)])


def _table(answer: Answer, width: int) -> str:
    if not answer.rows:
        return "-"
    rows = [answer.columns, *([_shown(cell) for cell in row] for row in answer.rows)]
    sizes = [max(columns_of(row[i]) for row in rows) for i in range(len(answer.columns))]
    right = [isinstance(cell, int) for cell in answer.rows[0]]
    lines = ["  ".join(_laid(cell, size, end) for cell, size, end in zip(row, sizes, right)) for row in rows]
    lines.insert(1, "  ".join("-" * size for size in sizes))
    return "\n".join(_cut(line.rstrip(), width) for line in lines)


def columns_of(text: str) -> int:
    """How many columns of a terminal a text takes."""
    return len(text) if text.isascii() else sum(_columns(c) for c in text)


def _columns(c: str) -> int:
    return 0 if unicodedata.combining(c) else 2 if unicodedata.east_asian_width(c) in "WF" else 1


def _laid(text: str, size: int, right: bool) -> str:
    room = " " * (size - columns_of(text))
    return room + text if right else text + room


def _cut(line: str, width: int) -> str:
    if not width or columns_of(line) <= width:
        return line
    while columns_of(line) > width - 2:
        line = line[:min(len(line) - 1, width - 2)]
    return line + " \u2026"
