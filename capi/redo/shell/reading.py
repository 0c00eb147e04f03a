"""The fields of a line, and what each has to be."""
from __future__ import annotations

import errno
import os
import re
from typing import BinaryIO, NamedTuple, Optional, Union

from . import forms, notation

Word = Union[int, bytes, str]

_NUMBER = re.compile(r"0|[1-9][0-9]{0,9}", re.ASCII)
_NUMBERS = frozenset("A P X Y K W N LO HI CAP LIMIT OBJECT".split())
_SHORT = frozenset("KEY VAL FROM TO".split())
_PATHS = frozenset("DIR FILE".split())
_MOST = 1 << 20


class BadLine(Exception):
    """A line that has none of the forms: `column`, counted from 0, and what was expected there."""

    def __init__(self, column: int, why: str) -> None:
        super().__init__(why)
        self.column = column


class Field(NamedTuple):
    """A field as it stands in the line, and its column, counted from 0."""

    text: str
    column: int

    @property
    def end(self) -> int:
        """The column behind it."""
        return self.column + len(self.text)


class Line(NamedTuple):
    """A line that was read: its form, and what its other fields are."""

    form: forms.Form
    words: list[Word]

    @property
    def word(self) -> str:
        """The first field."""
        return self.form.word


def read(line: str) -> Optional[Line]:
    """The line that this is; None where it is empty, or a comment. Raises BadLine."""
    fields = fields_of(line[:-1] if line.endswith("\r") else line)
    if not fields or fields[0].text.startswith("#"):
        return None
    form = forms.FORMS.get(fields[0].text)
    if form is None:
        raise _no_such(fields[0])
    return Line(form, _words(form, fields[1:], fields[-1].end))


def fields_of(line: str) -> list[Field]:
    """The fields, which spaces part; a text in quotes is one. Raises BadLine."""
    fields: list[Field] = []
    place = 0
    while place < len(line):
        if line[place] == " ":
            place += 1
            continue
        comment = not fields and line[place] == "#"
        end = len(line) if comment else _end_of_field(line, place)
        fields.append(Field(line[place:end], place))
        place = end
    return fields


def _end_of_field(line: str, start: int) -> int:
    quote = start + (line[start] == "@")
    if line[quote:quote + 1] != '"':
        end = line.find(" ", start)
        return len(line) if end < 0 else end
    place = quote + 1
    while place < len(line) and line[place] != '"':
        place += 2 if line[place] == "\\" else 1
    if place >= len(line):
        raise BadLine(quote, 'expected a second " : the text that begins here has no end')
    if line[place + 1:place + 2] not in ("", " "):
        raise BadLine(place + 1, "expected a space, or the end of the line, after a text")
    return place + 1


def _no_such(field: Field) -> BadLine:
    close = forms.like(field.text)
    return BadLine(field.column, "no such line" + (f"; is `{close}` meant?" if close else "") + " (`.help` lists all)")


def _known(field: Field) -> str:
    for word in (field.text, f".{field.text}"):
        if word in forms.FORMS:
            return word
    raise _no_such(field)


def _words(form: forms.Form, fields: list[Field], end: int) -> list[Word]:
    wanted = form.fields
    of_map = form.word in forms.MAPS
    words = [_bytes(name, field) if of_map and name in _SHORT else _word(name, field) for name, field in zip(wanted, fields)]
    if len(fields) > len(wanted):
        raise BadLine(fields[len(wanted)].column, f"expected the end of the line: {form.form}")
    if form.least <= len(fields) < len(wanted) and len(fields) != form.least or len(fields) < form.least:
        raise BadLine(end + 1, f"expected {wanted[len(fields)]}: {form.form}")
    return words


def _word(name: str, field: Field) -> Word:
    if "|" in name:
        return _choice(name, field)
    if name in _NUMBERS:
        return _number(name, field)
    if name in _PATHS:
        return path_of(field)
    if name == "HEX":
        return _bytes(name, field)
    if name in _SHORT:
        return _short(name, field)
    if name == "SECONDS":
        return _seconds(field)
    if name == "WORD":
        return _known(field)
    if name.islower() and field.text != name:
        raise BadLine(field.column, f"expected {name}, or the end of the line")
    return field.text


def _choice(name: str, field: Field) -> Word:
    options = name.split("|")
    if field.text in options and field.text.islower():
        return field.text
    for option in options:
        if option in _NUMBERS and field.text.isdigit():
            return _number(option, field)
    raise BadLine(field.column, f"expected {', '.join(options[:-1])} or {options[-1]}")


def _number(name: str, field: Field) -> int:
    if _NUMBER.fullmatch(field.text) and int(field.text) < 1 << 32:
        return int(field.text)
    why = f"expected {name}, a number from 0 to 4294967295"
    if "\t" in field.text:
        why += ": a tab parts no fields, a space does"
    elif field.text.isdigit() and field.text.startswith("0"):
        why += ", without a zero in front"
    raise BadLine(field.column, why)


def _seconds(field: Field) -> str:
    if not re.fullmatch(r"[0-9]{1,6}(\.[0-9]{1,6})?", field.text, re.ASCII):
        raise BadLine(field.column, "expected SECONDS, a number such as 2 or 0.5")
    return field.text


def _short(name: str, field: Field) -> bytes:
    value = _bytes(name, field)
    if not 1 <= len(value) <= 32:
        raise BadLine(field.column, f"expected {name}, 1 to 32 bytes, and here are {len(value)}")
    return value


def _bytes(name: str, field: Field) -> bytes:
    if field.text.startswith("@"):
        return _of_file(field)
    try:
        return notation.of_notation(field.text)
    except notation.BadNotation as error:
        if field.text[0] == '"' or field.text[:2] in ("0x", "0X"):
            raise BadLine(field.column + error.place, str(error)) from None
        if error.place == len(field.text):
            raise BadLine(field.end, f'{error}; the text is "{field.text}"') from None
        text = notation.quoted(field.text)
        raise BadLine(field.column, f'expected {name}: "text", 0xhex, digits in pairs, @FILE or -. Is {text} meant?') from None


def _of_file(field: Field) -> bytes:
    path = path_of(Field(field.text[1:], field.column + 1))
    try:
        with opened(path) as file:
            value = file.read(_MOST + 1)
    except OSError as error:
        raise BadLine(field.column, f"cannot read {path}: {error.strerror}") from None
    if len(value) > _MOST:
        raise BadLine(field.column, f"{path} has more than {_MOST} bytes, which no object takes")
    return value


def opened(path: str) -> BinaryIO:
    """A file to be read, and nothing that a reader would wait for. Raises OSError."""
    if not os.path.isfile(path):
        os.stat(path)
        raise OSError(errno.EINVAL, "it is no file")
    return open(path, "rb")


def path_of(field: Field) -> str:
    """The name of a file or a folder, perhaps in quotes. Raises BadLine."""
    text = field.text
    if text.startswith('"'):
        try:
            text = os.fsdecode(notation.of_quoted(text))
        except notation.BadNotation as error:
            raise BadLine(field.column + error.place, str(error)) from None
    if not text or "\0" in text:
        raise BadLine(field.column, "expected the name of a file or a folder")
    return os.path.expanduser(text)
