"""How bytes are written: "text", 0xhex, hexadecimal digits alone, or - for no bytes."""
from __future__ import annotations

from typing import Optional

_ESCAPES = {"n": "\n", "t": "\t", "r": "\r", "0": "\0", "\\": "\\", '"': '"'}
_SHOWN = {"\n": "\\n", "\t": "\\t", "\r": "\\r", "\\": "\\\\", '"': '\\"'}
_ENDS = dict.fromkeys(map(ord, "\n\t\r"))
_DIGITS = frozenset("0123456789abcdefABCDEF")
_LENGTHS = {"x": 2, "u": 4, "U": 8}


class BadNotation(Exception):
    """Bytes that cannot be read: `place` is where in their notation, and the text says what was expected there."""

    def __init__(self, place: int, why: str) -> None:
        super().__init__(why)
        self.place = place


def text_of(value: bytes) -> Optional[str]:
    """The text that these bytes are in UTF-8; None where they are none that can be printed."""
    try:
        text = value.decode()
    except UnicodeDecodeError:
        return None
    return text if text.translate(_ENDS).isprintable() else None


def shown(value: bytes) -> str:
    """The bytes as a person reads and types them."""
    text = text_of(value)
    if not value:
        return "-"
    return f"0x{value.hex()}" if text is None else quoted(text)


def quoted(text: str) -> str:
    """A text in quotes, on one line."""
    return f'"{"".join(_SHOWN.get(c, c) for c in text)}"'


def plain(value: bytes) -> str:
    """The bytes as the lines of a script have them."""
    return value.hex() or "-"


def cell(value: bytes) -> str:
    """The bytes in a file of CSV: their text, or 0xhex where they are none, or one that would be read as that."""
    text = text_of(value)
    return f"0x{value.hex()}" if text is None or text.startswith("0x") else text


def of_cell(text: str) -> bytes:
    """The bytes of a field of CSV. Raises BadNotation."""
    return _of_hex(text[2:], 2) if text.startswith("0x") else encoded(text)


def encoded(text: str) -> bytes:
    """The bytes of a text; those that were no UTF-8 as they were read are as they were. Raises BadNotation."""
    try:
        return text.encode("utf-8", "surrogateescape")
    except UnicodeEncodeError as error:
        raise BadNotation(error.start, "this is half of a character, which no text has") from None


def of_notation(text: str) -> bytes:
    """The bytes that were typed. Raises BadNotation."""
    if text == "-":
        return b""
    if text.startswith('"'):
        return of_quoted(text)
    if text[:2] in ("0x", "0X"):
        return _of_hex(text[2:], 2)
    return _of_hex(text, 0)


def of_quoted(text: str) -> bytes:
    """The bytes of a text in quotes. Raises BadNotation."""
    value, place, last = bytearray(), 1, len(text) - 1
    while place < last:
        if text[place] == "\\":
            piece, place = _of_escape(text, place)
            value += piece
        else:
            end = text.find("\\", place, last)
            end = last if end < 0 else end
            value += encoded(text[place:end])
            place = end
    return bytes(value)


def _of_escape(text: str, place: int) -> tuple[bytes, int]:
    """The bytes of the escape at this place, and the place behind it."""
    letter = text[place + 1]
    if letter in _ESCAPES:
        return _ESCAPES[letter].encode(), place + 2
    length = _LENGTHS.get(letter)
    if length is None:
        raise BadNotation(place, r'expected \n \t \r \0 \\ \" \xHH or \uHHHH')
    end = place + 2 + length
    digits = text[place + 2:end]
    if len(digits) < length or not _DIGITS.issuperset(digits):
        raise BadNotation(place, f"expected {length} hexadecimal digits after \\{letter}")
    number = int(digits, 16)
    if letter == "x":
        return bytes([number]), end
    if number > 0x10FFFF or 0xD800 <= number < 0xE000:
        raise BadNotation(place, "no character has this number")
    return chr(number).encode(), end


def _of_hex(digits: str, before: int) -> bytes:
    if not _DIGITS.issuperset(digits):
        wrong = next(i for i, c in enumerate(digits) if c not in _DIGITS)
        raise BadNotation(before + wrong, f"{quoted(digits[wrong])} is no hexadecimal digit")
    if not digits:
        raise BadNotation(before, "expected hexadecimal digits, two for each byte; no bytes are -")
    if len(digits) % 2:
        raise BadNotation(before + len(digits), "expected one digit more: there are two for each byte")
    return bytes.fromhex(digits)


def on_one_line(text: str) -> str:
    """A text as it is, but for what would leave the line."""
    return "".join(c if c.isprintable() or c == "\t" else "?" for c in text)
