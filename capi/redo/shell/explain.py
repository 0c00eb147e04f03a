"""Why a line was refused, in words of a person."""
from __future__ import annotations

import redo

from .reading import Line

_WHY = {
    "NoObject": "the store has the objects 0 to {last}",
    "Same": "the two objects have to differ",
    "BadPlace": "K is more than the length of the value of X",
    "BadWidth": "W has to divide the length of the value of X",
    "TooLarge": "an object of this store has at most {cap} bytes; a tree or a hash file needs a store whose CAP is 1024 or more",
    "InGroup": "a group is open: `end` ends it, `abort` gives it up",
    "NoGroup": "no group is open: `begin` begins one",
    "NoKey": "the key is not there",
    "NotApp": "the value is no state of such an application; the empty value (put A -) is a new one",
    "NoInput": "the application has read its input to the end: aread, or pread, adds to it",
    "NotCode": "the value of P is no program (docs/SCRIPT.md, \"Applications\")",
    "Halted": "the program has halted, or has no instruction at its place",
    "BadTree": "object {first} is no node of the tree: something else has written to it, or LO and HI are not those of the tree",
    "TreeFull": "the insert needs {first} empty objects from LO to HI, and there are {second}",
    "BadHash": "object {first} is not of the hash file: something else has written to it, or LO and HI are not those of the file",
    "HashFull": "the bucket of KEY, object {first}, cannot be split once more",
    "NoRoom": "no object from LO + 1 to HI is empty",
    "NoPages": "a map needs a store that was made with `pages`, and a CAP of 1024 or more",
    "TooLong": "a key has 1 to {key} bytes in this store, and its value at most {value}",
    "BadMap": "object {first} is no page of the map: something else has written to it, or LO and HI are not those of the map",
    "MapFull": "a page has to be cut in two, and fewer than two objects from LO + 1 to HI are empty",
    "LogFull": "the log has {first} bytes, and this needs {second} more, but LIMIT is {third}: `drain` and `trim` make room",
    "NotOpen": "no store is open: .open DIR opens one, .create DIR N CAP LIMIT makes one",
    "AlreadyStore": "a store is in this folder already: .open DIR opens it",
    "NotAStore": "no store is in this folder: .open DIR opens one elsewhere, .create DIR N CAP LIMIT makes one",
    "Locked": "another program has the store: one at a time may change it",
    "BadParams": "N is 1 to 65535, CAP 16 to 1048576, LIMIT 2 x CAP + 4096 to 536870912",
}


def refusal(error: redo.Error, params: redo.Params, form: str = "") -> str:
    """What a refusal of a line of this form means in a store of these numbers."""
    why = _WHY.get(type(error).__name__)
    if why is None:
        return str(error)
    if isinstance(error, redo.NoObject) and "LO HI" in form:
        why += ", and LO is not above HI (of a hash file: below it)"
    first, second, third = error.detail
    page = min(params.cap, 65535)
    return why.format(last=params.objects - 1, cap=params.cap, key=min(1023, page // 8 - 8), value=page // 4,
                      first=first, second=second, third=third)


BACKUPS = frozenset(("bstart", "bcopy", "bfinish"))


def no_call(line: Line) -> str:
    """Why a line of a script is none here."""
    return f"`{line.word}` is answered by `redo run` alone: .backup DIR saves the store here"
