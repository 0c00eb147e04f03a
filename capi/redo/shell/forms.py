"""The forms of all lines: the one table that says what is read, completed and explained.

The lines of a script are those of docs/SCRIPT.md; examples/forms.sh compares them."""
from __future__ import annotations

import difflib
from typing import NamedTuple


class Form(NamedTuple):
    """A line: its word and fields, what it does, and one that may be typed."""

    form: str
    what: str
    example: str

    @property
    def word(self) -> str:
        """The first field."""
        return self.form.split(" ", 1)[0]

    @property
    def fields(self) -> list[str]:
        """What the other fields are, those that may be left out too."""
        return self.form.replace("[", "").replace("]", "").split()[1:]

    @property
    def least(self) -> int:
        """How many of them there have to be."""
        return len(self.form.split("[", 1)[0].split()) - 1


FIELDS = {
    "A P X Y": "the number of an object, from 0 on",
    "LO HI": "the first and the last object of a map",
    "K W N": "a number, from 0 to 4294967295",
    "HEX": 'bytes: "text", 0xhex, hexadecimal digits in pairs, @FILE, or - for none',
    "KEY VAL FROM TO": "1 to 32 bytes, of a map more, written as HEX is",
    "LIMIT": "how many pairs at most, of a store how many bytes its log has",
}

# lines of a map, which take keys of other lengths
MAPS = frozenset(("mset", "mget", "mdel", "mrange", "mback", "mcount", "mnext", "mprev"))

LINES = [
    Form("put X HEX", "object X holds these bytes", 'put 1 "hello"'),
    Form("get X", "the value of X", "get 1"),
    Form("copy X Y", "Y gets the value of X", "copy 1 2"),
    Form("append X Y", "the value of X is added at the end of that of Y", "append 1 2"),
    Form("cut X Y K", "X keeps its first K bytes, and Y gets the others", "cut 2 3 5"),
    Form("sort X Y W", "Y gets the value of X with its records, each of W bytes, in byte order", "sort 2 3 1"),
    Form("swap X Y", "the values of X and Y are exchanged", "swap 1 2"),
    Form("begin", "forces, and begins a group: of the commands from here to its `end` a crash leaves all or none", "begin"),
    Form("end", "ends the group; the next `force` makes it durable", "end"),
    Form("abort", "gives the group up: none of its commands stays", "abort"),
    Form("force", "everything so far is on the disk: answers how many commands are", "force"),
    Form("tinsert LO HI KEY VAL", "KEY gets VAL in the tree of the objects LO to HI", 'tinsert 4 35 "ann" "100"'),
    Form("tget LO HI KEY", "the value of KEY in the tree, - where KEY is not there", 'tget 4 35 "ann"'),
    Form("tdelete LO HI KEY", "KEY leaves the tree, with its value", 'tdelete 4 35 "ann"'),
    Form("trange LO HI FROM TO", "the pairs of the tree from FROM up to TO, which is left out", 'trange 4 35 "a" "c"'),
    Form("hset LO HI KEY VAL", "KEY gets VAL in the hash file of the objects LO to HI", 'hset 36 63 "ann" "100"'),
    Form("hget LO HI KEY", "the value of KEY in the hash file, - where KEY is not there", 'hget 36 63 "ann"'),
    Form("hdel LO HI KEY", "KEY leaves the hash file, with its value", 'hdel 36 63 "ann"'),
    Form("mset LO HI KEY VAL", "KEY gets VAL in the map of the objects LO to HI", 'mset 64 99 "ann" "100"'),
    Form("mget LO HI KEY", "the value of KEY in the map, none where KEY is not there", 'mget 64 99 "ann"'),
    Form("mdel LO HI KEY", "KEY leaves the map, with its value", 'mdel 64 99 "ann"'),
    Form("mrange LO HI FROM TO LIMIT", "the first LIMIT pairs of the map from FROM up to TO, which is left out", 'mrange 64 99 "a" "c" 10'),
    Form("mback LO HI FROM TO LIMIT", "the last LIMIT of these pairs, the last one first", 'mback 64 99 "a" "c" 10'),
    Form("mcount LO HI FROM TO", "how many these pairs are", 'mcount 64 99 "a" "c"'),
    Form("mnext LO HI KEY", "the first pair of the map above KEY", 'mnext 64 99 "ann"'),
    Form("mprev LO HI KEY", "the last pair of the map below KEY", 'mprev 64 99 "ann"'),
    Form("exec A", "the application in A takes one step", "exec 1"),
    Form("arun A N", "the application in A takes N steps, or as many as its input has bytes", "arun 1 100"),
    Form("aread A X", "the value of X is added to the input of the application in A", "aread 1 2"),
    Form("awrite A X", "X gets the output of the application in A", "awrite 1 3"),
    Form("pexec A P", "the program in P takes one step on the state in A", "pexec 1 2"),
    Form("prun A P N", "the program in P takes N steps on the state in A, or as many as it can", "prun 1 2 100"),
    Form("pread A X", "the value of X is added to the input of the state in A", "pread 1 3"),
    Form("pwrite A X", "X gets the output of the state in A", "pwrite 1 3"),
    Form("install", "installs one node of the write graph: at most one object is flushed to its slot", "install"),
    Form("drain", "installs until nothing is left", "drain"),
    Form("checkpoint", "adds a check to the log, at which the next restart begins", "checkpoint"),
    Form("trim", "rewrites the log without what no restart needs", "trim"),
    Form("stat", "seven numbers of the store; `.stat` explains them", "stat"),
    Form("bstart", "begins a backup in the folder of the store: by `redo run` alone, here it is `.backup DIR`", "bstart"),
    Form("bcopy K", "copies K objects more into the backup: by `redo run` alone", "bcopy 100"),
    Form("bfinish", "makes the backup a store: by `redo run` alone", "bfinish"),
]

WORDS = [
    Form(".help [WORD]", "this list, or what there is to say of a line", ".help put"),
    Form(".open DIR", "leaves the store that is open, as `.quit` does, and opens the one in this folder", ".open accounts"),
    Form(".create DIR N CAP LIMIT [pages]",
         "makes a store of N objects of at most CAP bytes, and a log of LIMIT bytes, with `pages` one that has maps; opens it",
         ".create accounts 64 1024 1000000"),
    Form(".dump", "all objects that are not empty", ".dump"),
    Form(".tree LO HI", "all pairs of the tree in the objects LO to HI", ".tree 4 35"),
    Form(".hash LO HI", "all pairs of the hash file in the objects LO to HI", ".hash 36 63"),
    Form(".map LO HI", "all pairs of the map in the objects LO to HI", ".map 64 99"),
    Form(".stat", "what the store says of itself, and how full its log is", ".stat"),
    Form(".mode table|json|csv|plain", "how answers are written; plain is as `redo run` does", ".mode json"),
    Form(".import FILE [LO HI]", "puts what is in the file, or in the tree LO to HI: .csv, .jsonl, or .redo, a script",
         ".import people.csv 4 35"),
    Form(".export FILE [LO HI]", "writes all objects, or the tree LO to HI, into a new file: .csv, .jsonl, or .redo",
         ".export all.redo"),
    Form(".backup DIR", "saves the store, as it is now, in this folder", ".backup monday"),
    Form(".drain", "drains, and tells how much that was", ".drain"),
    Form(".trim", "trims, and tells how long the log was and is", ".trim"),
    Form(".abort", "gives up the group that is open: none of it is kept", ".abort"),
    Form(".watch OBJECT|stat|off [SECONDS]", "after each line that changes it, tells what it is, at most once in so many seconds",
         ".watch 1"),
    Form(".timer on|off", "tells how long each line took", ".timer on"),
    Form(".quit [noforce]", "forces and leaves, as Ctrl-D does; with `noforce` what was not forced may be lost", ".quit"),
]

FORMS = {form.word: form for form in LINES + WORDS}


def like(word: str) -> str:
    """The word that was perhaps meant, or nothing."""
    close = difflib.get_close_matches(word.lower(), FORMS, 1, 0.6) or [w for w in FORMS if w == f".{word.lower()}"]
    return close[0] if close else ""
