"""The lines of a script, as calls of the library."""
from __future__ import annotations

from collections.abc import Callable
from typing import Any

import redo

from . import answers
from .answers import Answer
from .reading import Line


def _insert(s: redo.Store, low: int, high: int, key: bytes, value: bytes) -> None:
    s.tree(low, high).set(key, value)


def _delete(s: redo.Store, low: int, high: int, key: bytes) -> None:
    s.tree(low, high).delete(key)


def _get(s: redo.Store, low: int, high: int, key: bytes) -> Answer:
    return answers.value(s.tree(low, high).get(key))


def _range(s: redo.Store, low: int, high: int, first: bytes, last: bytes) -> Answer:
    return answers.pairs(list(s.tree(low, high).range(first, last)))


def _hash_set(s: redo.Store, low: int, high: int, key: bytes, value: bytes) -> None:
    s.hash(low, high).set(key, value)


def _hash_delete(s: redo.Store, low: int, high: int, key: bytes) -> None:
    s.hash(low, high).delete(key)


def _hash_get(s: redo.Store, low: int, high: int, key: bytes) -> Answer:
    return answers.value(s.hash(low, high).get(key))


def _map_set(s: redo.Store, low: int, high: int, key: bytes, value: bytes) -> None:
    s.map(low, high).set(key, value)


def _map_delete(s: redo.Store, low: int, high: int, key: bytes) -> None:
    s.map(low, high).delete(key)


def _map_get(s: redo.Store, low: int, high: int, key: bytes) -> Answer:
    found = s.map(low, high).get(key)
    return answers.ABSENT if found is None else answers.value(found)


def _map_range(s: redo.Store, low: int, high: int, first: bytes, last: bytes, most: int) -> Answer:
    return answers.pairs(list(s.map(low, high).range(first, last or None, most)))


def _map_back(s: redo.Store, low: int, high: int, first: bytes, last: bytes, most: int) -> Answer:
    return answers.pairs(list(s.map(low, high).back(first, last or None, most)))


def _map_count(s: redo.Store, low: int, high: int, first: bytes, last: bytes) -> Answer:
    return answers.number("counted", s.map(low, high).count(first, last or None))


def _map_next(s: redo.Store, low: int, high: int, key: bytes) -> Answer:
    found = s.map(low, high).next(key)
    return answers.pairs([found] if found else [])


def _map_prev(s: redo.Store, low: int, high: int, key: bytes) -> Answer:
    of = s.map(low, high)
    found = of.prev(key) if key else of.last()
    return answers.pairs([found] if found else [])


def _stat(s: redo.Store) -> Answer:
    stat = s.stat()
    return answers.numbers(stat._fields, stat)


_Store = redo.Store

CALLS: dict[str, Callable[..., Any]] = {
    "put": _Store.put,
    "get": lambda s, x: answers.value(s.get(x)),
    "copy": _Store.copy,
    "append": _Store.append,
    "cut": _Store.cut,
    "sort": _Store.sort,
    "swap": _Store.swap,
    "force": lambda s: answers.number("forced", s.force()),
    "tinsert": _insert,
    "tget": _get,
    "tdelete": _delete,
    "trange": _range,
    "hset": _hash_set,
    "hget": _hash_get,
    "hdel": _hash_delete,
    "mset": _map_set,
    "mget": _map_get,
    "mdel": _map_delete,
    "mrange": _map_range,
    "mback": _map_back,
    "mcount": _map_count,
    "mnext": _map_next,
    "mprev": _map_prev,
    "exec": _Store.app_exec,
    "arun": lambda s, app, most: answers.number("ran", s.app_run(app, most)),
    "aread": _Store.app_read,
    "awrite": _Store.app_write,
    "pexec": _Store.program_exec,
    "prun": lambda s, app, program, most: answers.number("ran", s.program_run(app, program, most)),
    "pread": _Store.program_read,
    "pwrite": _Store.program_write,
    "install": _Store.install,
    "drain": _Store.drain,
    "checkpoint": _Store.checkpoint,
    "trim": _Store.trim,
    "stat": _stat,
}


def done(store: redo.Store, line: Line) -> Answer:
    """Does a line that is one call, and answers as `redo run` does. Raises redo.Error where it is refused."""
    answer = CALLS[line.word](store, *line.words)
    return answer if isinstance(answer, Answer) else answers.OK


def failed(error: redo.Error) -> Answer:
    """The answer to a line that the library has refused."""
    if isinstance(error, redo.LogFull):
        return answers.full(*error.detail)
    if isinstance(error, redo.Exhausted):
        return answers.exhausted(error.detail[0])
    return answers.refused(type(error).__name__)
