"""A recoverable store of objects within this process.

    import redo

    with redo.create("accounts", objects=64, cap=1024, limit=1 << 20) as s:
        s.put(0, b"hello")
        with s.group():             # of these a crash leaves both or neither
            s.copy(0, 1)
            s.append(0, 1)
        with s.transaction():       # these are done as a whole, or not at all: an exception undoes them
            s.put(2, s.get(1)[:3])
            s.swap(0, 2)
        s.force()                   # from here on no crash loses them
        print(s.get(1))             # b'hellohello'
        tree = s.tree(4, 35)        # keys in order, in the objects 4 to 35
        tree[b"ann"] = b"100"
        print(dict(tree.range(b"a", b"b")))
    with redo.create("index", objects=4096, cap=4096, limit=1 << 24, pages=True) as s:
        words = s.map(0, 4095)      # longer keys and values, on wide pages
        words[b"a key of many words"] = b"."
        print(dict(words.prefix(b"a ")), words.first(), words.last())

`force` alone makes commands durable. The end of a `with` closes the store and forces nothing, as a kill would. A force is a sync of
the disk, which threads share: of eight that put and force, most find their command durable when their turn comes.

Limits (docs/LIMITS.md has all): 65,535 objects of at most 1 MiB; keys of maps on wide pages of at most 1,023 bytes, and values of a
quarter of a page; keys of trees and hash files, and their values, of 1 to 32 bytes; for all three a store with `cap` 1,024 or more;
a hash file of 448 pairs at most, and often half of that. A tree whose keys rise and whose oldest are deleted wears its range out:
TreeFull after some 2.25 inserts an object. A store is read into memory whole as it is opened, and commands that are not installed
stay there: `drain`, or `upkeep=True`.

A store may be used by several threads, one call, or one group, after the other. A call in the middle of another one of the same
thread, as in a signal handler, or of a task within the group of another one, is Busy. After a fork the child has no store.
What the `with` of a group or a backup has begun ends with it, whatever interrupts it (from Python 3.10 on; 3.9 may lose the end of
any `with`).
"""
from __future__ import annotations

import builtins
import ctypes
import errno
import os
import struct
import sys
import threading
import time
import weakref
from collections.abc import Callable, ItemsView, Iterator, KeysView, MutableMapping, ValuesView
from contextlib import AbstractContextManager
from functools import partial
from operator import index
from typing import Any, NamedTuple, NoReturn, Union

__all__ = ["Backup", "Error", "Hash", "Map", "MemoryFault", "Params", "Snapshot", "Stat", "Store", "Tree", "create", "open", "version"]

Bytes = Union[bytes, bytearray, memoryview]


def _load() -> ctypes.CDLL:
    here = os.path.dirname(os.path.abspath(__file__))
    capi = os.path.dirname(here)
    named = os.environ.get("LIBREDO")
    if named and not os.path.exists(named):
        raise ImportError(f"LIBREDO names {named}, which is not there")
    for path in (named, os.path.join(here, "libredo.so.1"), os.path.join(capi, "build", "libredo.so.1"),
                 os.path.join(capi, os.pardir, "release", "libredo-x86_64-linux.so")):
        if path and os.path.exists(path):
            return ctypes.CDLL(path)
    return ctypes.CDLL("libredo.so.1")


class _Handle(ctypes.Structure):
    _fields_ = [("state", ctypes.c_int32), ("others", ctypes.c_uint64 * 15)]


class _Detail(ctypes.Structure):
    _fields_ = [(name, ctypes.c_uint64) for name in ("first", "second", "third")]


class _Lengths(ctypes.Structure):
    _fields_ = [("key", ctypes.c_uint64), ("value", ctypes.c_uint64)]


class _Range(ctypes.Structure):
    _fields_ = [("low", ctypes.c_uint32), ("high", ctypes.c_uint32)]


class Params(NamedTuple):
    """How many objects a store has, how many bytes each may hold, and how many the log."""

    objects: int
    cap: int
    limit: int


class _Params(ctypes.Structure):
    _fields_ = [(name, ctypes.c_uint32) for name in Params._fields]


class Stat(NamedTuple):
    """What a store reports of itself: nodes of the write graph, objects to be flushed, records not installed, durable and all
    commands since the store was made, bytes of the log in use, identity writes logged since it was opened."""

    nodes: int
    dirty: int
    uninstalled: int
    forced: int
    accepted: int
    used: int
    identities: int


class _Stat(ctypes.Structure):
    _fields_ = [(name, ctypes.c_uint64) for name in Stat._fields]


_lib = _load()
if _lib.redo_version() < 7 or _lib.redo_handle_size() != ctypes.sizeof(_Handle):
    raise ImportError("the library is none that this module knows")
_u32, _u64, _size, _bytes, _into = ctypes.c_uint32, ctypes.c_uint64, ctypes.c_size_t, ctypes.c_char_p, ctypes.c_void_p
_u64p = ctypes.POINTER(_u64)
_pair: list[type] = [_bytes, _size]
_objects: list[type] = [_u32, _u32]
_room: list[type] = [_into, _size, _u64p]
_key: list[type] = [_Range, *_pair]


def _c(name: str, *types: type) -> Callable[..., int]:
    function = getattr(_lib, "redo_" + name)
    function.argtypes, function.restype = [ctypes.POINTER(_Handle), *types], ctypes.c_int32
    call: Callable[..., int] = function
    return call


_create, _open_with, _close = _c("create", _bytes, _u32, _u32, _u32), _c("open_with", _bytes, _u32, _u32, _into), _c("close")
_create_pages = _c("create_pages", _bytes, _u32, _u32, _u32)
_last_detail = _c("last_detail", ctypes.POINTER(_Detail))
_lib.redo_last_error.restype, _lib.redo_last_error.argtypes = _bytes, [ctypes.POINTER(_Handle), _into, _size]
_put, _get, _copy, _append = _c("put", _u32, *_pair), _c("get", _u32, *_room), _c("copy", *_objects), _c("append", *_objects)
_cut, _sort, _swap = _c("cut", *_objects, _u32), _c("sort", *_objects, _u32), _c("swap", *_objects)
_force, _install, _tend, _drain = _c("force", _u64p), _c("install", _u64p), _c("tend", _u64, _u64p), _c("drain")
_checkpoint, _trim, _begin, _end = _c("checkpoint"), _c("trim"), _c("begin"), _c("end")
_begin_room, _group_abort = _c("begin_room", _u64), _c("group_abort")
_upkeep = _c("upkeep", ctypes.c_int32)
_txn_begin, _txn_commit, _txn_abort = _c("txn_begin"), _c("txn_commit"), _c("txn_abort")
_txn_commit_lazily = _c("txn_commit_lazily")
_snapshot_begin, _snapshot_get, _snapshot_end = _c("snapshot_begin"), _c("snapshot_get", _u32, *_room), _c("snapshot_end")
_backup_start, _backup_copy = _c("backup_start", _bytes), _c("backup_copy", _u32, _u64p)
_backup_finish, _backup_give_up = _c("backup_finish", _u64p), _c("backup_give_up")
_stat, _params = _c("stat", ctypes.POINTER(_Stat)), _c("params", ctypes.POINTER(_Params))
_tree_insert, _tree_delete, _tree_get = _c("tree_insert", *_key, *_pair), _c("tree_delete", *_key), _c("tree_get", *_key, *_room)
_tree_range = _c("tree_range", *_key, *_pair, _u64p)
_tree_pair = _c("tree_pair", _u64, _into, _size, _into, _size, ctypes.POINTER(_Lengths))
_hash_put, _hash_delete, _hash_get = _c("hash_put", *_key, *_pair), _c("hash_delete", *_key), _c("hash_get", *_key, *_room)
_map_set, _map_delete, _map_get = _c("map_set", *_key, *_pair), _c("map_delete", *_key), _c("map_get", *_key, *_room)
_map_count = _c("map_count", *_key, *_pair, _u64p)
_map_range, _map_back = _c("map_range", *_key, *_pair, _u32, _u64p), _c("map_back", *_key, *_pair, _u32, _u64p)
_map_pair = _c("map_pair", _u64, _into, _size, _into, _size, ctypes.POINTER(_Lengths))
_app_exec, _app_read, _app_write = _c("app_exec", _u32), _c("app_read", *_objects), _c("app_write", *_objects)
_app_run, _program_run = _c("app_run", _u32, _u64, _u64p), _c("program_run", *_objects, _u64, _u64p)
_program_exec, _program_read, _program_write = (_c("program_" + name, *_objects) for name in ("exec", "read", "write"))
_lib.redo_strerror.restype, _lib.redo_strerror.argtypes = _bytes, [ctypes.c_int32]
_lib.redo_version.restype, _lib.redo_handle_size.restype, _lib.redo_version_string.restype = _u32, _size, _bytes
__version__: str = _lib.redo_version_string().decode()          # of the library, as that of the program


def version() -> int:
    """The version of the library."""
    number: int = _lib.redo_version()
    return number


# What the numbers beside an error are called. `file` is 0 for the objects, 1 and 2 for the logs, 3 for the folder; `what` could not be
# done with it is 1 open, 2 read, 3 write, 4 sync, or 0 where memory was refused and no file failed.
# fmt: off
class Numbers(NamedTuple): first: int; second: int; third: int
class OfFault(NamedTuple): errno: int; file: int; what: int
class OfFolder(NamedTuple): errno: int; second: int; third: int
class OfDamage(NamedTuple): file: int; place: int; third: int
class OfLog(NamedTuple): used: int; needed: int; limit: int
class OfLast(NamedTuple): last: int; second: int; third: int
class OfGroup(NamedTuple): commands: int; second: int; third: int
class OfCopy(NamedTuple): copied: int; second: int; third: int
class OfObject(NamedTuple): object: int; second: int; third: int
class OfTree(NamedTuple): needed: int; empty: int; third: int
class OfRoom(NamedTuple): empty: int; second: int; third: int
# fmt: on


class Error(Exception):
    """Why a call was not done: `code` is the number of redo.h, `detail` are the numbers that it says beside it, three of them, with
    names where they say something: `error.detail.used` of LogFull."""

    code: int = -1
    detail: tuple[int, int, int] = Numbers(0, 0, 0)

    def __init__(self, text: str = "", detail: tuple[int, int, int] = (0, 0, 0)) -> None:
        super().__init__(text)
        named: Any = type(self.detail)
        self.detail = named(*detail)

    def __str__(self) -> str:
        return Exception.__str__(self)


# fmt: off
class BadParams(Error): code = 2
class NotAStore(Error): code = 3
class Damaged(Error): code = 4; detail: OfDamage = OfDamage(0, 0, 0)
class DiskFault(Error): code = 5; detail: OfFault = OfFault(0, 0, 0)
class AlreadyStore(Error): code = 6
class OutOfMemory(Error, MemoryError): code = 8
class BackupFault(Error): code = 11; detail: OfFault = OfFault(0, 0, 0)
class LogFull(Error): code = 16; detail: OfLog = OfLog(0, 0, 0)
class Exhausted(Error): code = 17; detail: OfLast = OfLast(0, 0, 0)
class InGroup(Error): code = 18; detail: OfGroup = OfGroup(0, 0, 0)
class NoGroup(Error): code = 19
class InBackup(Error): code = 20; detail: OfCopy = OfCopy(0, 0, 0)
class NoBackup(Error): code = 21
class NotCopied(Error): code = 22; detail: OfCopy = OfCopy(0, 0, 0)
class InTransaction(Error): code = 23
class NoTransaction(Error): code = 24
class InSnapshot(Error): code = 25
class NoSnapshot(Error): code = 26
class GivenUp(Error): code = 27
class NoObject(Error, IndexError): code = 32
class Same(Error): code = 33
class BadPlace(Error): code = 34
class BadWidth(Error): code = 35
class NotApp(Error): code = 36
class NoInput(Error): code = 37
class NotNode(Error): code = 38
class NoKey(Error, KeyError): code = 39
class NodeFull(Error): code = 40
class TooLarge(Error): code = 41
class NotCode(Error): code = 42
class Halted(Error): code = 43
class BadTree(Error): code = 44; detail: OfObject = OfObject(0, 0, 0)
class TreeFull(Error): code = 45; detail: OfTree = OfTree(0, 0, 0)
class BadHash(Error): code = 46; detail: OfObject = OfObject(0, 0, 0)
class HashFull(Error): code = 47; detail: OfObject = OfObject(0, 0, 0)
class NoRoom(Error): code = 48; detail: OfRoom = OfRoom(0, 0, 0)
class BadKey(Error, KeyError, ValueError): code = 49
class NoPages(Error): code = 50
class BadMap(Error): code = 51; detail: OfObject = OfObject(0, 0, 0)
class TooLong(Error, ValueError): code = 52
class MapFull(Error): code = 53
class NotOpen(Error): code = 64
class AlreadyOpen(Error): code = 65
class Busy(Error): code = 66
class Copied(Error): code = 67
class Forked(Error): code = 68
class Null(Error): code = 69
class Locked(Error): code = 71
class NoFolder(Error): code = 72; detail: OfFolder = OfFolder(0, 0, 0)
class OldLog(Error): code = 73
class NoLength(Error): code = 74
class ReadOnly(Error): code = 75
class BadWay(Error): code = 76
# fmt: on


_ERRORS = {error.code: error for error in Error.__subclasses__()}
for _code, _class in _ERRORS.items():
    _class.__doc__ = _lib.redo_strerror(_code).decode()
__all__ += [error.__name__ for error in _ERRORS.values()]


class MemoryFault(DiskFault, MemoryError):
    """memory was refused in the middle of a call, after which the store answers nothing else: no file has failed"""


def _error(code: int, detail: tuple[int, int, int] = (0, 0, 0), text: str = "") -> Error:
    text = text or _lib.redo_strerror(code).decode()
    is_memory = code == DiskFault.code and detail[0] == errno.ENOMEM and detail[2] == 0
    return (MemoryFault if is_memory else _ERRORS.get(code, Error))(text, detail)


def _bad_hash(x: int) -> Error:
    return _error(BadHash.code, (x, 0, 0), f"{BadHash.__doc__}: object {x}")


def _path(path: str | os.PathLike[str]) -> bytes:
    name = os.fsencode(path)
    if b"\0" in name:
        raise ValueError("embedded null byte")
    return name


def _count(n: int, bits: int) -> int:
    n = index(n)
    if not 0 <= n < 1 << bits:
        raise ValueError(f"{n} is no count of {bits} bits")
    return n


def _whole(n: int, error: type[Error] = NoObject) -> int:
    n = index(n)
    if not 0 <= n < 1 << 32:
        raise error(f"{n} is no number of 32 bits")
    return n


_LAST = b"\xff" * 32
_MOST = 1 << 20


def _of(value: Bytes) -> bytes:
    """The bytes of a value. Of one that is longer than each value of a store no more is copied than shows that."""
    if type(value) is bytes:
        return value
    view = memoryview(value)
    if view.nbytes > _MOST and view.c_contiguous:
        view = view.cast("B")[:_MOST + 1]
    return bytes(view)


def _task() -> object:
    """The task of asyncio that runs, if one does."""
    asyncio = sys.modules.get("asyncio")
    try:
        return asyncio.current_task() if asyncio else None
    except RuntimeError:
        return None


_RLock: Any = type(threading.RLock())


class _Turn(_RLock):  # type: ignore[misc]
    """The lock of a store. A thread has it for a call, and for a group: this is what stands behind the `with` of that.

    It is let go in C, where no exception of a signal handler comes in between. So the thread has it no more once the `with` is over,
    whatever has ended that, and the next call ends the group in the library."""

    store: Callable[[], Store | None]

    def __init__(self) -> None:
        self.call = _Held(_RLock.__enter__.__get__(self), _RLock.__exit__.__get__(self))

    def __enter__(self) -> Store:
        store = self.store()
        if store is None:
            raise _error(NotOpen.code)
        if self._is_owned():
            store._do(store._refuse_group)
        try:
            self.acquire()
            store._do(store._open_group)
            return store
        except BaseException:
            try:
                self.release()
            except RuntimeError:        # it was not taken yet
                pass
            raise


class _Held:
    """Stands behind a `with` for two functions, which Python finds without a line of Python in between."""

    __slots__ = ("__enter__", "__exit__")

    def __init__(self, enter: Callable[[], object], leave: Callable[..., None]) -> None:
        self.__enter__, self.__exit__ = enter, leave


class _Left:
    """The `__exit__` of what is undone."""

    def __get__(self, undo: _Undoing | None, owner: type[_Undoing]) -> Callable[..., None]:
        if undo is None:
            return _Undoing._leave
        leave = partial(_Undoing._leave, undo)
        undo.leave = weakref.ref(leave)
        return leave


class _Undoing:
    """Stands behind the `with` of a group that is undone, and of a transaction. The `with` alone has what its `__exit__` gives, as
    that of a backup, and the turn is let go with it, in C: so it is over, whatever has ended it, and the next call undoes what was
    not ended."""

    def __init__(self, store: Store, begin: Callable[..., int], words: tuple[object, ...], end: Callable[..., int],
                 abort: Callable[..., int]) -> None:
        self.store, self.begin, self.words, self.end, self.abort = store, begin, words, end, abort
        self.leave: Callable[[], object] = weakref.ref(self)
        self.over: object = None

    def __enter__(self) -> Store:
        store, turn = self.store, self.store._turn
        if turn._is_owned():
            store._do(store._refuse_group)
        try:
            turn.acquire()
            self.over = weakref.ref(self.leave(), turn.call.__exit__)
        except BaseException:
            self.over = None
            try:
                turn.release()
            except RuntimeError:        # it was not taken yet
                pass
            raise
        store._do(store._open_group, self, *self.words)
        return store

    def _leave(self, error: object, *_: object) -> None:
        self.store._do(self.store._end_undoing, self, error)

    __exit__: Any = _Left()


class Store:
    """A store that is open. Values and keys are `bytes`; objects are numbers from 0 on, and NoObject is raised at others.

    A command that is refused has changed nothing. Beside what is said of each, a call may raise NotOpen, Busy (in the middle of
    another call, or within the group of another task), LogFull (where the log has no room for a command: `drain` and `trim` make
    some), OutOfMemory, and DiskFault, after which the store answers nothing else. A store is true while it is open, and is neither
    copied nor pickled."""

    def __init__(self) -> None:
        self._handle = _Handle()
        self._count = _u64()
        self._room = ctypes.create_string_buffer(4096)
        self._begin()
        _stores.add(self)

    def _begin(self) -> None:
        self._turn = _Turn()
        self._turn.store = weakref.ref(self)
        self._busy = False
        self._grouped = False                       # the library may have a group open
        self._task: object = None                   # whose it is
        self._undo: _Undoing | None = None          # what an exception undoes of it
        self._saving: Callable[[], object] | None = None        # of a backup that may be under way: None where its `with` is over
        self._kept: Callable[[], object] | None = None          # the snapshot that may be open: None where it is gone

    def _do(self, work: Callable[..., Any], *words: object) -> Any:
        """Does work at this thread's turn. In the middle of other work of the thread, as in a signal handler, it is Busy."""
        turn = self._turn
        had_turn = turn._is_owned()
        with turn.call:
            if self._busy and had_turn:
                raise _error(Busy.code)
            self._busy = True
            try:
                if self._grouped or self._saving:
                    self._settle(had_turn)
                return work(*words)
            finally:
                self._busy = False

    def _settle(self, in_group: bool) -> None:
        """Another task of the thread has no part in a group. What a `with` has begun that is over is ended."""
        if in_group and self._grouped and self._task is not _task():
            raise Busy("another task has a group open")
        if in_group:
            return
        if self._grouped:
            self._end_work()
        if self._saving and self._saving() is None:
            _backup_give_up(self._handle)
            self._saving = None

    def _failure(self, code: int) -> Error:
        if code == Busy.code:
            return _error(code)
        detail, text = _Detail(), ctypes.create_string_buffer(160)
        _last_detail(self._handle, detail)
        _lib.redo_last_error(self._handle, text, len(text))
        return _error(code, (detail.first, detail.second, detail.third), text.value.decode(errors="replace"))

    def _raise(self, code: int) -> NoReturn:
        raise self._failure(code)

    def _made(self, function: Callable[..., int], *words: object) -> None:
        if code := function(self._handle, *words):
            self._raise(code)

    def _counted(self, function: Callable[..., int], *words: object) -> int:
        self._made(function, *words, self._count)
        return self._count.value

    def _copied(self, function: Callable[..., int], *words: object) -> bytes:
        while True:
            room = len(self._room)
            if code := function(self._handle, *words, self._room, room, self._count):
                self._raise(code)
            length = self._count.value
            if length <= room:
                return ctypes.string_at(self._room, length)
            self._room = ctypes.create_string_buffer(length)

    def _call(self, function: Callable[..., int], *words: object) -> None:
        self._do(self._made, function, *words)

    def _number(self, function: Callable[..., int], *words: object) -> int:
        number: int = self._do(self._counted, function, *words)
        return number

    def _value(self, function: Callable[..., int], *words: object) -> bytes:
        value: bytes = self._do(self._copied, function, *words)
        return value

    def _is_over(self) -> None:
        self._grouped, self._task, self._undo = False, None, None

    def _end_work(self) -> None:
        """Ends what the `with` of a group or a transaction has begun that is over: an exception has ended it, which undoes what is
        to be undone."""
        (self._undo.abort if self._undo else _end)(self._handle)
        self._is_over()

    def _open_group(self, undo: _Undoing | None = None, *words: object) -> None:
        if self._grouped:                           # that of a `with` that is over
            self._end_work()
        self._grouped, self._task, self._undo = True, _task(), undo
        try:
            self._made(undo.begin if undo else _begin, *words)
        except Error:
            self._is_over()
            raise

    def _end_undoing(self, undo: _Undoing, error: object) -> None:
        """The end of the `with`."""
        if self._undo is not undo or not self.is_open:      # it was ended before
            return
        failure = self._ended(undo.end) if error is None else None
        if error is None and not failure:
            self._is_over()
            return
        code = undo.abort(self._handle)
        self._is_over()
        if failure:
            raise failure
        if code:
            self._raise(code)

    def _ended(self, end: Callable[..., int]) -> Error | None:
        """Where the log has no room for a transaction it is made empty, once."""
        if not (code := end(self._handle)):
            return None
        failure = self._failure(code)
        if isinstance(failure, LogFull) and _drain(self._handle) == _trim(self._handle) == 0:
            code = end(self._handle)
            return self._failure(code) if code else None
        return failure

    def _refuse_group(self) -> NoReturn:
        raise _error(InTransaction.code if self._undo and self._undo.begin is _txn_begin else InGroup.code)

    def put(self, x: int, value: Bytes) -> None:
        """Object x holds these bytes: as many as `params().cap` at most, or TooLarge is raised."""
        value = _of(value)
        self._call(_put, _whole(x), value, len(value))

    def get(self, x: int) -> bytes:
        """The value of object x."""
        return self._value(_get, _whole(x))

    def copy(self, x: int, y: int) -> None:
        """Object y gets the value of x."""
        self._call(_copy, _whole(x), _whole(y))

    def append(self, x: int, y: int) -> None:
        """The value of x is added at the end of that of y. Raises TooLarge, and Same where x is y."""
        self._call(_append, _whole(x), _whole(y))

    def cut(self, x: int, y: int, place: int) -> None:
        """Object x keeps its first bytes up to the place, and y gets the others. Raises BadPlace where x has fewer, and Same."""
        self._call(_cut, _whole(x), _whole(y), _whole(place, BadPlace))

    def sort(self, x: int, y: int, width: int) -> None:
        """Object y gets the value of x with its records, each of this many bytes, in byte order. Raises BadWidth where they do not
        fill the value."""
        self._call(_sort, _whole(x), _whole(y), _whole(width, BadWidth))

    def swap(self, x: int, y: int) -> None:
        """The values of x and y are exchanged. Raises Same where x is y."""
        self._call(_swap, _whole(x), _whole(y))

    def __getitem__(self, x: int) -> bytes:
        return self.get(x)

    def __setitem__(self, x: int, value: Bytes) -> None:
        self.put(x, value)

    def __len__(self) -> int:
        return self.params().objects

    def force(self) -> int:
        """Makes all commands durable, and says how many there are since the store was made. Raises InGroup within a group, as do
        `install`, `drain`, `checkpoint`, `trim` and all of a backup."""
        return self._number(_force)

    def group(self, undo: bool = False, room: int | None = None) -> AbstractContextManager[Store]:
        """For a `with`: commands of which a crash leaves all or none; the next `force` after the group makes them durable. Other
        threads wait for its end, and other tasks of asyncio are Busy until then. In a group there is no other one: InGroup.

        With `undo` an exception undoes it: the commands before the group are there, and durable. A backup that is being made is given
        up then. Where that fails the store is let go (DiskFault). Without it nothing is undone: after an exception the commands before
        it stay, as a group of their own. With `room`, LogFull is raised at once where the log has no room for records of so many
        bytes."""
        if undo or room is not None:
            words = () if room is None else (_u64(_count(room, 64)),)
            return _Undoing(self, _begin if room is None else _begin_room, words, _end, _group_abort if undo else _end)
        group: AbstractContextManager[Store] = self._turn
        return group

    def transaction(self, lazy: bool = False) -> AbstractContextManager[Store]:
        """For a `with`: commands that are all done at its end, or none of them. Until then only calls within it see them. An exception
        drops them. Where the log has no room for all of them at the end, it is drained and trimmed, once; LogFull is raised where that is
        not enough, or a backup is being made. A crash leaves all or none; the next `force` makes them durable.

        The end forces what was done before; with `lazy` it forces nothing, so that many transactions go with one `force`, and where
        memory runs out within it (OutOfMemory) all that is not forced is given up.

        Groups and other transactions are InTransaction within. Other threads wait for its end, and other tasks of asyncio are Busy until
        then."""
        return _Undoing(self, _txn_begin, (), _txn_commit_lazily if lazy else _txn_commit, _txn_abort)

    def end_group(self) -> bool:
        """Ends a group before its `with` does: the commands that follow there are in none. False where no group is open."""
        return bool(self._do(self._end_group))

    def _end_group(self) -> bool:
        if _end(self._handle):
            return False
        self._is_over()
        return True

    def install(self) -> bool:
        """Installs one node of the write graph. False where none was left."""
        return self._number(_install) != 0

    def tend(self, most: int) -> int:
        """A piece of a drain: forces what waits, and installs up to so many nodes with three syncs at most. It says how many: 0 where
        none was left. Call it before a force, which then has nothing to do."""
        return self._number(_tend, _u64(_count(most, 64)))

    def drain(self) -> None:
        """Installs all nodes of the write graph. Where it raises LogFull or OutOfMemory some may be installed, as of a `trim` a part
        may be done: no value and no command changes by that."""
        self._call(_drain)

    def checkpoint(self) -> None:
        """Logs where a restart begins."""
        self._call(_checkpoint)

    def trim(self) -> None:
        """Rewrites the log without the records that no restart needs. After a `drain` it is as short as it can be. Raises InBackup
        while a backup is being made."""
        self._call(_trim)

    def backup(self, path: str | os.PathLike[str]) -> int:
        """Saves the store in this folder, which is there and has none. Answers how many commands the copy has: all of them. Raises
        AlreadyStore, OldLog, NoFolder, Locked and InBackup, and BackupFault where a file of the copy fails."""
        with self.backing_up(path) as backup:
            pass
        return backup.commands

    def backing_up(self, path: str | os.PathLike[str]) -> Backup:
        """For a `with`: a backup that is made piece by piece, while the store is used: `copy` of what it gives copies some objects.
        Its end copies the others and finishes it; after an exception it is given up, and the folder has no store. Raises what
        `backup` does."""
        return Backup(self, path)

    def _start_backup(self, saving: Callable[[], object], path: bytes) -> None:
        if self._saving is None:
            self._saving = saving
        self._made(_backup_start, path)

    def _finish_backup(self, backup: Backup) -> None:
        backup.copied = self._counted(_backup_copy, 65535)
        backup.commands = self._counted(_backup_finish)
        self._saving = None

    def _give_up_backup(self, saving: Callable[[], object]) -> None:
        if self._saving is saving and _backup_give_up(self._handle) != InGroup.code:
            self._saving = None

    def snapshot(self) -> Snapshot:
        """For a `with`: the state that the store has as it begins, which stays while commands change the store. One at a time:
        InSnapshot."""
        return Snapshot(self)

    def _begin_snapshot(self, snapshot: Snapshot) -> None:
        if self._kept and self._kept() is None:     # that of a `with` that is over
            _snapshot_end(self._handle)
        self._made(_snapshot_begin)
        self._kept = weakref.ref(snapshot)
        stat = _Stat()
        self._made(_stat, stat)
        snapshot.commands = stat.accepted

    def _end_snapshot(self, snapshot: Snapshot) -> None:
        if self._kept and self._kept() is snapshot:
            _snapshot_end(self._handle)
            self._kept = None

    def stat(self) -> Stat:
        """What the store reports of itself."""
        stat = _Stat()
        self._call(_stat, stat)
        return Stat(*(getattr(stat, name) for name in Stat._fields))

    def params(self) -> Params:
        """The numbers that the store was made with."""
        params = _Params()
        self._call(_params, params)
        return Params(params.objects, params.cap, params.limit)

    def tree(self, low: int, high: int) -> Tree:
        """The tree in the objects low to high. To change it the store needs a cap of at least 1024."""
        return Tree(self, low, high)

    def hash(self, low: int, high: int) -> Hash:
        """The hash file in the objects low to high. To change it the store needs a cap of at least 1024."""
        return Hash(self, low, high)

    def map(self, low: int, high: int) -> Map:
        """The map of wide pages in the objects low to high. To change it the store needs pages (`create(.., pages=True)`) and a cap of
        at least 1024."""
        return Map(self, low, high)

    def app_exec(self, app: int) -> None:
        """The application whose state is the value of `app` takes one step. Raises NoInput where its input is empty, and NotApp."""
        self._call(_app_exec, _whole(app))

    def app_read(self, app: int, x: int) -> None:
        """The value of x is added to its input. Raises TooLarge and NotApp."""
        self._call(_app_read, _whole(app), _whole(x))

    def app_write(self, app: int, x: int) -> None:
        """Object x gets its output. Raises NotApp."""
        self._call(_app_write, _whole(app), _whole(x))

    def app_run(self, app: int, most: int) -> int:
        """It takes steps, at most so many (below 2^64), as long as it has input. Answers how many it took."""
        return self._number(_app_run, _whole(app), _count(most, 64))

    def program_exec(self, app: int, program: int) -> None:
        """The program in one object takes a step on the state in another. Raises NotCode, Halted, NoInput, TooLarge and NotApp."""
        self._call(_program_exec, _whole(app), _whole(program))

    def program_read(self, app: int, x: int) -> None:
        """The value of x is added to the input of the state."""
        self._call(_program_read, _whole(app), _whole(x))

    def program_write(self, app: int, x: int) -> None:
        """Object x gets the output of the state."""
        self._call(_program_write, _whole(app), _whole(x))

    def program_run(self, app: int, program: int, most: int) -> int:
        """The program takes steps, at most so many (below 2^64), as long as it has input. Answers how many it took."""
        return self._number(_program_run, _whole(app), _whole(program), _count(most, 64))

    @property
    def is_open(self) -> bool:
        """False before the store is open and after it was closed; true after a disk fault."""
        return self._handle.state in (1, 2)

    def __bool__(self) -> bool:
        return self.is_open

    def close(self) -> None:
        """Forces nothing: what was not forced may be lost. A store that is closed stays closed."""
        self._do(self._shut)

    def _shut(self) -> None:
        if self.is_open:
            self._made(_close)

    def __enter__(self) -> Store:
        return self

    def __exit__(self, *_: object) -> None:
        self.close()

    def __reduce__(self) -> NoReturn:
        raise TypeError("a store is neither copied nor pickled")

    def __del__(self, _close: Callable[..., int] = _close) -> None:
        if hasattr(self, "_handle"):
            _close(self._handle)


class _Leaving:
    """The `__exit__` of a backup. The `with` alone has what it gives, so that the store knows when the `with` is over, also where
    an exception of a signal handler came before the first line of `__exit__`."""

    def __get__(self, backup: Backup | None, owner: type[Backup]) -> Callable[..., None]:
        if backup is None:
            return Backup._leave
        leave = partial(Backup._leave, backup)
        backup._saving = weakref.ref(leave)
        return leave


class Backup:
    """A backup that is being made: of `copied` objects so far, and, once it is finished, of `commands` commands."""

    __exit__ = _Leaving()

    def __init__(self, store: Store, path: str | os.PathLike[str]) -> None:
        self._store, self._path = store, _path(path)
        self._saving: Callable[[], object] = weakref.ref(self)
        self.copied = 0
        self.commands = 0

    def __enter__(self) -> Backup:
        self._store._do(self._store._start_backup, self._saving, self._path)
        return self

    def _leave(self, error: object, *_: object) -> None:
        try:
            if error is None:
                self._store._do(self._store._finish_backup, self)
        finally:
            self._store._do(self._store._give_up_backup, self._saving)

    def copy(self, count: int) -> int:
        """Copies so many objects more (below 2^32), fewer at the end. Answers how many are copied."""
        self.copied = self._store._number(_backup_copy, _count(count, 32))
        return self.copied


class Snapshot:
    """A state of a store, after `commands` commands: what each object held then, whatever was done since. Iteration is over the
    values, from object 0 on.

    A value is copied as it is first changed, and those of a range at the first change of a tree, hash file or map there. GivenUp is raised
    once memory was refused for that, or the store went back behind the beginning, as where a group is undone within which it
    began; NoSnapshot, once the `with` is over."""

    def __init__(self, store: Store) -> None:
        self._store = store
        self.commands = 0

    def __enter__(self) -> Snapshot:
        self._store._do(self._store._begin_snapshot, self)
        return self

    def __exit__(self, *_: object) -> None:
        if self._store.is_open:
            self._store._do(self._store._end_snapshot, self)

    def _one(self, x: int) -> bytes:
        store = self._store
        if not (store._kept and store._kept() is self):
            raise _error(NoSnapshot.code)
        return store._copied(_snapshot_get, x)

    def get(self, x: int) -> bytes:
        """The value that object x had."""
        value: bytes = self._store._do(self._one, _whole(x))
        return value

    def __getitem__(self, x: int) -> bytes:
        return self.get(x)

    def __len__(self) -> int:
        return len(self._store)

    def __iter__(self) -> Iterator[bytes]:
        return self.values()

    def values(self, low: int = 0, high: int | None = None) -> Iterator[bytes]:
        """The values of the objects from low to high, that one too, or to the last."""
        for x in range(_whole(low), len(self) if high is None else _whole(high) + 1):
            yield self.get(x)

    def dump(self, path: str | os.PathLike[str]) -> None:
        """Writes it into a file that is not there yet (FileExistsError), as `redo dump` prints it."""
        with builtins.open(path, "x", encoding="ascii", newline="\n") as file:
            try:
                for x, value in enumerate(self):
                    if value:
                        file.write(f"{x} {value.hex()}\n")
                file.write(f"commands {self.commands}\n")
            except BaseException:
                os.unlink(path)
                raise


class _Ranged(MutableMapping[bytes, bytes]):
    """A map of bytes in a range of objects. Each change is a command of its own, or several: what is to be whole in a crash goes into a
    group."""

    _set: Callable[..., int]
    _get: Callable[..., int]
    _delete: Callable[..., int]

    def __init__(self, store: Store, low: int, high: int) -> None:
        self._store, self._range = store, _Range(_whole(low), _whole(high))

    def __repr__(self) -> str:
        return f"{type(self).__name__}({self._range.low}, {self._range.high})"

    def __getitem__(self, key: Bytes) -> bytes:
        key = _of(key)
        return self._store._value(self._get, self._range, key, len(key))

    def __setitem__(self, key: Bytes, value: Bytes) -> None:
        key, value = _of(key), _of(value)
        self._store._call(self._set, self._range, key, len(key), value, len(value))

    def __delitem__(self, key: Bytes) -> None:
        key = _of(key)
        self._store._call(self._delete, self._range, key, len(key))

    def set(self, key: Bytes, value: Bytes) -> None:
        """The key gets the value, and loses the one that it had."""
        self[key] = value

    def delete(self, key: Bytes) -> None:
        """The key leaves the map, with its value. NoKey, a KeyError, where it is not there."""
        del self[key]

    def __contains__(self, key: object) -> bool:
        if not isinstance(key, (bytes, bytearray, memoryview)):
            return False
        try:
            self[key]
        except (NoKey, BadKey):
            return False
        return True

    def popitem(self) -> tuple[bytes, bytes]:
        """Takes a pair out, of a tree that of the greatest key. KeyError where there is none."""
        key = next(reversed(list(self)), None)
        if key is None:
            raise KeyError("the map is empty")
        return key, self.pop(key)

    def clear(self) -> None:
        """All keys leave the map."""
        for key in list(self):
            del self[key]


class Hash(_Ranged):
    """A hash file in a range of objects: a map without an order, that reads one bucket for a key. Keys and values have 1 to 32 bytes.
    It has 448 pairs at most, 7 in each of 64 buckets, and with random keys HashFull is raised from some 200 on, where a bucket cannot
    be split any more; NoRoom where no object of the range is empty, and BadHash where one is not of it.

    Iteration is over the keys of the moment at which it begins. That, as `len` and `bool`, reads the whole map. Other keys and values
    are BadKey, which is a KeyError and a ValueError."""

    _set, _get, _delete = staticmethod(_hash_put), staticmethod(_hash_get), staticmethod(_hash_delete)

    def __iter__(self) -> Iterator[bytes]:
        keys: list[bytes] = self._store._do(self._keys)
        return iter(keys)

    def __len__(self) -> int:
        return len(self._store._do(self._keys))

    def _keys(self) -> list[bytes]:
        """Those of the buckets that the directory names (docs/FORMATS.md)."""
        low, high = self._range.low, self._range.high
        directory = self._store._copied(_get, low)
        if not directory:
            return []
        if len(directory) < 6 or directory[0] != 3 or len(directory) != 2 + (4 << directory[1]):
            raise _bad_hash(low)
        keys: list[bytes] = []
        for bucket in dict.fromkeys(struct.unpack_from(f"<{1 << directory[1]}I", directory, 2)):
            if not low < bucket <= high:
                raise _bad_hash(low)
            keys += self._keys_in(bucket)
        return keys

    def _keys_in(self, x: int) -> list[bytes]:
        bucket, keys, at = self._store._copied(_get, x), [], 3
        try:
            for _ in range(bucket[2]):
                end = at + 1 + bucket[at]
                keys.append(bucket[at + 1:end])
                at = end + 1 + bucket[end]
        except IndexError:
            at = 0
        if at != len(bucket) or bucket[:1] != b"\x04":
            raise _bad_hash(x)
        return keys


class Tree(_Ranged):
    """A tree, an ordered map in a range of objects: iteration is by rising keys. Keys and values have 1 to 32 bytes. Raises TreeFull
    where the range has no room for a key: for good, after some 2.25 inserts an object, where keys rise and the oldest are deleted.
    BadTree where an object of the range is none of its nodes.

    Iteration is over the keys of the moment at which it begins. That, as `len` and `bool`, reads the whole map. Other keys and values
    are BadKey, which is a KeyError and a ValueError."""

    _set, _get, _delete = staticmethod(_tree_insert), staticmethod(_tree_get), staticmethod(_tree_delete)

    def range(self, low: Bytes = b"\0", high: Bytes | None = None) -> Iterator[tuple[bytes, bytes]]:
        """The pairs whose keys are not below `low` and are below `high`, by rising key, as they are now: all are found at once."""
        pairs: list[tuple[bytes, bytes]] = self._store._do(self._pairs, _of(low), None if high is None else _of(high))
        return iter(pairs)

    def __iter__(self) -> Iterator[bytes]:
        return (key for key, _ in self.range())

    def __reversed__(self) -> Iterator[bytes]:
        return reversed(list(self))

    def __len__(self) -> int:
        return int(self._store._do(self._size))

    def _found(self, low: bytes, high: bytes) -> int:
        return self._store._counted(_tree_range, self._range, low, len(low), high, len(high))

    def _last(self) -> list[tuple[bytes, bytes]]:
        """The pair of the greatest key that there may be, which is below none."""
        try:
            return [(_LAST, self._store._copied(_tree_get, self._range, _LAST, len(_LAST)))]
        except NoKey:
            return []

    def _pairs(self, low: bytes, high: bytes | None) -> list[tuple[bytes, bytes]]:
        key, value, lengths = ctypes.create_string_buffer(32), ctypes.create_string_buffer(32), _Lengths()
        pairs: list[tuple[bytes, bytes]] = []
        for i in range(self._found(low, _LAST if high is None else high)):
            self._store._made(_tree_pair, i, key, 32, value, 32, lengths)
            pairs.append((key.raw[:lengths.key], value.raw[:lengths.value]))
        self._found(b"\0", b"\0")              # lets the pairs in the library go
        return pairs + self._last() if high is None else pairs

    def _size(self) -> int:
        size = self._found(b"\0", _LAST) + len(self._last())
        self._found(b"\0", b"\0")
        return size


class Map(_Ranged):
    """An ordered map of wide pages in a range of objects. Of a page, P bytes are the store's cap, at most 65,535: a key has 1 to 1,023
    bytes, at most P / 8 - 8, and a value 0 to P / 4. To set others raises TooLong, a change NoPages where the store has no pages or a
    cap below 1,024. BadMap is raised where an object of the range is no page of the map, MapFull where the range has no room for a key.

    A cursor is a key. Iteration is by rising keys, some of which are read at a time: what is set or deleted meanwhile behind these is
    seen so. `len` goes through the whole map, `bool` to its first key."""

    _set, _get, _delete = staticmethod(_map_set), staticmethod(_map_get), staticmethod(_map_delete)

    def __init__(self, store: Store, low: int, high: int) -> None:
        super().__init__(store, low, high)
        self._name = ctypes.create_string_buffer(1023)

    def range(self, low: Bytes = b"", high: Bytes | None = None, most: int | None = None) -> Iterator[tuple[bytes, bytes]]:
        """The pairs whose keys are not below `low` and are below `high`, by rising key: the first ones, at most so many."""
        return self._rising(_of(low), None if high is None else _of(high), _limit(most))

    def back(self, low: Bytes = b"", high: Bytes | None = None, most: int | None = None) -> Iterator[tuple[bytes, bytes]]:
        """The same of the last ones, by falling key."""
        return self._falling(_of(low), None if high is None else _of(high), _limit(most))

    def prefix(self, front: Bytes, most: int | None = None) -> Iterator[tuple[bytes, bytes]]:
        """The pairs whose keys begin with these bytes, by rising key."""
        low = _of(front)
        last = low.rstrip(b"\xff")
        return self._rising(low, last[:-1] + bytes([last[-1] + 1]) if last else None, _limit(most))

    def first(self) -> tuple[bytes, bytes] | None:
        """The pair of the least key. None where the map is empty."""
        return self._one(_map_range, b"", None)

    def last(self) -> tuple[bytes, bytes] | None:
        """The pair of the greatest key."""
        return self._one(_map_back, b"", None)

    def next(self, key: Bytes) -> tuple[bytes, bytes] | None:
        """The pair of the least key above this one, which need not be there. None where there is none."""
        return self._one(_map_range, _of(key) + b"\0", None)

    def prev(self, key: Bytes) -> tuple[bytes, bytes] | None:
        """The pair of the greatest key below this one."""
        return self._one(_map_back, b"", _of(key))

    def count(self, low: Bytes = b"", high: Bytes | None = None) -> int:
        """How many keys are not below `low` and are below `high`."""
        low, high = _of(low), None if high is None else _of(high)
        return 0 if high == b"" else self._store._number(_map_count, *self._keys(low, high))

    def __iter__(self) -> Iterator[bytes]:
        return (key for key, _ in self.range())

    def __reversed__(self) -> Iterator[bytes]:
        return (key for key, _ in self.back())

    def __len__(self) -> int:
        return self.count()

    def __bool__(self) -> bool:
        return self.first() is not None

    def keys(self) -> KeysView[bytes]:
        return _Keys(self)

    def items(self) -> ItemsView[bytes, bytes]:
        return _Items(self)

    def values(self) -> ValuesView[bytes]:
        return _Values(self)

    def popitem(self) -> tuple[bytes, bytes]:
        """Takes the pair of the greatest key out. KeyError where there is none."""
        pair = self.last()
        if pair is None:
            raise KeyError("the map is empty")
        del self[pair[0]]
        return pair

    def clear(self) -> None:
        """All keys leave the map."""
        for key in self:
            del self[key]

    def _keys(self, low: bytes, high: bytes | None) -> tuple[object, ...]:
        """Where no bytes are the end, the library reads to the end of the map."""
        return self._range, low, len(low), high, len(high or b"")

    def _found(self, find: Callable[..., int], low: bytes, high: bytes | None, most: int) -> list[tuple[bytes, bytes]]:
        count = 0 if high == b"" else self._store._counted(find, *self._keys(low, high), most)
        return [self._pair(i) for i in range(count)]

    def _pair(self, i: int) -> tuple[bytes, bytes]:
        lengths, store = _Lengths(), self._store
        while True:
            name, room = self._name, store._room
            store._made(_map_pair, i, name, len(name), room, len(room), lengths)
            if lengths.key <= len(name) and lengths.value <= len(room):
                return ctypes.string_at(name, lengths.key), ctypes.string_at(room, lengths.value)
            self._name = ctypes.create_string_buffer(max(len(name), lengths.key))
            store._room = ctypes.create_string_buffer(max(len(room), lengths.value))

    def _some(self, find: Callable[..., int], low: bytes, high: bytes | None, most: int) -> list[tuple[bytes, bytes]]:
        pairs: list[tuple[bytes, bytes]] = self._store._do(self._found, find, low, high, most)
        return pairs

    def _one(self, find: Callable[..., int], low: bytes, high: bytes | None) -> tuple[bytes, bytes] | None:
        pairs = self._some(find, low, high, 1)
        return pairs[0] if pairs else None

    def _rising(self, low: bytes, high: bytes | None, most: int) -> Iterator[tuple[bytes, bytes]]:
        while pairs := self._some(_map_range, low, high, min(most, _PIECE)):
            yield from pairs
            low, most = pairs[-1][0] + b"\0", most - len(pairs)

    def _falling(self, low: bytes, high: bytes | None, most: int) -> Iterator[tuple[bytes, bytes]]:
        while pairs := self._some(_map_back, low, high, min(most, _PIECE)):
            yield from pairs
            high, most = pairs[-1][0], most - len(pairs)


_PIECE = 100        # so many pairs are read at a time


def _limit(most: int | None) -> int:
    return sys.maxsize if most is None else _count(most, 64)


class _Keys(KeysView[bytes]):
    def __init__(self, of: Map) -> None:
        super().__init__(of)
        self._of = of

    def __reversed__(self) -> Iterator[bytes]:
        return reversed(self._of)


class _Items(ItemsView[bytes, bytes]):
    def __init__(self, of: Map) -> None:
        super().__init__(of)
        self._of = of

    def __iter__(self) -> Iterator[tuple[bytes, bytes]]:
        return self._of.range()

    def __reversed__(self) -> Iterator[tuple[bytes, bytes]]:
        return self._of.back()


class _Values(ValuesView[bytes]):
    def __init__(self, of: Map) -> None:
        super().__init__(of)
        self._of = of

    def __iter__(self) -> Iterator[bytes]:
        return (value for _, value in self._of.range())

    def __reversed__(self) -> Iterator[bytes]:
        return (value for _, value in self._of.back())


_stores: weakref.WeakSet[Store] = weakref.WeakSet()


def _leave_to_parent() -> None:
    for store in list(_stores):
        _close(store._handle)
        store._begin()


os.register_at_fork(after_in_child=_leave_to_parent)


def _opened(upkeep: bool, wait: float, function: Callable[..., int], path: bytes, *words: object) -> Store:
    """Waits in short pieces, between which a signal is handled."""
    store = Store()
    end = time.monotonic() + wait
    try:
        while True:
            try:
                store._call(function, path, *words)
                break
            except Locked:
                if not time.monotonic() < end:
                    raise
                time.sleep(min(0.02, max(0.0, end - time.monotonic())))
        if upkeep:
            store._call(_upkeep, 1)
        return store
    except BaseException:       # which may have come once the store was open
        _close(store._handle)
        raise


def open(path: str | os.PathLike[str], upkeep: bool = False, *, create: Params | tuple[int, int, int] | None = None,
         wait: float = 0, readonly: bool = False, pages: bool = False) -> Store:
    """Opens the store in this folder, and reads its files into memory. Raises NotAStore, Damaged, NoFolder and Locked.

    With `upkeep` no `drain` and no `trim` is needed: after a command outside a group and a transaction, and after the end of either,
    the store takes a small piece of them, where one is due, and all of it where the log stays nearly full.

    With `create`, the numbers (objects, cap, limit) of `create`, a store is made where the folder has none, with `pages` one that has
    maps of wide pages. With `wait` the store is waited for so many seconds, where another process has it: `math.inf` for good. With
    `readonly` nothing is written, many may read a store at once while none changes it, and what does not only read is ReadOnly."""
    if readonly and (upkeep or create is not None):
        raise ValueError("a store that only reads is not made, and needs no upkeep")
    if pages and create is None:
        raise ValueError("pages are those of a store that is made")
    if not wait >= 0:
        raise ValueError("the wait is less than nothing")
    numbers = None if create is None else _Params(*(_whole(n, BadParams) for n in Params(*create)))
    how = (5 if pages else 1) if numbers else 2 if readonly else 0
    return _opened(upkeep, wait, _open_with, _path(path), how, 0, numbers and ctypes.byref(numbers))


def create(path: str | os.PathLike[str], objects: int, cap: int, limit: int, upkeep: bool = False, pages: bool = False) -> Store:
    """Makes a store in this folder, which is there, and opens it: 1 to 65,535 objects of at most `cap` bytes (16 to 1,048,576), and
    a log of at most `limit` bytes (2 cap + 4,096 to 536,870,912). Raises BadParams at other numbers, AlreadyStore, OldLog, NoFolder
    and Locked.

    With `pages` it has maps of wide pages (`Store.map`), and libraries and programs that know none do not open it."""
    return _opened(upkeep, 0, _create_pages if pages else _create, _path(path), *(_whole(n, BadParams) for n in (objects, cap, limit)))
