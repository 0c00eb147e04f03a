"""How a store is opened, what errors say, and maps as Python has them, on the library that LIBREDO names: test_opening.py FOLDER
[REAL], an empty folder; a second word says that the library is the proved one."""
import errno
import math
import os
import pickle
import signal
import subprocess
import sys
import threading
import time

sys.dont_write_bytecode = True
CAPI = os.path.join(os.path.dirname(os.path.abspath(__file__)), os.pardir)
sys.path.insert(0, CAPI)
import redo  # noqa: E402

IS_REAL = len(sys.argv) > 2


def refused(error, call, *words, **named):
    try:
        call(*words, **named)
    except error as e:
        assert type(e) is error, e
        return e
    raise AssertionError(f"{error.__name__} was not raised")


def or_create(folder):
    refused(redo.NotAStore, redo.open, folder)
    refused(redo.NotAStore, redo.open, folder, readonly=True)
    refused(redo.BadParams, redo.open, folder, create=(0, 64, 65536))
    refused(redo.BadParams, redo.open, folder, create=(-1, 64, 65536))
    refused(TypeError, redo.open, folder, create=(64, 1024))
    refused(TypeError, redo.open, folder, False, (64, 1024, 65536))
    for words in ({"readonly": True, "create": (64, 1024, 65536)}, {"readonly": True, "upkeep": True}, {"wait": -1}, {"wait": math.nan}):
        refused(ValueError, redo.open, folder, **words)
    assert not os.listdir(folder)
    with redo.open(folder, create=redo.Params(64, 1024, 65536), upkeep=True) as s:
        assert s.params() == (64, 1024, 65536)
        s.put(0, b"first")
        s.force()
    with redo.open(folder, create=(1, 16, 65536)) as s:
        assert s.params() == (64, 1024, 65536) and s[0] == b"first"
    refused(redo.NoFolder, redo.open, folder + "/none", create=(64, 1024, 65536))


def waits(folder):
    refused(redo.NoFolder, redo.open, folder + "/none", wait=20)
    s = redo.open(folder)
    start = time.monotonic()
    refused(redo.Locked, redo.open, folder)
    refused(redo.Locked, redo.open, folder, wait=0.05)
    assert 0.05 <= time.monotonic() - start < 10
    threading.Timer(0.1, s.close).start()
    with redo.open(folder, wait=math.inf) as s:
        assert s[0] == b"first" and time.monotonic() - start >= 0.1

    def stop(*_):
        raise InterruptedError
    before = signal.signal(signal.SIGALRM, stop)
    with redo.open(folder):
        signal.setitimer(signal.ITIMER_REAL, 0.1)
        refused(InterruptedError, redo.open, folder, wait=60)
    signal.signal(signal.SIGALRM, before)


def readers(folder):
    with redo.open(folder) as s:
        tree, index = s.tree(8, 15), s.hash(16, 31)
        tree[b"ann"], index[b"bob"] = b"1", b"2"
        s.force()
    before = {name: open_bytes(folder, name) for name in os.listdir(folder)}
    with redo.open(folder, readonly=True) as s, redo.open(folder, readonly=True) as other:
        refused(redo.Locked, redo.open, folder)
        code = f"import redo; s = redo.open({folder!r}, readonly=True); print(s[0])"
        said = subprocess.run([sys.executable, "-B", "-c", code], env={**os.environ, "PYTHONPATH": CAPI}, capture_output=True)
        assert said.stdout == b"b'first'\n", said
        tree, index = s.tree(8, 15), s.hash(16, 31)
        assert dict(tree.range()) == {b"ann": b"1"} and index[b"bob"] == b"2" and (not IS_REAL or dict(index) == {b"bob": b"2"})
        with s.snapshot() as state:
            assert state[0] == s[0] == other[0] == b"first" and state.commands == s.stat().accepted
        for call in (lambda: s.put(0, b""), lambda: s.swap(0, 1), s.force, s.drain, s.trim, lambda: s.tend(1), s.checkpoint,
                     lambda: tree.set(b"k", b"v"), lambda: index.delete(b"bob"), lambda: s.group().__enter__(),
                     lambda: s.group(undo=True).__enter__(), lambda: s.transaction().__enter__(), lambda: s.app_run(0, 1),
                     lambda: s.backup(folder)):
            assert "only reads" in str(refused(redo.ReadOnly, call))
        assert s[0] == b"first"
    assert before == {name: open_bytes(folder, name) for name in os.listdir(folder)}


def open_bytes(folder, name):
    with open(os.path.join(folder, name), "rb") as file:
        return file.read()


def words(folder):
    missing = refused(redo.NoFolder, redo.open, folder + "/none")
    assert missing.detail.errno == errno.ENOENT and "No such file" in str(missing)
    with redo.open(folder) as s:
        refused(redo.NoObject, s.get, 64)
        with s.group():
            s.put(1, b"x")
            within = refused(redo.InGroup, s.force)
        assert within.detail.commands == 1 and "1" in str(within)
        try:
            for _ in range(1000):
                s.put(1, bytes(1000))
        except redo.LogFull as e:
            full = e
        used, needed, limit = full.detail
        assert full.detail.used == used and full.detail.needed == needed and full.detail.limit == limit == 65536
        assert str(full) == f"the log is full: {used} bytes are used and {needed} needed, of {limit}"
        again = pickle.loads(pickle.dumps(full))
        assert type(again) is redo.LogFull and again.detail.used == used and str(again) == str(full)
        s.drain()
        s.trim()
        if IS_REAL:
            s.put(40, b"none")
            bad = refused(redo.BadTree, s.tree(40, 45).get, b"k")
            assert bad.detail.object == 40 and str(bad).endswith("object 40")
            assert refused(redo.BadHash, list, s.hash(40, 45)).detail.object == 40
            s.put(40, b"")
    assert redo.DiskFault().detail.errno == 0 and redo.Error().detail == (0, 0, 0)
    memory = redo._error(5, (errno.ENOMEM, 0, 0))
    assert type(memory) is redo.MemoryFault and isinstance(memory, redo.DiskFault) and isinstance(memory, MemoryError)
    assert type(redo._error(5, (errno.ENOMEM, 1, 3))) is redo.DiskFault
    assert set(redo.__all__) <= set(dir(redo)) and "ReadOnly" in redo.__all__


def maps(folder):
    with redo.open(folder) as s:
        for m in (s.tree(32, 39), *([s.hash(46, 63)] if IS_REAL else [])):
            assert repr(m) in ("Tree(32, 39)", "Hash(46, 63)") and m == {} and not m
            m.update({b"b": b"2", b"a": b"1"})
            assert m == {b"a": b"1", b"b": b"2"} and sorted(m.items()) == [(b"a", b"1"), (b"b", b"2")]
            assert sorted(m.keys()) == [b"a", b"b"] and sorted(m.values()) == [b"1", b"2"] and (b"a", b"1") in m.items()
            assert m.get(b"") is None and m.get(b"k" * 33, b"d") == b"d" and m.pop(b"", b"d") == b"d" and b"" not in m
            assert isinstance(refused(redo.BadKey, m.__getitem__, b""), KeyError)
            assert isinstance(refused(redo.BadKey, m.__setitem__, b"k", b""), ValueError)
            refused(TypeError, m.get, "text")
            assert m.setdefault(b"c", b"3") == b"3" == m.setdefault(b"c", b"4") and m.pop(b"c") == b"3"
            assert sorted([m.popitem(), m.popitem()]) == [(b"a", b"1"), (b"b", b"2")]
            refused(KeyError, m.popitem)
            m[b"x"] = b"y"
            m.clear()
            assert len(m) == 0
        tree = s.tree(32, 39)
        tree.update((b"%d" % i, b"v") for i in range(5))
        assert list(reversed(tree)) == [b"4", b"3", b"2", b"1", b"0"] and tree.popitem() == (b"4", b"v")


def main():
    folder = sys.argv[1] if len(sys.argv) > 1 else "."
    for test in (or_create, waits, readers, words, maps):
        test(folder)
    print("test_opening.py: ok")


main()
