"""The module, on the library that LIBREDO names: test_redo.py FOLDER, an empty one."""
import os
import random
import signal
import subprocess
import sys
import threading
from collections.abc import MutableMapping
from functools import partial

sys.dont_write_bytecode = True
sys.path.insert(0, os.path.join(os.path.dirname(os.path.abspath(__file__)), os.pardir))
import redo  # noqa: E402


def refused(error, call, *words):
    try:
        call(*words)
    except error as e:
        assert type(e) is error and isinstance(e, redo.Error), e
        return e
    raise AssertionError(f"{error.__name__} was not raised")


def values(folder):
    refused(redo.NotAStore, redo.open, folder)
    assert "No such file" in str(refused(redo.NoFolder, redo.open, folder + "/nowhere"))
    refused(redo.BadParams, redo.create, folder, 0, 64, 65536)
    refused(redo.BadParams, redo.create, folder, -1, 64, 65536)
    with redo.create(folder, objects=8, cap=8192, limit=65536) as s:
        assert s.params() == (8, 8192, 65536) and len(s) == 8
        refused(redo.Locked, redo.open, folder)
        s.put(0, b"hello")
        s.copy(0, 1)
        s.append(0, 1)
        s.cut(1, 2, 7)
        s.sort(0, 3, 1)
        s.swap(2, 3)
        assert [s[x] for x in range(5)] == [b"hello", b"hellohe", b"ehllo", b"llo", b""]
        s[4] = bytearray(range(256)) * 32
        assert s[4] == bytes(range(256)) * 32
        refused(redo.NoObject, s.put, 8, b"")
        refused(redo.NoObject, s.put, 1 << 32, b"")
        refused(redo.TooLarge, s.put, 0, bytes(8193))
        for value in (5, "text", None):
            try:
                s.put(0, value)
                raise AssertionError("no bytes are taken")
            except TypeError:
                pass
        refused(redo.BadPlace, s.cut, 0, 1, 6)
        refused(redo.BadWidth, s.sort, 0, 1, 2)
        refused(redo.Same, s.swap, 0, 0)
        assert list(s)[0] == b"hello" and len(list(s)) == 8
        assert s.force() == s.stat().forced == s.stat().accepted == 7
        full = None
        while not full:
            try:
                s.put(4, bytes(8192))
            except redo.LogFull as error:
                full = error
        assert full.code == 16 and full.detail[2] == 65536, full.detail
        while s.tend(2) > 1:
            pass
        while s.install():
            pass
        s.drain()
        s.checkpoint()
        s.trim()
        s.put(4, b"room")
    assert not s.is_open
    s.close()
    refused(redo.NotOpen, s.get, 0)
    refused(redo.AlreadyStore, redo.create, folder, 8, 64, 65536)


def groups(folder):
    with redo.open(folder) as s:
        with s.group():
            s.put(5, b"a")
            assert refused(redo.InGroup, s.force).detail[0] == 1
        try:
            with s.group():
                s.put(6, b"kept")
                raise ValueError
        except ValueError:
            pass
        assert s.get(6) == b"kept"
        with s.group():
            late = threading.Thread(target=s.force)
            late.start()
            s.put(7, b"b")
        late.join()
        s.force()
    with redo.open(folder) as s:
        assert s.get(5) == b"a" and s.get(6) == b"kept"


def undone(folder):
    """An exception within a group that is undone, or within a transaction, leaves what was there before."""
    with redo.open(folder) as s:
        s.put(0, b"kept")
        for work in (partial(s.group, undo=True), partial(s.group, undo=True, room=100), s.transaction):
            before = s.stat().accepted
            try:
                with work() as t:
                    t.put(0, b"lost")
                    t.append(0, 1)
                    assert s.get(0) == b"lost"
                    raise KeyError
            except KeyError:
                pass
            assert s.get(0) == b"kept" and s.stat().accepted == before
            with work():
                s.put(1, b"done")
            assert s.get(1) == b"done" and s.stat().accepted == before + 1
            s.put(1, b"")
        with s.group(undo=True):
            s.put(0, b"done")
            assert s.end_group() and not s.end_group()
        assert s.get(0) == b"done"
        refused(redo.LogFull, lambda: s.group(room=1 << 29).__enter__())
        s.put(0, b"kept")
    with redo.open(folder) as s:
        with s.transaction():
            s.put(0, b"lost")
            s.close()
    with redo.open(folder) as s:
        assert s.get(0) == b"kept"


def upkept(folder):
    """A store that keeps up has room for more than its log."""
    with redo.open(folder, upkeep=True) as s:
        for i in range(4 * s.params().limit // 4096):
            s.put(3, bytes(4096))
        with s.group():
            s.put(3, b"")
        with s.transaction():
            s.put(4, b"")
        assert s.stat().used < s.params().limit


def transactions(folder):
    with redo.open(folder) as s:
        cap, limit = s.params().cap, s.params().limit
        with s.transaction():
            refused(redo.InTransaction, lambda: s.transaction().__enter__())
            refused(redo.InTransaction, lambda: s.group().__enter__())
            refused(redo.InTransaction, s.group(undo=True).__enter__)
            refused(redo.BadPlace, s.cut, 0, 1, cap)
            s.put(0, b"b")
            s.append(0, 1)
        with s.group():
            refused(redo.InGroup, s.transaction().__enter__)
        for x in range(2, 8):
            s.put(x, b"")
        tree, table = s.tree(2, 4), s.hash(5, 7)
        for keeps in (False, True):                     # trees and hash files are staged, too
            try:
                with s.transaction():
                    tree[b"k"], table[b"k"] = b"v", b"w"
                    assert tree[b"k"] == b"v" and table[b"k"] == b"w" and list(tree) == [b"k"]
                    if not keeps:
                        raise KeyError
            except KeyError:
                pass
            assert (b"k" in tree) == (b"k" in table) == keeps
        for x in range(2, 8):
            s.put(x, b"")
        forced = s.force()
        for i in range(100):
            with s.transaction(lazy=True):
                refused(redo.InTransaction, s.group().__enter__)
                s.put(1, b"%d" % i), s.put(2, b"%d" % i)
        assert s.stat().forced == forced and s.force() == forced + 200
        for i in range(2 * limit // cap):               # the log is made empty now and then
            with s.transaction():
                s.put(1, bytes(cap))
                s.put(2, bytes([i % 256]) * cap)
        assert s.get(2) == bytes([i % 256]) * cap
        try:
            with s.transaction():
                for i in range(limit // cap + 1):
                    s.put(1, b"lost" + bytes(cap - 4))
            raise AssertionError("more than a log")
        except redo.LogFull as full:
            assert full.detail[2] == limit
        assert s.get(1) == bytes(cap)
        s.put(1, b""), s.put(2, b"")


def backups(folder):
    copy = folder + "/copy"
    with redo.open(folder) as s:
        refused(redo.NoFolder, s.backup, copy)
        os.mkdir(copy)
        s.put(0, b"saved")
        assert s.backup(copy) == s.stat().forced == s.stat().accepted
        refused(redo.AlreadyStore, s.backup, copy)
        os.mkdir(copy + "2")
        try:
            with s.backing_up(copy + "2") as backup:
                assert backup.copy(3) == 3
                raise ValueError
        except ValueError:
            pass
        refused(redo.NotAStore, redo.open, copy + "2")
        with s.backing_up(copy + "2") as backup:
            assert backup.copy(3) == 3
            s.put(0, b"twice")
            assert refused(redo.InBackup, s.trim).detail[0] == 3
        assert backup.copied == 8 and backup.commands == s.stat().accepted
        s.put(0, b"later")
        s.trim()
    with redo.open(copy) as one, redo.open(copy + "2") as two:
        assert one[0] == b"saved" and two[0] == b"twice"


def maps(folder):
    os.mkdir(folder + "/maps")
    with redo.create(folder + "/maps", 128, 1024, 1 << 20) as s:
        tree, index = s.tree(0, 63), s.hash(64, 127)
        assert not tree and len(tree) == 0 and list(tree) == []
        assert isinstance(tree, MutableMapping) and isinstance(index, MutableMapping) and list(index) == []
        for i in range(60):
            key = b"k%02d" % (i * 7 % 60)
            tree[key] = index[key] = b"v" + key
        assert len(tree) == 60 and list(tree) == sorted(tree) and tree[b"k07"] == b"vk07"
        assert [k for k, _ in tree.range(b"k05", b"k08")] == [b"k05", b"k06", b"k07"]
        assert list(tree.range(b"k58")) == [(b"k58", b"vk58"), (b"k59", b"vk59")]
        assert tree.get(b"x") is None and tree.get(b"x", b"d") == b"d" and b"k01" in tree and b"x" not in tree
        tree[b"\xff" * 32] = b"last"
        assert list(tree.items())[-1] == (b"\xff" * 32, b"last")
        del tree[b"k08"]
        refused(redo.NoKey, tree.delete, b"k08")
        assert isinstance(refused(redo.NoKey, tree.__getitem__, b"k08"), KeyError)
        assert tree.pop(b"k09") == b"vk09" and tree.setdefault(b"k09", b"new") == b"new"
        tree.update({b"k10": b"ten"})
        assert dict(tree)[b"k10"] == b"ten"
        refused(redo.BadKey, tree.set, b"", b"v")
        refused(redo.BadKey, tree.range, b"")
        refused(redo.BadKey, index.set, b"k" * 33, b"v")
        refused(redo.NoObject, s.tree(9, 8).set, b"k", b"v")
        refused(redo.NoObject, s.hash(9, 9).set, b"k", b"v")
        assert index[b"k33"] == b"vk33" and index.get(b"x") is None and b"k33" in index
        if len(sys.argv) > 2:       # (the small store has no buckets)
            assert bool(index) and len(index) == 60 and sorted(index) == [b"k%02d" % i for i in range(60)]
            assert dict(index) == {key: b"v" + key for key in index}
            for number, value in enumerate((b"\x03", b"\x03\x00\x40\x00\x00\x00", b"\x04\x00\x00", b"none")):
                s.put(126, value)
                assert refused(redo.BadHash, list, s.hash(126, 127)).detail[0] == 126, number
            s.put(126, b"\x03\x00\x7f\x00\x00\x00")
            for value in (b"", b"\x04", b"\x04\x00\x01\x01", b"\x04\x00\x00\x01", b"\x03\x00\x00"):
                s.put(127, value)
                assert refused(redo.BadHash, len, s.hash(126, 127)).detail[0] == 127, value
            s.put(126, b"")
            s.put(127, b"")
        assert index.pop(b"k32") == b"vk32" and index.setdefault(b"k32", b"new") == b"new" and index.get(b"x", b"d") == b"d"
        index.delete(b"k33")
        refused(redo.NoKey, index.delete, b"k33")
        s.force()
    with redo.open(folder + "/maps") as s:
        assert len(s.tree(0, 63)) == 60 and s.hash(64, 127)[b"k34"] == b"vk34"


def pages(folder):
    """A map of wide pages, beside a dictionary whose keys are sorted."""
    os.mkdir(folder + "/pages")
    dice = random.Random(1)
    with redo.open(folder) as s:
        refused(redo.NoPages, s.map(0, 7).set, b"k", b"v")
    with redo.create(folder + "/pages", 512, 1024, 1 << 20, upkeep=True, pages=True) as s:
        m, model = s.map(3, 500), {}
        assert isinstance(m, MutableMapping) and not m and len(m) == 0 and list(m) == [] and m.first() is m.last() is None
        for i in range(3000):
            key = bytes(dice.choice(b"\0abz\xff") for _ in range(dice.choice((1, 2, 3, 4, 120))))
            if dice.random() < 0.3:
                assert (key in m) == (key in model) and m.pop(key, None) == model.pop(key, None)
            else:
                m[key] = model[key] = bytes([i % 256]) * dice.choice((0, 1, 30, 256))
            if i % 100 == 0:
                is_as(m, model, dice)
        is_as(m, model, dice)
        refused(redo.TooLong, m.set, b"", b"v")
        refused(redo.TooLong, m.set, b"k" * 121, b"v")
        refused(redo.TooLong, m.set, b"k", bytes(257))
        refused(redo.NoKey, m.delete, b"k" * 4000)
        refused(redo.NoObject, s.map(9, 8).set, b"k", b"v")
        refused(redo.NoObject, s.map(9, 512).first)
        for work in (partial(s.group, undo=True), s.transaction):
            try:
                with work():
                    m[b"k"] = b"never"
                    is_as(m, {**model, b"k": b"never"}, dice)
                    m.clear()
                    is_as(m, {}, dice)
                    raise ValueError
            except ValueError:
                is_as(m, model, dice)
        with s.transaction():
            m[b"k"] = model[b"k"] = b"v"
        is_as(m, model, dice)
        os.mkdir(folder + "/pages_copy")
        s.backup(folder + "/pages_copy")
        with redo.open(folder + "/pages_copy", readonly=True) as copy:
            is_as(copy.map(3, 500), model, dice)
            refused(redo.ReadOnly, copy.map(3, 500).set, b"k", b"v")
        with s.snapshot() as old:
            before = list(s)
            for key in list(m)[::2]:
                m[key] = model[key] = b"new"
            m[b"k"] = model[b"k"] = b"new"
            assert list(old) == before
        for key in m:                       # what is in front of the cursor may come and go
            m[key[:1] + b"\0\0"] = b"behind"
            del m[key]
        model = {key: value for key, value in m.items() if value == b"behind"}
        is_as(m, model, dice)
        m.update({b"a": b"1", b"b": b"2"})
        assert m.setdefault(b"a", b"3") == b"1" and m.get(b"x", b"d") == b"d" and m.popitem()[0] == max([b"b", *model])
        s.force()
        kept = dict(m)
    with redo.open(folder + "/pages") as s:
        is_as(s.map(3, 500), kept, dice)
        s.map(3, 500).clear()
        assert not s.map(3, 500) and list(reversed(s.map(3, 500))) == []


def full_logs(folder):
    """A set or a delete that the log has no room for, wherever that is: the map has what it had, or what it was to have."""
    os.mkdir(folder + "/full")
    dice = random.Random(2)
    with redo.create(folder + "/full", 512, 1024, 40000, pages=True) as s:
        m, model, cut = s.map(3, 500), {}, 0
        for i in range(150):
            room = dice.randrange(900)
            while 40000 - s.stat().used > room + 1100:
                s.put(0, bytes(1024))
            if (rest := 40000 - s.stat().used - room - 80) > 0:
                s.put(0, bytes(rest))
            key, value = b"%03d" % dice.randrange(100), bytes([i % 256]) * dice.randrange(256)
            after = {**model, key: value}
            if dice.random() < 0.4:
                key = m.next(key)[0] if m.next(key) else None
                after = {k: v for k, v in model.items() if k != key}
            for again in range(2):
                try:
                    if key in after:
                        m[key] = value
                    elif key in m:
                        del m[key]
                    model = after
                    break
                except redo.LogFull:
                    assert not again
                    now, cut = dict(m), cut + 1
                    assert now == model or key not in after and now == after, (i, key)
                    s.drain()
                    s.trim()
            assert m == model
        assert cut > 30, cut


def kills_of_maps(folder):
    """A child sets and deletes, forces now and then, and is killed: the map is as after so many calls, all of which that were forced
    are among them, or as within a delete, which has taken its key out."""
    path = folder + "/killed"
    os.mkdir(path)
    redo.create(path, 512, 1024, 1 << 18, pages=True).close()
    done, model = 0, {}
    for round in range(12):
        (out, into), start = os.pipe(), done
        if (child := os.fork()) == 0:
            with redo.open(path, upkeep=True) as s:
                m, own = s.map(0, 511), dict(model)
                for i in range(start, start + 100000):
                    one_call(i, m)
                    if i % 7 == 0:
                        s.force()
                        os.write(into, i.to_bytes(8, "little"))
                os._exit(1)
        os.close(into)
        told = start - 1
        while told < start + 60 * (round + 1):
            told = int.from_bytes(os.read(out, 8), "little")
        os.kill(child, signal.SIGKILL)
        assert os.waitstatus_to_exitcode(os.waitpid(child, 0)[1]) == -signal.SIGKILL
        while last := os.read(out, 8):
            told = int.from_bytes(last, "little")
        os.close(out)
        with redo.open(path) as s:
            found = dict(s.map(0, 511))
        while done <= told or found != model:
            one_call(done, model)
            done += 1
            assert done < told + 500, told


def one_call(i, m):
    dice = random.Random(i)
    key = b"%03d" % dice.randrange(300) * dice.choice((1, 1, 30))
    if dice.random() < 0.4:
        m.pop(key, None)
    else:
        m[key] = bytes([i % 256]) * dice.choice((3, 90, 256))


def is_as(m, model, dice):
    keys = sorted(model)
    assert len(m) == len(keys) and bool(m) == bool(keys) and list(m) == keys and list(reversed(m)) == keys[::-1]
    assert list(m.items()) == [(key, model[key]) for key in keys] and list(m.values()) == [model[key] for key in keys] and m == model
    assert list(reversed(m.keys())) == keys[::-1] and m.keys() == model.keys() and m.items() == model.items()
    assert m.first() == ((keys[0], model[keys[0]]) if keys else None) and m.last() == ((keys[-1], model[keys[-1]]) if keys else None)
    for _ in range(20):
        low, high = (bytes(dice.choice(b"\0abz\xff") for _ in range(dice.randrange(4))) for _ in range(2))
        found = [(key, model[key]) for key in keys if low <= key < high]
        assert list(m.range(low, high)) == found == list(m.back(low, high))[::-1] and m.count(low, high) == len(found)
        assert [key for key, _ in m.range(low)] == [key for key in keys if low <= key]
        assert [key for key, _ in m.prefix(low)] == [key for key in keys if key.startswith(low)]
        most = dice.choice((0, 1, 99, 101))
        assert list(m.range(low, high, most)) == found[:most] and list(m.back(low, high, most)) == found[::-1][:most]
        assert m.next(low) == next(((key, model[key]) for key in keys if low < key), None)
        assert m.prev(low) == next(((key, model[key]) for key in reversed(keys) if key < low), None)


def snapshots(folder):
    with redo.open(folder) as s:
        for x in range(8):
            s.put(x, b"old %d" % x)
        before = [s[x] for x in range(8)]
        with s.snapshot() as old:
            refused(redo.InSnapshot, s.snapshot().__enter__)
            with s.transaction():
                s.put(0, b"new")
                s.swap(1, 2)
            with s.group():
                s.copy(0, 3)
            s.put(4, b"")
            assert old[0] == old.get(0) == b"old 0" and s[0] == b"new" and len(old) == 8
            assert list(old) == before and list(old.values(2, 3)) == before[2:4]
            refused(redo.NoObject, old.get, 8)
            old.dump(folder + "/dump.txt")
            try:
                old.dump(folder + "/dump.txt")
                raise AssertionError("it is written over")
            except FileExistsError:
                pass
            with open(folder + "/dump.txt") as file:
                lines = file.read().splitlines()
            assert lines == [f"{x} {value.hex()}" for x, value in enumerate(before)] + [f"commands {old.commands}"], lines
            os.unlink(folder + "/dump.txt")
        refused(redo.NoSnapshot, old.get, 0)
        try:
            with s.group(undo=True):
                s.put(0, b"never")
                with s.snapshot() as never:
                    assert never[0] == b"never"
                    raise KeyError
        except KeyError:
            pass
        with s.snapshot() as newer:
            assert newer[0] == s[0] == b"new"
            reader = threading.Thread(target=lambda: [s.put(0, b"%d" % i) for i in range(100)])
            reader.start()
            while reader.is_alive():
                assert newer[0] == b"new"
            assert newer[0] == b"new" and s[0] == b"99"


def applications(folder):
    with redo.open(folder) as s:
        s.put(0, b"hello")
        s.put(5, b"")
        s.put(6, b"")
        s.app_read(5, 0)
        s.app_exec(5)
        assert s.app_run(5, 10) == 4
        refused(redo.NoInput, s.app_exec, 5)
        s.app_write(5, 6)
        s.put(6, b"")
        s.program_read(6, 0)
        s.put(0, b"no program")
        refused(redo.NotCode, s.program_exec, 6, 0)
        refused(redo.NotCode, s.program_run, 6, 0, 1)
        s.program_write(6, 7)


def forks_and_kills(folder):
    with redo.open(folder) as s:
        if (child := os.fork()) == 0:
            try:
                s.put(0, b"child")
            except redo.NotOpen:
                os._exit(17)
            os._exit(1)
        assert os.waitstatus_to_exitcode(os.waitpid(child, 0)[1]) == 17
        s.put(0, b"parent")
        s.force()
    if (child := os.fork()) == 0:
        s = redo.open(folder)
        s.put(0, b"kept")
        s.force()
        with s.group():
            s.put(0, b"lost")
            s.put(1, b"lost")
            os.kill(os.getpid(), signal.SIGKILL)
    assert os.waitstatus_to_exitcode(os.waitpid(child, 0)[1]) == -signal.SIGKILL
    here = os.getcwd()
    with redo.open(os.path.relpath(folder)) as s:
        os.chdir("/")
        assert s.get(0) == b"kept" and s.get(1) != b"lost"
        s.force()
    os.chdir(here)


def threads(folder):
    with redo.open(folder) as s:
        before = s.stat().accepted

        def work(x):
            for i in range(200):
                s.put(x, b"%d" % i)
                assert s.get(x) == b"%d" % i

        workers = [threading.Thread(target=work, args=[x]) for x in range(4)]
        for worker in workers:
            worker.start()
        for worker in workers:
            worker.join()
        assert s.stat().accepted == before + 800


def fails(folder, words, is_open=False):
    """A process in which a call on a file fails, at once or when the store is open: what it raises, what it answers after that."""
    script = """
import ctypes, os, sys, redo
calls = ctypes.CDLL(os.environ["LD_PRELOAD"])
def raised(call, *words):
    try: call(*words)
    except redo.Error as e: return type(e).__name__ + (" " + os.strerror(e.detail[0]) if e.detail[0] else "")
s = redo.open(sys.argv[1])
s.put(0, b"one")
calls.read_words(os.environ["REDO_FAIL_OPEN"].encode())
print(raised(s.force), raised(s.get, 0), raised(s.force), s.is_open)
s.close()
print(raised(s.get, 0), raised(redo.open, "/nowhere"))
with redo.open(sys.argv[1]) as s: s.put(0, b"two"), s.force()
"""
    done = subprocess.run([sys.executable, "-B", "-c", script, folder], capture_output=True, text=True, env={
        **os.environ, "LD_PRELOAD": os.environ["REDO_CALLS"],
        "REDO_FAIL": "" if is_open else words, "REDO_FAIL_OPEN": words if is_open else "",
        "PYTHONPATH": os.path.dirname(os.path.dirname(os.path.abspath(redo.__file__)))})
    return done.stdout.splitlines() or [line.split(":")[0] for line in done.stderr.splitlines()[-1:]]


def faults(folder):
    fault = "DiskFault Input/output error"
    answers = [f"{fault} {fault} {fault} True", "NotOpen NoFolder No such file or directory"]
    for words in ("pwrite 1", "fdatasync 1"):
        assert fails(folder, words, is_open=True) == answers, (words, fails(folder, words, is_open=True))
    for words in ("fsync 1", "openat 1", "lseek 1", "pread 1"):
        assert fails(folder, words) == ["redo.DiskFault"], (words, fails(folder, words))
    for words in ("open 1", "flock 1"):
        assert fails(folder, words) == ["redo.NoFolder"]
    with redo.open(folder) as s:
        assert s.get(0) == b"two"


def main():
    folder = sys.argv[1] if len(sys.argv) > 1 else "."
    for test in (values, groups, undone, transactions, snapshots, upkept, backups, maps, pages, full_logs, kills_of_maps, applications, forks_and_kills, threads, *([faults] if "REDO_CALLS" in os.environ else [])):
        test(folder)
    print("test_redo.py: ok")


main()
