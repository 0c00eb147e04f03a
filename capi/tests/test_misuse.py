"""Calls of the module that are cut short or refused, on the library that LIBREDO names: test_misuse.py FOLDER, an empty one."""
import asyncio
import contextlib
import copy
import ctypes
import os
import pickle
import random
import signal
import subprocess
import sys
import threading
import time

sys.dont_write_bytecode = True
sys.path.insert(0, os.path.join(os.path.dirname(os.path.abspath(__file__)), os.pardir))
import redo  # noqa: E402


class Interrupt(BaseException):
    """What the handler of a signal raises, as Ctrl-C does."""


def refused(error, call, *words):
    try:
        call(*words)
    except error as e:
        assert type(e) is error, e
        return e
    raise AssertionError(f"{error.__name__} was not raised")


def interrupts(work, check, seconds=1):
    """Does work again and again, and an exception comes at any moment of it. After each the check is made, while it is still at
    hand."""
    if sys.version_info < (3, 10):      # which may lose the end of any `with`
        return
    armed = False

    def raise_it(*_):
        nonlocal armed
        if armed:
            armed = False
            raise Interrupt

    signal.signal(signal.SIGALRM, raise_it)
    longest, count, end = 1e-4, 0, time.monotonic() + seconds
    while time.monotonic() < end or count <= 20 and time.monotonic() < end + 60:      # (on a busy machine few fit into a second)
        started = time.perf_counter()
        try:
            armed = True
            signal.setitimer(signal.ITIMER_REAL, random.uniform(1e-6, longest))
            work()
            armed = False
            longest = 0.9 * longest + 0.1 * (time.perf_counter() - started)
        except Interrupt:
            count += 1
            check()
    assert count > 20, count


@contextlib.contextmanager
def meanwhile(work):
    """Another thread works."""
    done = threading.Event()

    def go_on():
        while not done.is_set():
            work()

    worker = threading.Thread(target=go_on)
    worker.start()
    try:
        yield
    finally:
        done.set()
        worker.join()


def interrupted_groups(folder):
    """A group is over when its `with` is."""
    with redo.create(folder, 8, 1024, 1 << 20) as s:
        def work():
            with s.group() as group:
                assert group is s
                s.put(0, b"one")
                s.put(1, b"two")

        def check():
            other = threading.Thread(target=s.get, args=[0])
            other.start()
            other.join()
            s.force()
            if s.stat().used > 1 << 19:
                s.drain()
                s.trim()

        interrupts(work, check)


def interrupted_work(folder):
    """A transaction, and a group that is undone, are whole or nothing, and over when their `with` is."""
    with redo.create(folder, 8, 1024, 1 << 20) as s:
        for begin in (s.transaction, lambda: s.group(undo=True)):
            def work():
                n = b"%d" % random.randrange(1000)
                with begin():
                    s.put(0, n)
                    s.put(1, n)

            def check():
                other = threading.Thread(target=s.stat)
                other.start()
                other.join()
                assert s.get(0) == s.get(1)
                s.force()
                if s.stat().used > 1 << 19:
                    s.drain()
                    s.trim()

            interrupts(work, check)


def interrupted_backups(folder):
    """A backup is over when its `with` is: it is whole, or given up, and its folder is let go."""
    target = folder + "/copy"
    os.mkdir(target)
    with redo.create(folder, 8, 1024, 1 << 20) as s:
        s.put(0, b"saved")

        def work():
            for name in os.listdir(target):
                os.remove(target + "/" + name)
            with s.backing_up(target) as backup:
                backup.copy(3)

        def check():
            s.trim()
            try:
                with redo.open(target) as saved:
                    assert saved[0] == b"saved"
            except (redo.NotAStore, redo.Damaged):
                pass

        interrupts(work, check)
        with contextlib.ExitStack() as stack:
            stack.enter_context(s.group())
            refused(redo.InGroup, s.force)
        s.force()
        with contextlib.ExitStack() as stack:
            for name in os.listdir(target):
                os.remove(target + "/" + name)
            assert stack.enter_context(s.backing_up(target)).copy(1) == 1
        s.trim()
        with redo.open(target) as saved:
            assert saved[0] == b"saved"


def interrupted_opens(folder):
    """A store that no one was given is closed."""
    redo.create(folder, 8, 64, 65536).close()
    given = []

    def work():
        given.clear()
        given.append(redo.open(folder))
        given[0].close()

    def check():
        for s in given:
            s.close()
        redo.open(folder).close()

    interrupts(work, check)


def ended_groups(folder):
    """A call ends a group before its `with` does."""
    with redo.create(folder, 8, 1024, 1 << 20) as s:
        assert s.end_group() is False
        with s.group():
            s.put(0, b"one")
            refused(redo.InGroup, s.force)
            refused(redo.InGroup, s.group().__enter__)
            assert s.end_group() is True
            s.force()
        s.force()
        with s.group(), contextlib.suppress(redo.NotOpen):
            s.close()
            s.put(0, b"two")
        refused(redo.NotOpen, s.group().__enter__)
        refused(redo.NotOpen, s.force)


def calls_within_calls(folder):
    """A handler's call in the middle of another one is Busy, or each has its own answer."""
    with redo.create(folder, 8, 1024, 1 << 20) as s:
        tree, outcomes = s.tree(2, 7), {"busy": 0, "answered": 0}
        s.put(0, b"zero")
        s.put(1, b"one" * 300)
        for i in range(10):
            tree[b"%d" % i] = b"v"

        def handler(*_):
            try:
                assert s.get(1) == b"one" * 300 and len(list(tree.range(b"3", b"5"))) == 2
                outcomes["answered"] += 1
            except redo.Busy:
                outcomes["busy"] += 1

        signal.signal(signal.SIGALRM, handler)
        signal.setitimer(signal.ITIMER_REAL, 1e-4, 1e-4)
        end = time.monotonic() + 1
        while time.monotonic() < end:
            assert s.get(0) == b"zero"
            assert len(list(tree.range())) == 10
        signal.setitimer(signal.ITIMER_REAL, 0)
        assert outcomes["busy"], outcomes


def tasks(folder):
    """A task has no part in the group of another one, which may be waiting for something else."""
    with redo.create(folder, 8, 1024, 1 << 20) as s:
        async def group(begun, end):
            with s.group():
                s.put(0, b"in the group")
                begun.set()
                await end.wait()
                s.put(1, b"in the group")

        async def main():
            begun, end = asyncio.Event(), asyncio.Event()
            first = asyncio.create_task(group(begun, end))
            await begun.wait()
            for call in (s.force, s.stat, s.close, s.group().__enter__, lambda: s.put(2, b"not in it")):
                refused(redo.Busy, call)
            end.set()
            await first
            s.put(2, b"behind it")
            with s.group():
                s.put(3, b"of the main task")
            s.force()

        asyncio.run(main())
        assert s.get(1) == b"in the group" and s.get(2) == b"behind it"


def copies(folder):
    with redo.create(folder, 8, 1024, 1 << 20) as s:
        for make in (copy.copy, copy.deepcopy, pickle.dumps):
            refused(TypeError, make, s)
        s.put(0, b"open")
        assert copy.copy(s.tree(1, 3))._store is s


def lets_go(s, folder):
    """What a child ends with: 0 where its parent's store is not open in it, and none of its files."""
    files = [f"/proc/self/fd/{n}" for n in os.listdir("/proc/self/fd")]
    if any(os.path.realpath(file).startswith(os.path.realpath(folder)) for file in files):
        return 1
    try:
        s.get(0)
    except redo.NotOpen:
        return 0
    return 2


def ends_with(child):
    return os.waitstatus_to_exitcode(os.waitpid(child, 0)[1])


def forks(folder):
    """A child lets its parent's stores go, though another thread of that was in the middle of a call, or it was in a group."""
    with redo.create(folder, 8, 65536, 1 << 24) as s:
        def work():
            s.put(0, bytes(65536))
            s.drain()
            s.trim()

        with meanwhile(work):
            for _ in range(40):
                if (child := os.fork()) == 0:
                    os._exit(lets_go(s, folder))
                assert ends_with(child) == 0
        child = -1
        with s.group():
            s.put(1, b"of the parent")
            child = os.fork()
            if child == 0:
                refused(redo.NotOpen, s.put, 1, b"of the child")
        if child == 0:
            os._exit(lets_go(s, folder))
        assert ends_with(child) == 0
        s.force()


def programs(folder):
    """A store that is closed is let go, though another thread starts programs."""
    redo.create(folder, 8, 64, 65536).close()
    with meanwhile(lambda: subprocess.run(["true"], preexec_fn=lambda: time.sleep(0.002))):
        for _ in range(300):
            redo.open(folder).close()


def words(folder):
    """Numbers, paths and keys that are none."""
    with redo.create(folder, 64, 1024, 1 << 20) as s:
        tree, index = s.tree(0, 31), s.hash(32, 63)
        for count in (-1, 1 << 64):
            refused(ValueError, s.app_run, 0, count)
            refused(ValueError, s.program_run, 0, 1, count)
        for number in (1.5, "1", None, b"1"):
            refused(TypeError, s.put, number, b"")
            refused(TypeError, s.app_run, 0, number)
            refused(TypeError, s.tree, number, 3)
            refused(TypeError, redo.create, folder, number, 64, 65536)
        assert s.app_run(0, (1 << 64) - 1) == 0
        for path in (folder + "\0", b"\0", folder + "\0/copy"):
            refused(ValueError, redo.open, path)
            refused(ValueError, redo.create, path, 8, 64, 65536)
            refused(ValueError, s.backup, path)
        for map in (tree, index):
            map[b"k"] = b"v"
            assert b"k" in map and b"" not in map and b"k" * 33 not in map and "k" not in map and 5 not in map
            refused(redo.BadKey, map.__getitem__, b"")
        huge = memoryview(ctypes.create_string_buffer(64 << 20))
        refused(redo.TooLarge, s.put, 0, huge)
        refused(redo.BadKey, tree.set, b"k", huge)
        os.mkdir(folder + "/copy")
        with s.backing_up(folder + "/copy") as backup:
            refused(ValueError, backup.copy, -1)
            refused(ValueError, backup.copy, 1 << 32)
        assert s
    assert not s
    assert redo.Store() is not None and not redo.Store()


def main():
    folder = sys.argv[1] if len(sys.argv) > 1 else "."
    for test in (interrupted_groups, interrupted_work, interrupted_backups, interrupted_opens, ended_groups, calls_within_calls, tasks, copies, forks, programs, words):
        os.mkdir(f"{folder}/{test.__name__}")
        if sys.argv[2:] in ([], [test.__name__]):
            test(f"{folder}/{test.__name__}")
    print("test_misuse.py: ok")


main()
