"""Calls a second of processor time and of the clock, each by the least of three runs: library.py redo|pages|sqlite3, as bench/library.c
has it."""
import os
import sqlite3
import sys
import time

OBJECTS, LENGTH, COMMANDS, KEYS, NODES, FORCED, BATCH, RUNS = 64, 64, 100_000, 20_000, 8191, 2_000, 1_000, 3


def key_of(i):
    i = (i + 1) * 0x9E3779B97F4A7C15 & (1 << 64) - 1
    i = (i ^ i >> 29) * 0xBF58476D1CE4E5B9 & (1 << 64) - 1
    return i.to_bytes(8, "little")


def measured(count, batch, each, commit):
    start = time.process_time(), time.monotonic()
    for i in range(0, count, batch):
        for k in range(i, i + batch):
            each(k)
        commit()
    return time.process_time() - start[0], time.monotonic() - start[1]


def redo_work(pages=False):
    import redo

    with redo.create(".", objects=OBJECTS + NODES, cap=4096 if pages else 1024, limit=536870912, pages=pages) as s:
        tree = (s.map if pages else s.tree)(OBJECTS, OBJECTS + NODES - 1)

        def put(i):
            s.put(i % OBJECTS, VALUES[i & 255])

        yield "put", COMMANDS, BATCH, put, s.force
        yield "put forced", FORCED, 1, put, s.force
        yield "copy", COMMANDS, BATCH, lambda i: s.copy(i % 7, 8 + i % (OBJECTS - 8)), s.force
        yield "get", COMMANDS, COMMANDS, lambda i: s.get(i % OBJECTS), s.force
        yield "tree set", KEYS, BATCH, lambda i: tree.__setitem__(WORDS[i], WORDS[i]), s.force
        yield "tree get", COMMANDS, COMMANDS, lambda i: tree[WORDS[i * 7919 % KEYS]], s.force


def sqlite_work():
    base = sqlite3.connect("base", isolation_level=None)
    run = base.execute
    for line in ("PRAGMA journal_mode=WAL", "PRAGMA synchronous=FULL", "PRAGMA wal_autocheckpoint=0",
                 "CREATE TABLE o (x INTEGER PRIMARY KEY, v BLOB NOT NULL)",
                 "CREATE TABLE t (k BLOB PRIMARY KEY, v BLOB NOT NULL) WITHOUT ROWID", "BEGIN"):
        run(line)

    def commit():
        run("COMMIT")
        run("BEGIN")

    def put(i):
        run("REPLACE INTO o VALUES (?, ?)", (i % OBJECTS, VALUES[i & 255]))

    yield "put", COMMANDS, BATCH, put, commit
    yield "put forced", FORCED, 1, put, commit
    yield "copy", COMMANDS, BATCH, lambda i: run("REPLACE INTO o VALUES (?, (SELECT v FROM o WHERE x = ?))", (8 + i % (OBJECTS - 8), i % 7)), commit
    yield "get", COMMANDS, COMMANDS, lambda i: run("SELECT v FROM o WHERE x = ?", (i % OBJECTS,)).fetchone()[0], commit
    yield "tree set", KEYS, BATCH, lambda i: run("REPLACE INTO t VALUES (?, ?)", (WORDS[i], WORDS[i])), commit
    yield "tree get", COMMANDS, COMMANDS, lambda i: run("SELECT v FROM t WHERE k = ?", (WORDS[i * 7919 % KEYS],)).fetchone()[0], commit
    base.close()


VALUES = [bytes([i]) * LENGTH for i in range(256)]
WORDS = [key_of(i) for i in range(KEYS)]
best = {}
for number in range(RUNS):
    os.mkdir(str(number))
    os.chdir(str(number))
    for work, count, batch, each, commit in {"redo": redo_work, "pages": lambda: redo_work(True), "sqlite3": sqlite_work}[sys.argv[1]]():
        speeds = [count / took for took in measured(count, batch, each, commit)]
        best[work] = [max(pair) for pair in zip(best.get(work, speeds), speeds)]
    os.chdir("..")
for work, speeds in best.items():
    print(f"{work}: {speeds[0]:.0f} {speeds[1]:.0f}")
