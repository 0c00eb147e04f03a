/* What upkeep and transactions cost: `upkeep redo|sqlite3|lmdb|file` in an empty folder. A line says a work, its seconds and how many
 * syncs it made, and of the work with calls how long the longest took, in milliseconds, and the longest but for one in a thousand.
 * bench/upkeep builds it with what is there of the three, and it calls their interfaces of C alone. `file` writes and syncs the same
 * bytes once, and makes the calls of a drain in rounds with nothing behind them. */
#define _GNU_SOURCE
#include <fcntl.h>
#include <stdint.h>
#include <stdio.h>
#include <stdlib.h>
#include <string.h>
#include <sys/mman.h>
#include <sys/stat.h>
#include <sys/syscall.h>
#include <time.h>
#include <unistd.h>

enum { OBJECTS = 26000, LENGTH = 1024, KEYS = 100000, NODES = 39000, BATCH = 1000, TRANSACTIONS = 1000, PUTS = 10, SHORT = 16 };

/* Upkeep: by the library itself after each command, or in pieces of so many nodes at most before each commit; and behind the last commit
 * in pieces of so many, to the end. */
typedef struct { int itself; uint64_t before, last; } upkeep_t;
static const upkeep_t by_itself = {1, 0, 1024}, in_pieces = {0, 16, 1024};
typedef struct { uint8_t at[8]; } word_t;

static void fail(const char *what) {
    fprintf(stderr, "upkeep: %s failed\n", what);
    exit(1);
}
#define MUST(what, done) do { if (!(done)) fail(what); } while (0)

/* The syncs of the libraries go through these; each takes as many milliseconds more as SYNC_MS says, as on a slower disk. */
static unsigned long syncs;
static struct timespec more;
static void count_sync(void) {
    syncs++;
    if (more.tv_nsec) nanosleep(&more, NULL);
}
int fsync(int file) { return count_sync(), (int)syscall(SYS_fsync, file); }
int fdatasync(int file) { return count_sync(), (int)syscall(SYS_fdatasync, file); }
int msync(void *at, size_t length, int flags) { return count_sync(), (int)syscall(SYS_msync, at, length, flags); }

/* What the work needs. `settle` brings to its place what is durable already; `tend` does a piece of that, and says whether any was
 * left; `keep_up` has the library do so by itself; `sync` makes durable what `commit` did not. Null is what a library has not. */
typedef struct {
    void (*open)(void), (*begin)(void), (*put)(uint32_t, const void *, size_t), (*set)(word_t, word_t), (*commit)(int durable);
    void (*sync)(void), (*settle)(void);
    int (*tend)(uint64_t most);
    void (*keep_up)(void), (*close)(void);
} peer_t;

#ifdef WITH_REDO
#include "redo.h"
static redo_t db = REDO_CLOSED;
static const redo_range_t tree = {0, NODES - 1};
static void redo_do(int32_t answer) { if (answer != REDO_OK) fail(redo_strerror(answer)); }
static void redo_start(void) { redo_do(redo_create(&db, ".", NODES, LENGTH, 536870912)); }
static void redo_set_object(uint32_t x, const void *v, size_t n) { redo_do(redo_put(&db, x, v, n)); }
static void redo_set(word_t k, word_t v) { redo_do(redo_tree_insert(&db, tree, &k, sizeof k, &v, sizeof v)); }
static void redo_sync(void) { redo_do(redo_force(&db, 0)); }
#ifdef WITH_TRANSACTIONS
static void redo_start_commands(void) { redo_do(redo_txn_begin(&db)); }
static void redo_commit(int durable) {
    redo_do(durable ? redo_txn_commit(&db) : redo_txn_commit_lazily(&db));
    if (durable) redo_sync();
}
static int redo_turn(uint64_t most) {
    uint64_t installed;
    return redo_do(redo_tend(&db, most, &installed)), installed > 0;
}
#else
static void redo_start_commands(void) { redo_do(redo_begin(&db)); }
static void redo_commit(int durable) {
    redo_do(redo_end(&db));
    if (durable) redo_sync();
}
#define redo_turn 0
#endif
static void redo_settle(void) { redo_do(redo_drain(&db)); }
static void redo_keep_up(void) { redo_do(redo_upkeep(&db, 1)); }
static void redo_stop(void) { redo_do(redo_close(&db)); }
static const peer_t redo_peer = {redo_start, redo_start_commands, redo_set_object, redo_set, redo_commit, redo_sync, redo_settle, redo_turn,
                                 redo_keep_up, redo_stop};
#endif

#ifdef WITH_SQLITE3
#include <sqlite3.h>
static sqlite3 *base;
static sqlite3_stmt *put_object, *set_key, *begin, *commit;
static sqlite3_stmt *prepared(const char *sql) {
    sqlite3_stmt *s;
    MUST(sql, sqlite3_prepare_v2(base, sql, -1, &s, 0) == SQLITE_OK);
    return s;
}
static void done(sqlite3_stmt *s) {
    MUST("step", sqlite3_step(s) == SQLITE_DONE);
    sqlite3_reset(s);
}
static void execute(const char *sql) { MUST(sql, sqlite3_exec(base, sql, 0, 0, 0) == SQLITE_OK); }
static void sqlite_start(void) {
    MUST("open", sqlite3_open("base", &base) == SQLITE_OK);
    execute("PRAGMA journal_mode=WAL; PRAGMA synchronous=FULL; PRAGMA wal_autocheckpoint=0;"
            "CREATE TABLE o (x INTEGER PRIMARY KEY, v BLOB NOT NULL); CREATE TABLE t (k BLOB PRIMARY KEY, v BLOB NOT NULL) WITHOUT ROWID;"
            "CREATE TABLE n (x INTEGER)");
    put_object = prepared("REPLACE INTO o VALUES (?1, ?2)"), set_key = prepared("REPLACE INTO t VALUES (?1, ?2)");
    begin = prepared("BEGIN"), commit = prepared("COMMIT");
}
static void sqlite_begin(void) { done(begin); }
static void sqlite_put(uint32_t x, const void *v, size_t n) {
    sqlite3_bind_int64(put_object, 1, x), sqlite3_bind_blob(put_object, 2, v, (int)n, SQLITE_STATIC), done(put_object);
}
static void sqlite_set(word_t k, word_t v) {
    sqlite3_bind_blob(set_key, 1, &k, sizeof k, SQLITE_STATIC), sqlite3_bind_blob(set_key, 2, &v, sizeof v, SQLITE_STATIC);
    done(set_key);
}
/* In WAL mode a commit syncs with synchronous=FULL, and not with NORMAL. */
static void sqlite_commit(int durable) {
    static int was = 1;
    done(commit);
    if (was != durable) execute(durable ? "PRAGMA synchronous=FULL" : "PRAGMA synchronous=NORMAL");
    was = durable;
}
static void sqlite_sync(void) { execute("PRAGMA synchronous=FULL; INSERT INTO n VALUES (1)"); }
static void sqlite_settle(void) { MUST("checkpoint", sqlite3_wal_checkpoint_v2(base, 0, SQLITE_CHECKPOINT_FULL, 0, 0) == SQLITE_OK); }
static void sqlite_stop(void) {
    sqlite3_stmt *all[] = {put_object, set_key, begin, commit};
    for (size_t i = 0; i < sizeof all / sizeof *all; i++) sqlite3_finalize(all[i]);
    sqlite3_close(base);
}
static const peer_t sqlite_peer = {sqlite_start, sqlite_begin, sqlite_put, sqlite_set, sqlite_commit, sqlite_sync, sqlite_settle, 0,
                                   0, sqlite_stop};
#endif

#ifdef WITH_LMDB
#include <lmdb.h>
static MDB_env *env;
static MDB_txn *txn;
static MDB_dbi dbi;
static void lmdb_start(void) {
    MUST("open", !mdb_env_create(&env) && !mdb_env_set_mapsize(env, (size_t)1 << 30) && !mdb_env_open(env, ".", 0, 0644));
}
static void lmdb_begin(void) { MUST("begin", !mdb_txn_begin(env, 0, 0, &txn) && !mdb_dbi_open(txn, 0, 0, &dbi)); }
static void lmdb_write(MDB_val k, const void *v, size_t n) {
    MDB_val value = {n, (void *)v};
    MUST("put", !mdb_put(txn, dbi, &k, &value, 0));
}
static void lmdb_put(uint32_t x, const void *v, size_t n) { lmdb_write((MDB_val){sizeof x, &x}, v, n); }
static void lmdb_set(word_t k, word_t v) { lmdb_write((MDB_val){sizeof k, &k}, &v, sizeof v); }
static void lmdb_commit(int durable) {
    MUST("flags", !mdb_env_set_flags(env, MDB_NOSYNC, !durable));
    MUST("commit", !mdb_txn_commit(txn));
}
static void lmdb_sync(void) { MUST("sync", !mdb_env_sync(env, 1)); }
static void lmdb_stop(void) { mdb_env_close(env); }
static const peer_t lmdb_peer = {lmdb_start, lmdb_begin, lmdb_put, lmdb_set, lmdb_commit, lmdb_sync, 0, 0, 0, lmdb_stop};
#endif

/* The i-th key: a bijection, so that no two are the same. */
static word_t key_of(uint64_t i) {
    word_t key;
    i = (i + 1) * 0x9e3779b97f4a7c15u, i ^= i >> 29, i *= 0xbf58476d1ce4e5b9u;
    memcpy(&key, &i, sizeof key);
    return key;
}

static double now(void) {
    struct timespec t;
    clock_gettime(CLOCK_MONOTONIC, &t);
    return (double)t.tv_sec + 1e-9 * (double)t.tv_nsec;
}

static double began;
static unsigned long synced;
static void start(void) { synced = syncs, began = now(); }
static void say(const char *work) { printf("%s: %.3f %lu\n", work, now() - began, syncs - synced); }

/* Puts a new value of the length into each object, so that all of them wait to be brought to their places. */
static void fill(const peer_t *peer, int round) {
    uint8_t value[LENGTH];
    for (uint32_t x = 0; x < OBJECTS; x++) {
        memset(value, (int)x + round, sizeof value);
        peer->put(x, value, sizeof value);
    }
}

static void drain(const peer_t *peer) {
    peer->begin(), fill(peer, 0);
    if (peer->settle) {
        peer->commit(1);
        start(), peer->settle();
    } else
        start(), peer->commit(1);
    say("drain");
}

static void transactions(const peer_t *peer, int durable) {
    uint8_t value[SHORT];
    start();
    for (uint32_t i = 0; i < TRANSACTIONS; i++) {
        peer->begin();
        for (uint32_t k = 0; k < PUTS; k++) {
            memset(value, (int)(i + k), sizeof value);
            peer->put((i * PUTS + k) * 7919 % 4000, value, sizeof value);
        }
        peer->commit(durable);
    }
    if (!durable) peer->sync();
    say(durable ? "transactions durable" : "transactions in a force");
}

static double took[KEYS + KEYS / BATCH * 2];
static int by_length(const void *a, const void *b) {
    double x = *(const double *)a, y = *(const double *)b;
    return (x > y) - (x < y);
}

/* Keys into an index, a commit after each thousand, and upkeep, to the end of the last piece. */
static void index_keys(const peer_t *peer, int is_redo, upkeep_t upkeep, const char *work) {
    size_t calls = 0;
    if (peer->keep_up && upkeep.itself) peer->keep_up();
    start();
    for (uint32_t i = 0; i < KEYS; i++) {
        double at = now();
        if (!is_redo && i % BATCH == 0) peer->begin();
        peer->set(key_of(i), key_of(i + KEYS));
        took[calls++] = now() - at;
        if ((i + 1) % BATCH == 0) {
            if (peer->tend && upkeep.before) at = now(), peer->tend(upkeep.before), took[calls++] = now() - at;
            at = now();
            if (is_redo) peer->sync(); else peer->commit(1);
            took[calls++] = now() - at;
        }
    }
    while (peer->tend && peer->tend(upkeep.last)) {}
    if (peer->settle) peer->settle();
    double end = now() - began;
    qsort(took, calls, sizeof *took, by_length);
    printf("%s: %.3f %lu %.1f %.1f\n", work, end, syncs - synced, 1e3 * took[calls - 1], 1e3 * took[calls - 1 - calls / 1000]);
}

static void in_folder(const char *name, const peer_t *peer, void (*work)(const peer_t *)) {
    MUST("a folder", mkdir(name, 0777) == 0 && chdir(name) == 0);
    peer->open(), work(peer), peer->close();
    MUST("a folder", chdir("..") == 0);
}

static void durable(const peer_t *peer) { transactions(peer, 1); }
static void in_a_force(const peer_t *peer) { transactions(peer, 0); }
static void keys_of_redo(const peer_t *peer) { index_keys(peer, 1, by_itself, "index"); }
static void keys_in_small_pieces(const peer_t *peer) { index_keys(peer, 1, in_pieces, "index in small pieces"); }
static void keys(const peer_t *peer) { index_keys(peer, 0, by_itself, "index"); }

/* The bytes of a drain, written and synced once. */
static void write_once(void) {
    static uint8_t bytes[OBJECTS][LENGTH];
    int file = open("bytes", O_CREAT | O_RDWR, 0666);
    MUST("open", file >= 0);
    memset(bytes, 1, sizeof bytes);
    start();
    for (size_t at = 0; at < sizeof bytes; at += LENGTH * 1000) MUST("write", pwrite(file, (uint8_t *)bytes + at, LENGTH * 1000, (off_t)at) == LENGTH * 1000);
    MUST("sync", fdatasync(file) == 0);
    say("drain");
}

/* The same values into slots of a new objects file, in rounds: behind a closed gate, a sync, the gates, a sync. */
static void write_slots(void) {
    enum { SLOT = LENGTH + 13, ROUND = 1024 };
    static uint8_t slot[SLOT];
    int file = open("slots", O_CREAT | O_RDWR, 0666);
    MUST("open", file >= 0 && ftruncate(file, (off_t)NODES * 2 * SLOT) == 0);
    memset(slot, 1, sizeof slot);
    start();
    for (uint32_t from = 0; from < OBJECTS; from += ROUND) {
        uint32_t to = from + ROUND < OBJECTS ? from + ROUND : OBJECTS;
        for (uint32_t x = from; x < to; x++) MUST("write", pwrite(file, slot + 1, SLOT - 1, (off_t)x * 2 * SLOT + 1) == SLOT - 1);
        MUST("sync", fdatasync(file) == 0);
        for (uint32_t x = from; x < to; x++) MUST("write", pwrite(file, slot, 1, (off_t)x * 2 * SLOT) == 1);
        MUST("sync", fdatasync(file) == 0);
    }
    say("slots");
}

int main(int argc, char **argv) {
    static const struct { const char *name; const peer_t *peer; } peers[] = {
#ifdef WITH_REDO
        {"redo", &redo_peer},
#endif
#ifdef WITH_SQLITE3
        {"sqlite3", &sqlite_peer},
#endif
#ifdef WITH_LMDB
        {"lmdb", &lmdb_peer},
#endif
    };
    const peer_t *peer = 0;
    const char *slower = getenv("SYNC_MS");
    if (slower) more.tv_nsec = strtol(slower, 0, 10) % 1000 * 1000000;
    MUST("the name", argc > 1);
    if (strcmp(argv[1], "file") == 0) return write_once(), write_slots(), 0;
    for (size_t i = 0; i < sizeof peers / sizeof *peers; i++)
        if (strcmp(peers[i].name, argv[1]) == 0) peer = peers[i].peer;
    MUST("the name", peer);
    in_folder("drain", peer, drain);
    in_folder("durable", peer, durable);
    in_folder("force", peer, in_a_force);
    int is_redo = strcmp(argv[1], "redo") == 0;
    in_folder("index", peer, is_redo ? keys_of_redo : keys);
    if (is_redo) in_folder("pieces", peer, keys_in_small_pieces);
    return 0;
}
