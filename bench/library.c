/* Calls a second of processor time and of the clock, each by the least of three runs: `library redo|pages|sqlite3|lmdb|leveldb` in an
 * empty folder. A line says the work and the two numbers. bench/library builds it with what is there of the four, and it calls
 * their interfaces of C alone. */
#include <stdint.h>
#include <stdio.h>
#include <stdlib.h>
#include <string.h>
#include <sys/stat.h>
#include <time.h>
#include <unistd.h>

enum { OBJECTS = 64, LENGTH = 64, COMMANDS = 200000, KEYS = 20000, NODES = 8191, FORCED = 2000, BATCH = 1000, RUNS = 3 };
typedef struct { uint8_t at[8]; } word_t;

static void fail(const char *what) {
    fprintf(stderr, "library: %s failed\n", what);
    exit(1);
}
#define MUST(what, done) do { if (!(done)) fail(what); } while (0)

/* What the work needs of a library: objects, an ordered map, and `commit`, which makes durable what was written. */
typedef struct {
    void (*open)(void), (*put)(uint32_t, const void *, size_t), (*copy)(uint32_t, uint32_t);
    size_t (*get)(uint32_t, void *, size_t);
    void (*set)(word_t, word_t);
    size_t (*find)(word_t, void *, size_t);
    void (*commit)(void), (*close)(void);
} peer_t;

#ifdef WITH_REDO
#include "redo.h"
static redo_t db = REDO_CLOSED;
static const redo_range_t tree = {OBJECTS, OBJECTS + NODES - 1};
static void redo_do(int32_t answer) { if (answer != REDO_OK) fail(redo_strerror(answer)); }
static void redo_start(void) { redo_do(redo_create(&db, ".", OBJECTS + NODES, 1024, 536870912)); }
static void redo_set_object(uint32_t x, const void *v, size_t n) { redo_do(redo_put(&db, x, v, n)); }
static void redo_copy_object(uint32_t x, uint32_t y) { redo_do(redo_copy(&db, x, y)); }
static size_t redo_get_object(uint32_t x, void *into, size_t room) {
    uint64_t n;
    return redo_do(redo_get(&db, x, into, room, &n)), n;
}
static void redo_set(word_t k, word_t v) { redo_do(redo_tree_insert(&db, tree, &k, sizeof k, &v, sizeof v)); }
static size_t redo_find(word_t k, void *into, size_t room) {
    uint64_t n;
    return redo_do(redo_tree_get(&db, tree, &k, sizeof k, into, room, &n)), n;
}
static void redo_commit(void) { redo_do(redo_force(&db, 0)); }
static void redo_stop(void) { redo_do(redo_close(&db)); }
static const peer_t redo_peer = {redo_start, redo_set_object, redo_copy_object, redo_get_object, redo_set, redo_find, redo_commit,
                                 redo_stop};
/* The same with a map of wide pages in the tree's place. */
static void pages_start(void) { redo_do(redo_create_pages(&db, ".", OBJECTS + NODES, 4096, 536870912)); }
static void pages_set(word_t k, word_t v) { redo_do(redo_map_set(&db, tree, &k, sizeof k, &v, sizeof v)); }
static size_t pages_find(word_t k, void *into, size_t room) {
    uint64_t n;
    return redo_do(redo_map_get(&db, tree, &k, sizeof k, into, room, &n)), n;
}
static const peer_t pages_peer = {pages_start, redo_set_object, redo_copy_object, redo_get_object, pages_set, pages_find, redo_commit,
                                  redo_stop};
#endif

#ifdef WITH_SQLITE3
#include <sqlite3.h>
static sqlite3 *base;
static sqlite3_stmt *put_object, *copy_object, *get_object, *set_key, *get_key, *begin, *commit;
static sqlite3_stmt *prepared(const char *sql) {
    sqlite3_stmt *s;
    MUST(sql, sqlite3_prepare_v2(base, sql, -1, &s, 0) == SQLITE_OK);
    return s;
}
static void done(sqlite3_stmt *s) {
    MUST("step", sqlite3_step(s) == SQLITE_DONE);
    sqlite3_reset(s);
}
static size_t found(sqlite3_stmt *s, void *into, size_t room) {
    MUST("step", sqlite3_step(s) == SQLITE_ROW);
    size_t n = (size_t)sqlite3_column_bytes(s, 0);
    memcpy(into, sqlite3_column_blob(s, 0), n < room ? n : room);
    sqlite3_reset(s);
    return n;
}
static void sqlite_start(void) {
    MUST("open", sqlite3_open("base", &base) == SQLITE_OK);
    MUST("tables", sqlite3_exec(base, "PRAGMA journal_mode=WAL; PRAGMA synchronous=FULL; PRAGMA wal_autocheckpoint=0;"
                                      "CREATE TABLE o (x INTEGER PRIMARY KEY, v BLOB NOT NULL);"
                                      "CREATE TABLE t (k BLOB PRIMARY KEY, v BLOB NOT NULL) WITHOUT ROWID", 0, 0, 0) == SQLITE_OK);
    put_object = prepared("REPLACE INTO o VALUES (?1, ?2)");
    copy_object = prepared("REPLACE INTO o VALUES (?2, (SELECT v FROM o WHERE x = ?1))");
    get_object = prepared("SELECT v FROM o WHERE x = ?1"), begin = prepared("BEGIN"), commit = prepared("COMMIT");
    set_key = prepared("REPLACE INTO t VALUES (?1, ?2)"), get_key = prepared("SELECT v FROM t WHERE k = ?1");
    done(begin);
}
static void sqlite_put(uint32_t x, const void *v, size_t n) {
    sqlite3_bind_int64(put_object, 1, x), sqlite3_bind_blob(put_object, 2, v, (int)n, SQLITE_STATIC), done(put_object);
}
static void sqlite_copy(uint32_t x, uint32_t y) {
    sqlite3_bind_int64(copy_object, 1, x), sqlite3_bind_int64(copy_object, 2, y), done(copy_object);
}
static size_t sqlite_get(uint32_t x, void *into, size_t room) {
    return sqlite3_bind_int64(get_object, 1, x), found(get_object, into, room);
}
static void sqlite_set(word_t k, word_t v) {
    sqlite3_bind_blob(set_key, 1, &k, sizeof k, SQLITE_STATIC), sqlite3_bind_blob(set_key, 2, &v, sizeof v, SQLITE_STATIC);
    done(set_key);
}
static size_t sqlite_find(word_t k, void *into, size_t room) {
    return sqlite3_bind_blob(get_key, 1, &k, sizeof k, SQLITE_STATIC), found(get_key, into, room);
}
static void sqlite_commit(void) { done(commit), done(begin); }
static void sqlite_stop(void) {
    sqlite3_stmt *all[] = {put_object, copy_object, get_object, set_key, get_key, begin, commit};
    for (size_t i = 0; i < sizeof all / sizeof *all; i++) sqlite3_finalize(all[i]);
    sqlite3_close(base);
}
static const peer_t sqlite_peer = {sqlite_start, sqlite_put, sqlite_copy, sqlite_get, sqlite_set, sqlite_find, sqlite_commit,
                                   sqlite_stop};
#endif

#ifdef WITH_LMDB
#include <lmdb.h>
static MDB_env *env;
static MDB_txn *txn;
static MDB_dbi dbi;
static void lmdb_begin(void) { MUST("begin", !mdb_txn_begin(env, 0, 0, &txn) && !mdb_dbi_open(txn, 0, 0, &dbi)); }
static void lmdb_start(void) {
    MUST("open", !mdb_env_create(&env) && !mdb_env_set_mapsize(env, (size_t)1 << 30) && !mdb_env_open(env, ".", 0, 0644));
    lmdb_begin();
}
static void lmdb_write(MDB_val k, const void *v, size_t n) {
    MDB_val value = {n, (void *)v};
    MUST("put", !mdb_put(txn, dbi, &k, &value, 0));
}
static size_t lmdb_read(MDB_val k, void *into, size_t room) {
    MDB_val v;
    MUST("get", !mdb_get(txn, dbi, &k, &v));
    memcpy(into, v.mv_data, v.mv_size < room ? v.mv_size : room);
    return v.mv_size;
}
static void lmdb_put(uint32_t x, const void *v, size_t n) { lmdb_write((MDB_val){sizeof x, &x}, v, n); }
static size_t lmdb_get(uint32_t x, void *into, size_t room) { return lmdb_read((MDB_val){sizeof x, &x}, into, room); }
static void lmdb_copy(uint32_t x, uint32_t y) {
    uint8_t value[LENGTH];
    lmdb_put(y, value, lmdb_get(x, value, sizeof value));
}
static void lmdb_set(word_t k, word_t v) { lmdb_write((MDB_val){sizeof k, &k}, &v, sizeof v); }
static size_t lmdb_find(word_t k, void *into, size_t room) { return lmdb_read((MDB_val){sizeof k, &k}, into, room); }
static void lmdb_commit(void) {
    MUST("commit", !mdb_txn_commit(txn));
    lmdb_begin();
}
static void lmdb_stop(void) { mdb_txn_abort(txn), mdb_env_close(env); }
static const peer_t lmdb_peer = {lmdb_start, lmdb_put, lmdb_copy, lmdb_get, lmdb_set, lmdb_find, lmdb_commit, lmdb_stop};
#endif

#ifdef WITH_LEVELDB
#include <leveldb/c.h>
static leveldb_t *level;
static leveldb_options_t *options;
static leveldb_readoptions_t *reading;
static leveldb_writeoptions_t *quick, *stable;
static void level_start(void) {
    char *error = 0;
    options = leveldb_options_create(), reading = leveldb_readoptions_create();
    quick = leveldb_writeoptions_create(), stable = leveldb_writeoptions_create();
    leveldb_options_set_create_if_missing(options, 1), leveldb_writeoptions_set_sync(stable, 1);
    level = leveldb_open(options, ".", &error);
    MUST("open", !error);
}
static void level_write(leveldb_writeoptions_t *how, const void *k, size_t kn, const void *v, size_t n) {
    char *error = 0;
    leveldb_put(level, how, k, kn, v, n, &error);
    MUST("put", !error);
}
static size_t level_read(const void *k, size_t kn, void *into, size_t room) {
    char *error = 0;
    size_t n;
    char *v = leveldb_get(level, reading, k, kn, &n, &error);
    MUST("get", v && !error);
    memcpy(into, v, n < room ? n : room);
    leveldb_free(v);
    return n;
}
static void level_put(uint32_t x, const void *v, size_t n) { level_write(quick, &x, sizeof x, v, n); }
static size_t level_get(uint32_t x, void *into, size_t room) { return level_read(&x, sizeof x, into, room); }
static void level_copy(uint32_t x, uint32_t y) {
    uint8_t value[LENGTH];
    level_put(y, value, level_get(x, value, sizeof value));
}
static void level_set(word_t k, word_t v) { level_write(quick, &k, sizeof k, &v, sizeof v); }
static size_t level_find(word_t k, void *into, size_t room) { return level_read(&k, sizeof k, into, room); }
static void level_commit(void) { level_write(stable, "commit", 6, "", 0); }     /* a sync takes what was written before along */
static void level_stop(void) {
    leveldb_close(level);
    leveldb_options_destroy(options), leveldb_readoptions_destroy(reading);
    leveldb_writeoptions_destroy(quick), leveldb_writeoptions_destroy(stable);
}
static const peer_t level_peer = {level_start, level_put, level_copy, level_get, level_set, level_find, level_commit, level_stop};
#endif

/* The i-th key: a bijection, so that no two are the same. */
static word_t key_of(uint64_t i) {
    word_t key;
    i = (i + 1) * 0x9e3779b97f4a7c15u, i ^= i >> 29, i *= 0xbf58476d1ce4e5b9u;
    memcpy(&key, &i, sizeof key);
    return key;
}

enum { PROCESSOR, CLOCK, CLOCKS };
static const clockid_t clocks[CLOCKS] = {CLOCK_PROCESS_CPUTIME_ID, CLOCK_MONOTONIC};

static double seconds(int clock) {
    struct timespec t;
    clock_gettime(clocks[clock], &t);
    return (double)t.tv_sec + 1e-9 * (double)t.tv_nsec;
}

enum { PUT, PUT_FORCED, COPY, GET, SET, FIND, WORKS };
static const char *const titles[WORKS] = {"put", "put forced", "copy", "get", "tree set", "tree get"};
static const int counts[WORKS] = {COMMANDS, FORCED, COMMANDS, COMMANDS, KEYS, COMMANDS};
/* A commit comes after so many. */
static const int batches[WORKS] = {BATCH, 1, BATCH, COMMANDS, BATCH, COMMANDS};

static void operate(const peer_t *peer, int work, uint32_t i) {
    uint8_t value[LENGTH];
    size_t n = 0;
    switch (work) {
    case PUT:
    case PUT_FORCED:
        memset(value, (int)i, sizeof value);
        peer->put(i % OBJECTS, value, sizeof value);
        break;
    case COPY: peer->copy(i % 7, 8 + i % (OBJECTS - 8)); break;
    case GET:
        n = peer->get(i % OBJECTS, value, sizeof value);
        MUST("get", n == LENGTH);
        break;
    case SET: peer->set(key_of(i), key_of(i + KEYS)); break;
    case FIND:
        n = peer->find(key_of(i * 7919 % KEYS), value, sizeof value);
        MUST("find", n == sizeof(word_t));
        break;
    }
}

static void one_run(const peer_t *peer, double least[WORKS][CLOCKS]) {
    peer->open();
    for (int work = 0; work < WORKS; work++) {
        double start[CLOCKS] = {seconds(PROCESSOR), seconds(CLOCK)};
        for (int i = 0; i < counts[work]; i++) {
            operate(peer, work, (uint32_t)i);
            if ((i + 1) % batches[work] == 0) peer->commit();
        }
        for (int clock = 0; clock < CLOCKS; clock++) {
            double took = seconds(clock) - start[clock];
            if (least[work][clock] == 0 || took < least[work][clock]) least[work][clock] = took;
        }
    }
    peer->close();
}

int main(int argc, char **argv) {
    static const struct { const char *name; const peer_t *peer; } peers[] = {
#ifdef WITH_REDO
        {"redo", &redo_peer},
        {"pages", &pages_peer},
#endif
#ifdef WITH_SQLITE3
        {"sqlite3", &sqlite_peer},
#endif
#ifdef WITH_LMDB
        {"lmdb", &lmdb_peer},
#endif
#ifdef WITH_LEVELDB
        {"leveldb", &level_peer},
#endif
    };
    const peer_t *peer = 0;
    double least[WORKS][CLOCKS] = {0};
    for (size_t i = 0; argc > 1 && i < sizeof peers / sizeof *peers; i++)
        if (strcmp(peers[i].name, argv[1]) == 0) peer = peers[i].peer;
    MUST("the name", peer);
    for (int run = 0; run < RUNS; run++) {
        char folder[] = "0";
        folder[0] = (char)('0' + run);
        MUST("a folder", mkdir(folder, 0777) == 0 && chdir(folder) == 0);
        one_run(peer, least);
        MUST("a folder", chdir("..") == 0);
    }
    for (int work = 0; work < WORKS; work++)
        printf("%s: %.0f %.0f\n", titles[work], counts[work] / least[work][PROCESSOR], counts[work] / least[work][CLOCK]);
    return 0;
}
