/* Keys of 8 bytes in an ordered map: `maps PEER random|rising LENGTH [COUNT]` in an empty folder, with values of LENGTH bytes and 100,000
 * keys where COUNT is not given. PEER is redo_4096 or redo_16384, a map of wide pages in a store of that CAP, or sqlite3, lmdb, leveldb.
 * A line says sets and gets a second of processor time and of the clock, the bytes of log and those written a set, the seconds that it
 * takes to have all in place (a drain and trim; a checkpoint), and the bytes of the files then. bench/maps builds it. */
#include <dirent.h>
#include <stdint.h>
#include <stdio.h>
#include <stdlib.h>
#include <string.h>
#include <sys/stat.h>
#include <time.h>

enum { BATCH = 1000, LONGEST = 4096, POOL = 65536 };
typedef struct { uint8_t at[8]; } word_t;

static void fail(const char *what) {
    fprintf(stderr, "maps: %s failed\n", what);
    exit(1);
}
#define MUST(what, done) do { if (!(done)) fail(what); } while (0)

/* So many keys with values of so many bytes. */
static uint64_t count = 100000;
static size_t length;

/* An ordered map, of which `commit` makes durable what was set; `settle` brings it where it is to stay. `log` is the length of the log. */
typedef struct {
    const char *name;
    void (*open)(void), (*set)(word_t, const void *, size_t);
    size_t (*get)(word_t, void *, size_t);
    void (*commit)(void);
    uint64_t (*log)(void);
    void (*settle)(void), (*close)(void);
} peer_t;
static uint64_t no_log(void) { return 0; }
static void no_settling(void) {}
static uint64_t size_of(const char *name) {
    struct stat s;
    return stat(name, &s) == 0 ? (uint64_t)s.st_size : 0;
}

#ifdef WITH_REDO
#include "redo.h"
static redo_t db = REDO_CLOSED;
static redo_range_t map;
static void redo_do(int32_t answer) { if (answer != REDO_OK) fail(redo_strerror(answer)); }
/* A store whose pages are filled to nearly a half, where there can be so many. */
static void redo_start_with(uint32_t cap) {
    uint64_t pages = count * (length + 24) / cap * 23 / 10 + 64;
    map.high = pages < 65535 ? (uint32_t)pages - 1 : 65534;
    redo_do(redo_create_pages(&db, ".", map.high + 1, cap, 536870912));
}
static void redo_start(void) { redo_start_with(4096); }
static void redo_start_wide(void) { redo_start_with(16384); }
static void redo_set(word_t k, const void *v, size_t n) { redo_do(redo_map_set(&db, map, &k, sizeof k, v, n)); }
static size_t redo_get_key(word_t k, void *into, size_t room) {
    uint64_t n;
    return redo_do(redo_map_get(&db, map, &k, sizeof k, into, room, &n)), n;
}
static void redo_commit(void) { redo_do(redo_force(&db, 0)); }
static uint64_t redo_log(void) {
    redo_stat_t stat;
    return redo_do(redo_stat(&db, &stat)), stat.used;
}
static void redo_settle(void) { redo_do(redo_drain(&db)), redo_do(redo_trim(&db)); }
static void redo_stop(void) { redo_do(redo_close(&db)); }
#endif

#ifdef WITH_SQLITE3
#include <sqlite3.h>
static sqlite3 *base;
static sqlite3_stmt *set_key, *get_key, *begin, *commit;
static sqlite3_stmt *prepared(const char *sql) {
    sqlite3_stmt *s;
    MUST(sql, sqlite3_prepare_v2(base, sql, -1, &s, 0) == SQLITE_OK);
    return s;
}
static void done(sqlite3_stmt *s) {
    MUST("step", sqlite3_step(s) == SQLITE_DONE);
    sqlite3_reset(s);
}
static void sqlite_start(void) {
    MUST("open", sqlite3_open("base", &base) == SQLITE_OK);
    MUST("tables", sqlite3_exec(base, "PRAGMA journal_mode=WAL; PRAGMA synchronous=FULL; PRAGMA wal_autocheckpoint=0;"
                                      "CREATE TABLE t (k BLOB PRIMARY KEY, v BLOB NOT NULL) WITHOUT ROWID", 0, 0, 0) == SQLITE_OK);
    set_key = prepared("REPLACE INTO t VALUES (?1, ?2)"), get_key = prepared("SELECT v FROM t WHERE k = ?1");
    begin = prepared("BEGIN"), commit = prepared("COMMIT"), done(begin);
}
static void sqlite_set(word_t k, const void *v, size_t n) {
    sqlite3_bind_blob(set_key, 1, &k, sizeof k, SQLITE_STATIC), sqlite3_bind_blob(set_key, 2, v, (int)n, SQLITE_STATIC), done(set_key);
}
static size_t sqlite_get(word_t k, void *into, size_t room) {
    sqlite3_bind_blob(get_key, 1, &k, sizeof k, SQLITE_STATIC);
    MUST("step", sqlite3_step(get_key) == SQLITE_ROW);
    size_t n = (size_t)sqlite3_column_bytes(get_key, 0);
    memcpy(into, sqlite3_column_blob(get_key, 0), n < room ? n : room);
    sqlite3_reset(get_key);
    return n;
}
static void sqlite_commit(void) { done(commit), done(begin); }
static uint64_t sqlite_log(void) { return size_of("base-wal"); }
static void sqlite_settle(void) {
    done(commit);
    MUST("checkpoint", sqlite3_exec(base, "PRAGMA wal_checkpoint(TRUNCATE)", 0, 0, 0) == SQLITE_OK);
    done(begin);
}
static void sqlite_stop(void) {
    sqlite3_stmt *all[] = {set_key, get_key, begin, commit};
    for (size_t i = 0; i < sizeof all / sizeof *all; i++) sqlite3_finalize(all[i]);
    sqlite3_close(base);
}
#endif

#ifdef WITH_LMDB
#include <lmdb.h>
static MDB_env *env;
static MDB_txn *txn;
static MDB_dbi dbi;
static void lmdb_begin(void) { MUST("begin", !mdb_txn_begin(env, 0, 0, &txn) && !mdb_dbi_open(txn, 0, 0, &dbi)); }
static void lmdb_start(void) {
    MUST("open", !mdb_env_create(&env) && !mdb_env_set_mapsize(env, (size_t)1 << 34) && !mdb_env_open(env, ".", 0, 0644));
    lmdb_begin();
}
static void lmdb_set(word_t k, const void *v, size_t n) {
    MDB_val key = {sizeof k, &k}, value = {n, (void *)v};
    MUST("put", !mdb_put(txn, dbi, &key, &value, 0));
}
static size_t lmdb_get(word_t k, void *into, size_t room) {
    MDB_val key = {sizeof k, &k}, v;
    MUST("get", !mdb_get(txn, dbi, &key, &v));
    memcpy(into, v.mv_data, v.mv_size < room ? v.mv_size : room);
    return v.mv_size;
}
static void lmdb_commit(void) {
    MUST("commit", !mdb_txn_commit(txn));
    lmdb_begin();
}
static void lmdb_stop(void) { mdb_txn_abort(txn), mdb_env_close(env); }
#endif

#ifdef WITH_LEVELDB
#include <leveldb/c.h>
static leveldb_t *level;
static leveldb_options_t *options;
static leveldb_readoptions_t *reading;
static leveldb_writeoptions_t *quick, *stable;
static void level_start(void) {
    char *error = 0;
    options = leveldb_options_create(), reading = leveldb_readoptions_create();
    quick = leveldb_writeoptions_create(), stable = leveldb_writeoptions_create();
    leveldb_options_set_create_if_missing(options, 1), leveldb_writeoptions_set_sync(stable, 1);
    level = leveldb_open(options, ".", &error);
    MUST("open", !error);
}
static void level_write(leveldb_writeoptions_t *how, const void *k, size_t kn, const void *v, size_t n) {
    char *error = 0;
    leveldb_put(level, how, k, kn, v, n, &error);
    MUST("put", !error);
}
static void level_set(word_t k, const void *v, size_t n) { level_write(quick, &k, sizeof k, v, n); }
static size_t level_get(word_t k, void *into, size_t room) {
    char *error = 0;
    size_t n;
    char *v = leveldb_get(level, reading, (char *)&k, sizeof k, &n, &error);
    MUST("get", v && !error);
    memcpy(into, v, n < room ? n : room);
    leveldb_free(v);
    return n;
}
static void level_commit(void) { level_write(stable, "commit", 6, "", 0); }     /* a sync takes what was written before along */
static void level_settle(void) { leveldb_compact_range(level, 0, 0, 0, 0); }
static void level_stop(void) {
    leveldb_close(level);
    leveldb_options_destroy(options), leveldb_readoptions_destroy(reading);
    leveldb_writeoptions_destroy(quick), leveldb_writeoptions_destroy(stable);
}
#endif

static const peer_t peers[] = {
#ifdef WITH_REDO
    {"redo_4096", redo_start, redo_set, redo_get_key, redo_commit, redo_log, redo_settle, redo_stop},
    {"redo_16384", redo_start_wide, redo_set, redo_get_key, redo_commit, redo_log, redo_settle, redo_stop},
#endif
#ifdef WITH_SQLITE3
    {"sqlite3", sqlite_start, sqlite_set, sqlite_get, sqlite_commit, sqlite_log, sqlite_settle, sqlite_stop},
#endif
#ifdef WITH_LMDB
    {"lmdb", lmdb_start, lmdb_set, lmdb_get, lmdb_commit, no_log, no_settling, lmdb_stop},
#endif
#ifdef WITH_LEVELDB
    {"leveldb", level_start, level_set, level_get, level_commit, no_log, level_settle, level_stop},
#endif
    {"", 0, 0, 0, 0, no_log, no_settling, 0},
};

/* A bijection, so that no two numbers are mixed to the same. */
static uint64_t mixed(uint64_t i) { return i = (i + 1) * 0x9e3779b97f4a7c15u, i ^= i >> 29, i * 0xbf58476d1ce4e5b9u; }
/* The i-th key: by rising i they rise, or come in no order. */
static int is_rising;
static word_t key_of(uint64_t i) {
    word_t key;
    if (!is_rising) i = mixed(i);
    for (int byte = 0; byte < 8; byte++) key.at[byte] = (uint8_t)(i >> (56 - 8 * byte));
    return key;
}

typedef struct { double processor, clock; } times_t;
static times_t now(void) {
    struct timespec p, c;
    clock_gettime(CLOCK_PROCESS_CPUTIME_ID, &p), clock_gettime(CLOCK_MONOTONIC, &c);
    return (times_t){(double)p.tv_sec + 1e-9 * (double)p.tv_nsec, (double)c.tv_sec + 1e-9 * (double)c.tv_nsec};
}
static times_t since(times_t start) {
    times_t end = now();
    return (times_t){end.processor - start.processor, end.clock - start.clock};
}

/* The bytes that this process has handed to write calls. */
static uint64_t written(void) {
    char line[64];
    unsigned long long n = 0;
    FILE *io = fopen("/proc/self/io", "r");
    while (io && fgets(line, sizeof line, io)) sscanf(line, "wchar: %llu", &n);
    if (io) fclose(io);
    return n;
}
/* The bytes that the files of this folder take. */
static uint64_t taken(void) {
    DIR *here = opendir(".");
    struct dirent *entry;
    struct stat s;
    uint64_t n = 0;
    while (here && (entry = readdir(here))) n += entry->d_name[0] != '.' && stat(entry->d_name, &s) == 0 ? 512 * (uint64_t)s.st_blocks : 0;
    if (here) closedir(here);
    return n;
}

int main(int argc, char **argv) {
    static uint8_t values[POOL + LONGEST];          /* each is a piece of these, which no compression makes shorter */
    uint8_t got[LONGEST];
    const peer_t *peer = peers;
    while (argc > 3 && *peer->name && strcmp(peer->name, argv[1]) != 0) peer++;
    MUST("the name", peer->open);
    is_rising = strcmp(argv[2], "rising") == 0;
    length = strtoul(argv[3], 0, 10);
    if (argc > 4) count = strtoul(argv[4], 0, 10);
    MUST("the length", length <= LONGEST && count);
    for (uint64_t i = 0; i < sizeof values; i++) values[i] = (uint8_t)(mixed(i) >> 56);

    peer->open();
    uint64_t wrote = written(), log = peer->log();
    times_t start = now();
    for (uint64_t i = 0; i < count; i++) {
        peer->set(key_of(i), values + mixed(i) % POOL, length);
        if ((i + 1) % BATCH == 0) peer->commit();
    }
    peer->commit();
    times_t sets = since(start);
    wrote = written() - wrote, log = peer->log() - log;
    start = now();
    for (uint64_t i = 0; i < count; i++) MUST("a get", peer->get(key_of(i * 7919 % count), got, sizeof got) == length);
    times_t gets = since(start);
    start = now();
    peer->settle();
    times_t settling = since(start);
    peer->close();
    double n = (double)count;
    printf("%.0f %.0f %.0f %.0f %.1f %.1f %.3f %llu\n", n / sets.processor, n / sets.clock, n / gets.processor, n / gets.clock, (double)log / n,
           (double)wrote / n, settling.clock, (unsigned long long)taken());
    return 0;
}
