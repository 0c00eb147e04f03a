/* A bank by threads: `bank redo|sqlite3|lmdb THREADS` in an empty folder. Transfers between random accounts, each a transaction that is
 * durable before the next one of its thread. It prints the seconds, how many syncs were made, and whether the accounts have together
 * what they had. bench/bank builds it with what is there of the three. */
#define _GNU_SOURCE
#include <pthread.h>
#include <stdint.h>
#include <stdio.h>
#include <stdlib.h>
#include <string.h>
#include <sys/syscall.h>
#include <time.h>
#include <unistd.h>

enum { ACCOUNTS = 1000, EACH = 1000000, TRANSFERS = 8000, MOST = 64 };

static void fail(const char *what) {
    fprintf(stderr, "bank: %s failed\n", what);
    exit(1);
}
#define MUST(what, done) do { if (!(done)) fail(what); } while (0)

/* The syncs of the libraries go through these. */
static unsigned long syncs;
static void count_sync(void) { __atomic_fetch_add(&syncs, 1, __ATOMIC_RELAXED); }
int fsync(int file) { return count_sync(), (int)syscall(SYS_fsync, file); }
int fdatasync(int file) { return count_sync(), (int)syscall(SYS_fdatasync, file); }
int msync(void *at, size_t length, int flags) { return count_sync(), (int)syscall(SYS_msync, at, length, flags); }

/* A thread attaches, then makes transfers, and detaches. Between `begin` and `commit` it reads and writes accounts; `commit` returns
 * when they are durable. */
typedef struct {
    void (*open)(void), (*attach)(void), (*begin)(void);
    int64_t (*get)(uint32_t);
    void (*put)(uint32_t, int64_t);
    void (*commit)(void), (*detach)(void);
} peer_t;

#ifdef WITH_REDO
#include "redo.h"
/* A handle is used by one call at a time. What threads have committed by the time of a force is durable by it: one of them forces
 * for all that wait, and gives the others that are at work a moment to commit first. */
static redo_t db = REDO_CLOSED;
static pthread_mutex_t one = PTHREAD_MUTEX_INITIALIZER;
static pthread_cond_t is_forced = PTHREAD_COND_INITIALIZER;
static uint64_t committed, forced;
static unsigned at_work, waiting;
static int is_forcing;
static void redo_do(int32_t answer) { if (answer != REDO_OK) fail(redo_strerror(answer)); }
static void redo_start(void) { redo_do(redo_create(&db, ".", ACCOUNTS, 64, 1 << 28)); }
static void redo_attach(void) { pthread_mutex_lock(&one), at_work++, pthread_mutex_unlock(&one); }
static void redo_detach(void) { pthread_mutex_lock(&one), at_work--, pthread_mutex_unlock(&one); }
static void let_others_commit(void) {
    static const struct timespec moment = {0, 20000};
    for (int i = 0; i < 10 && at_work > 1; i++) pthread_mutex_unlock(&one), nanosleep(&moment, 0), pthread_mutex_lock(&one);
}
static void redo_begin_transfer(void) { pthread_mutex_lock(&one), redo_do(redo_txn_begin(&db)); }
static int64_t redo_balance(uint32_t x) {
    int64_t v = 0;
    uint64_t length;
    return redo_do(redo_get(&db, x, &v, sizeof v, &length)), v;
}
static void redo_set_balance(uint32_t x, int64_t v) { redo_do(redo_put(&db, x, &v, sizeof v)); }
static void redo_commit(void) {
    redo_do(redo_txn_commit_lazily(&db));
    uint64_t mine = ++committed;
    while (forced < mine)
        if (is_forcing) at_work--, waiting++, pthread_cond_wait(&is_forced, &one);
        else {
            is_forcing = 1, let_others_commit();
            redo_do(redo_force(&db, 0)), forced = committed, is_forcing = 0;
            at_work += waiting, waiting = 0, pthread_cond_broadcast(&is_forced);
        }
    pthread_mutex_unlock(&one);
}
static const peer_t redo_peer = {redo_start, redo_attach, redo_begin_transfer, redo_balance, redo_set_balance, redo_commit, redo_detach};
#endif

#ifdef WITH_SQLITE3
#include <sqlite3.h>
static _Thread_local sqlite3 *base;
static _Thread_local sqlite3_stmt *get, *put, *begin, *commit;
static sqlite3_stmt *prepared(const char *sql) {
    sqlite3_stmt *s;
    MUST(sql, sqlite3_prepare_v2(base, sql, -1, &s, 0) == SQLITE_OK);
    return s;
}
static void done(sqlite3_stmt *s) {
    int answer;
    while ((answer = sqlite3_step(s)) == SQLITE_BUSY) sqlite3_reset(s);
    MUST("step", answer == SQLITE_DONE);
    sqlite3_reset(s);
}
static void execute(const char *sql) { MUST(sql, sqlite3_exec(base, sql, 0, 0, 0) == SQLITE_OK); }
static void sqlite_attach(void) {
    MUST("open", sqlite3_open("base", &base) == SQLITE_OK && sqlite3_busy_timeout(base, 10000) == SQLITE_OK);
    execute("PRAGMA journal_mode=WAL; PRAGMA synchronous=FULL; CREATE TABLE IF NOT EXISTS o (x INTEGER PRIMARY KEY, v INTEGER NOT NULL)");
    get = prepared("SELECT v FROM o WHERE x = ?1"), put = prepared("REPLACE INTO o VALUES (?1, ?2)");
    begin = prepared("BEGIN IMMEDIATE"), commit = prepared("COMMIT");
}
static void sqlite_start(void) {}
static void sqlite_begin(void) { done(begin); }
static int64_t sqlite_balance(uint32_t x) {
    sqlite3_bind_int64(get, 1, x);
    int64_t v = sqlite3_step(get) == SQLITE_ROW ? sqlite3_column_int64(get, 0) : 0;
    return sqlite3_reset(get), v;
}
static void sqlite_set_balance(uint32_t x, int64_t v) { sqlite3_bind_int64(put, 1, x), sqlite3_bind_int64(put, 2, v), done(put); }
static void sqlite_commit(void) { done(commit); }
static void sqlite_detach(void) {
    sqlite3_stmt *all[] = {get, put, begin, commit};
    for (size_t i = 0; i < sizeof all / sizeof *all; i++) sqlite3_finalize(all[i]);
    sqlite3_close(base);
}
static const peer_t sqlite_peer = {sqlite_start, sqlite_attach, sqlite_begin, sqlite_balance, sqlite_set_balance, sqlite_commit, sqlite_detach};
#endif

#ifdef WITH_LMDB
#include <lmdb.h>
static void nothing(void) {}
static MDB_env *env;
static _Thread_local MDB_txn *txn;
static MDB_dbi dbi;
static void lmdb_begin(void) { MUST("begin", !mdb_txn_begin(env, 0, 0, &txn)); }
static void lmdb_commit(void) { MUST("commit", !mdb_txn_commit(txn)); }
static void lmdb_start(void) {
    MUST("open", !mdb_env_create(&env) && !mdb_env_set_mapsize(env, (size_t)1 << 28) && !mdb_env_open(env, ".", 0, 0644));
    lmdb_begin();
    MUST("open", !mdb_dbi_open(txn, 0, 0, &dbi));
    lmdb_commit();
}
static int64_t lmdb_balance(uint32_t x) {
    MDB_val key = {sizeof x, &x}, value;
    int64_t v = 0;
    if (!mdb_get(txn, dbi, &key, &value)) memcpy(&v, value.mv_data, sizeof v);
    return v;
}
static void lmdb_set_balance(uint32_t x, int64_t v) {
    MDB_val key = {sizeof x, &x}, value = {sizeof v, &v};
    MUST("put", !mdb_put(txn, dbi, &key, &value, 0));
}
static const peer_t lmdb_peer = {lmdb_start, nothing, lmdb_begin, lmdb_balance, lmdb_set_balance, lmdb_commit, nothing};
#endif

static const peer_t *peer;
static unsigned threads;

static uint32_t drawn(uint64_t *seed) { return (uint32_t)((*seed = *seed * 6364136223846793005u + 1442695040888963407u) >> 33); }

static void *work(void *number) {
    uint64_t seed = (uintptr_t)number + 1;
    peer->attach();
    for (unsigned i = 0; i < TRANSFERS / threads; i++) {
        uint32_t payer = drawn(&seed) % ACCOUNTS, payee = (payer + 1 + drawn(&seed) % (ACCOUNTS - 1)) % ACCOUNTS, amount = drawn(&seed) % 100;
        peer->begin();
        peer->put(payee, peer->get(payee) + amount), peer->put(payer, peer->get(payer) - amount);
        peer->commit();
    }
    peer->detach();
    return 0;
}

static double now(void) {
    struct timespec t;
    clock_gettime(CLOCK_MONOTONIC, &t);
    return (double)t.tv_sec + 1e-9 * (double)t.tv_nsec;
}

static const peer_t *peer_of(const char *name) {
#ifdef WITH_REDO
    if (strcmp(name, "redo") == 0) return &redo_peer;
#endif
#ifdef WITH_SQLITE3
    if (strcmp(name, "sqlite3") == 0) return &sqlite_peer;
#endif
#ifdef WITH_LMDB
    if (strcmp(name, "lmdb") == 0) return &lmdb_peer;
#endif
    return 0;
}

int main(int argc, char **argv) {
    pthread_t all[MOST];
    MUST("the words", argc == 3 && (peer = peer_of(argv[1])));
    threads = (unsigned)strtoul(argv[2], 0, 10);
    MUST("the number of threads", 0 < threads && threads <= MOST);
    peer->open(), peer->attach(), peer->begin();
    for (uint32_t x = 0; x < ACCOUNTS; x++) peer->put(x, EACH);
    peer->commit(), peer->detach();

    unsigned long before = syncs;
    double began = now();
    for (uintptr_t i = 0; i < threads; i++) MUST("a thread", !pthread_create(&all[i], 0, work, (void *)i));
    for (unsigned i = 0; i < threads; i++) pthread_join(all[i], 0);
    double took = now() - began;

    int64_t sum = 0;
    peer->attach(), peer->begin();
    for (uint32_t x = 0; x < ACCOUNTS; x++) sum += peer->get(x);
    peer->commit(), peer->detach();
    printf("%.0f %lu %s\n", TRANSFERS / took, syncs - before, sum == (int64_t)ACCOUNTS * EACH ? "kept" : "LOST");
    return sum != (int64_t)ACCOUNTS * EACH;
}
