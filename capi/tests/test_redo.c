/* The calls of redo.h, one after the other: test_redo FOLDER, an empty one. */
#include "want.h"
#include <pthread.h>
#include <signal.h>
#include <sys/stat.h>
#include <sys/wait.h>
#include <unistd.h>

static redo_t db = REDO_CLOSED, other = REDO_CLOSED;
static uint64_t n;
static uint8_t got[2048];

static void is(uint32_t x, const char *value) {
    WANT(REDO_OK, redo_get(&db, x, got, sizeof got, &n));
    if (n != strlen(value) || memcmp(got, value, n)) fail("object %u has %d bytes: %.*s", x, (int)n, (int)n, (char *)got);
}
static void put(uint32_t x, const char *value) { WANT(REDO_OK, redo_put(&db, x, B(value))); }
static void detail_of(const redo_t *of, uint64_t first, uint64_t third) {
    redo_detail_t d;
    WANT(REDO_OK, redo_last_detail(of, &d));
    if (d.first != first || d.third != third) fail("detail %llu .. %llu", (unsigned long long)d.first, (unsigned long long)d.third);
}

static void detail_is(uint64_t first, uint64_t third) { detail_of(&db, first, third); }

/* A log with a block, without an objects file. */
static void write_log(const char *folder) {
    char path[4096], log[40] = "\1RDOLOG01";
    snprintf(path, sizeof path, "%s/log_b.rdo", folder);
    log[33] = 1;
    FILE *f = fopen(path, "wb");
    if (!f || fwrite(log, 1, sizeof log, f) != sizeof log || fclose(f)) fail("%s cannot be written", path);
}
static void remove_log(const char *folder) {
    char path[4096];
    snprintf(path, sizeof path, "%s/log_b.rdo", folder);
    remove(path);
}

static void closed(const char *folder) {
    redo_stat_t stat;
    WANT(REDO_NOT_OPEN, redo_put(&db, 0, B("x")));
    WANT(REDO_NOT_OPEN, redo_get(&db, 0, got, 1, &n));
    WANT(REDO_NOT_OPEN, redo_force(&db, &n));
    WANT(REDO_NOT_OPEN, redo_stat(&db, &stat));
    WANT(REDO_NOT_OPEN, redo_close(&db));
    WANT(REDO_NO_FOLDER, redo_open(&db, "/nowhere/at/all"));
    detail_is(ENOENT, 0);
    WANT(REDO_NOT_OPEN, redo_put(&db, 0, B("x"))), detail_is(0, 0);
    WANT(REDO_NOT_A_STORE, redo_open(&db, folder));
    WANT(REDO_BAD_PARAMS, redo_create(&db, folder, 0, 64, 65536));
    WANT(REDO_BAD_PARAMS, redo_create(&db, folder, 8, 1024, 1024));
    write_log(folder);
    WANT(REDO_OLD_LOG, redo_create(&db, folder, 8, 1024, 65536));
    remove_log(folder);
    if (access_in(folder, "objects.rdo")) fail("a file was made");
    if (redo_version() != REDO_VERSION || redo_handle_size() != sizeof db) fail("the version");
    for (int32_t i = 0; i < 100; i++)
        if (!redo_strerror(i) || !*redo_strerror(i)) fail("no text for %d", i);
}

static void made(const char *folder) {
    WANT(REDO_OK, redo_create(&db, folder, 8, 1024, 65536));
    WANT(REDO_NO_OBJECT, redo_copy(&db, 0, 8));
    WANT(REDO_ALREADY_OPEN, redo_open(&db, folder)), detail_is(0, 0);
    WANT(REDO_ALREADY_OPEN, redo_create(&db, folder, 8, 1024, 65536));
    WANT(REDO_LOCKED, redo_open(&other, folder)), detail_of(&other, 0, 0);
    WANT(REDO_LOCKED, redo_create(&other, folder, 8, 1024, 65536));
    WANT(REDO_OK, redo_close(&db));
    WANT(REDO_ALREADY_STORE, redo_create(&db, folder, 8, 1024, 65536));
    WANT(REDO_OK, redo_open(&db, folder));
    redo_params_t p;
    WANT(REDO_OK, redo_params(&db, &p));
    if (p.objects != 8 || p.cap != 1024 || p.limit != 65536) fail("the numbers");
}

static void values(void) {
    uint8_t long_value[1025] = {0};
    put(0, "hello"), is(0, "hello"), put(1, ""), is(1, ""), is(7, "");
    WANT(REDO_OK, redo_copy(&db, 0, 1)), is(1, "hello");
    WANT(REDO_OK, redo_append(&db, 0, 1)), is(1, "hellohello");
    WANT(REDO_OK, redo_cut(&db, 1, 2, 7)), is(1, "hellohe"), is(2, "llo");
    WANT(REDO_OK, redo_sort(&db, 0, 3, 1)), is(3, "ehllo");
    WANT(REDO_OK, redo_swap(&db, 2, 3)), is(2, "ehllo"), is(3, "llo");
    WANT(REDO_BAD_PLACE, redo_cut(&db, 0, 1, 6));
    WANT(REDO_BAD_WIDTH, redo_sort(&db, 0, 1, 2));
    WANT(REDO_SAME, redo_swap(&db, 0, 0));
    WANT(REDO_NO_OBJECT, redo_put(&db, 8, B("x")));
    WANT(REDO_OK, redo_put(&db, 6, 0, 0)), is(6, "");
    WANT(REDO_OK, redo_get(&db, 0, 0, 0, 0));
    WANT(REDO_NO_OBJECT, redo_copy(&db, 0, 4294967295u));
    WANT(REDO_NO_OBJECT, redo_get(&db, 8, got, 1, &n));
    WANT(REDO_TOO_LARGE, redo_put(&db, 0, long_value, 1025));
    is(0, "hello");
    WANT(REDO_OK, redo_put(&db, 4, long_value, 1024));
    WANT(REDO_OK, redo_get(&db, 4, 0, 0, &n));
    if (n != 1024) fail("the length");
    got[2] = '!';
    WANT(REDO_OK, redo_get(&db, 0, got, 2, &n));
    if (n != 5 || memcmp(got, "he!", 3)) fail("a value that was cut");
}

/* Bytes at no place, and values that would be cut without a word. */
static void nowhere(const char *folder) {
    redo_range_t r = range(0, 7);
    redo_lengths_t l;
    WANT(REDO_NULL, redo_put(&db, 0, 0, 16)), detail_is(0, 0), is(0, "hello");
    WANT(REDO_NULL, redo_get(&db, 0, 0, 16, &n));
    WANT(REDO_NULL, redo_tree_insert(&db, r, 0, 1, "v", 1));
    WANT(REDO_NULL, redo_tree_insert(&db, r, "k", 1, 0, 1));
    WANT(REDO_NULL, redo_tree_delete(&db, r, 0, 1));
    WANT(REDO_NULL, redo_tree_get(&db, r, 0, 1, got, 1, &n));
    WANT(REDO_NULL, redo_tree_get(&db, r, "k", 1, 0, 1, &n));
    WANT(REDO_NULL, redo_tree_range(&db, r, 0, 1, "k", 1, &n));
    WANT(REDO_NULL, redo_tree_range(&db, r, "k", 1, 0, 1, &n));
    WANT(REDO_NULL, redo_tree_pair(&db, 0, 0, 1, got, 1, &l));
    WANT(REDO_NULL, redo_tree_pair(&db, 0, got, 1, 0, 1, &l));
    WANT(REDO_NULL, redo_hash_put(&db, r, 0, 1, "v", 1));
    WANT(REDO_NULL, redo_hash_put(&db, r, "k", 1, 0, 1));
    WANT(REDO_NULL, redo_hash_delete(&db, r, 0, 1));
    WANT(REDO_NULL, redo_hash_get(&db, r, 0, 1, got, 1, &n));
    WANT(REDO_NULL, redo_hash_get(&db, r, "k", 1, 0, 1, &n));
    WANT(REDO_NULL, redo_backup_start(&db, 0));
    WANT(REDO_NULL, redo_last_detail(&db, 0));
    WANT(REDO_NULL, redo_open(&other, 0));
    WANT(REDO_ALREADY_OPEN, redo_open(&db, folder));
    WANT(REDO_BAD_KEY, redo_tree_insert(&db, r, 0, 0, "v", 1));
    WANT(REDO_NO_LENGTH, redo_get(&db, 0, got, 2, 0)), detail_is(0, 0);
    WANT(REDO_NO_LENGTH, redo_get(&db, 0, got, 0, 0));
    WANT(REDO_OK, redo_get(&db, 0, got, 5, 0));
    WANT(REDO_NO_OBJECT, redo_get(&db, 8, got, 2, 0));
}

static void groups(void) {
    WANT(REDO_NO_GROUP, redo_end(&db));
    WANT(REDO_OK, redo_begin(&db));
    put(5, "a"), put(6, "b");
    WANT(REDO_IN_GROUP, redo_begin(&db)), detail_is(2, 0);
    WANT(REDO_IN_GROUP, redo_force(&db, &n));
    WANT(REDO_IN_GROUP, redo_drain(&db));
    WANT(REDO_IN_GROUP, redo_tend(&db, 1, &n));
    WANT(REDO_IN_GROUP, redo_trim(&db));
    WANT(REDO_OK, redo_end(&db));
    WANT(REDO_OK, redo_force(&db, &n));
    redo_stat_t s;
    WANT(REDO_OK, redo_stat(&db, &s));
    if (s.forced != n || s.accepted != n) fail("the counts");
}

static void upkeep(void) {
    WANT(REDO_OK, redo_tend(&db, 2, &n));
    WANT(REDO_OK, redo_tend(&db, 0, 0));
    do WANT(REDO_OK, redo_install(&db, &n)); while (n);
    WANT(REDO_OK, redo_drain(&db));
    WANT(REDO_OK, redo_checkpoint(&db));
    WANT(REDO_OK, redo_trim(&db));
    uint8_t value[1000] = {0};
    int32_t rc = REDO_OK;
    for (int i = 0; i < 100 && rc == REDO_OK; i++) rc = redo_put(&db, 4, value, sizeof value);
    WANT(REDO_LOG_FULL, rc), detail_is_full(&db, 65536);
    WANT(REDO_OK, redo_drain(&db));
    WANT(REDO_OK, redo_trim(&db));
    WANT(REDO_OK, redo_put(&db, 4, value, sizeof value));
    is(0, "hello");
}

/* What was accepted before the finish is in the copy, and what came later is not. */
static void backups(const char *folder) {
    char path[4096];
    uint64_t saved;
    snprintf(path, sizeof path, "%s/copy", folder);
    WANT(REDO_NO_FOLDER, redo_backup_start(&db, path)), detail_is(ENOENT, 0);
    WANT(REDO_LOCKED, redo_backup_start(&db, folder)), detail_is(0, 0);
    WANT(REDO_NO_BACKUP, redo_backup_copy(&db, 1, &n));
    WANT(REDO_NO_BACKUP, redo_backup_finish(&db, &n));
    WANT(REDO_NO_BACKUP, redo_backup_give_up(&db));
    mkdir(path, 0777);
    write_log(path);
    WANT(REDO_OLD_LOG, redo_backup_start(&db, path)), detail_is(0, 0);
    WANT(REDO_NO_BACKUP, redo_backup_give_up(&db));
    if (access_in(path, "objects.rdo")) fail("a file was made");
    remove_log(path);
    WANT(REDO_OK, redo_begin(&db));
    WANT(REDO_IN_GROUP, redo_backup_start(&db, path));
    WANT(REDO_NO_BACKUP, redo_backup_copy(&db, 1, &n));
    WANT(REDO_NO_BACKUP, redo_backup_finish(&db, &n));
    WANT(REDO_NO_BACKUP, redo_backup_give_up(&db));
    WANT(REDO_OK, redo_end(&db));
    WANT(REDO_OK, redo_backup_start(&db, path));
    WANT(REDO_OK, redo_begin(&db));
    WANT(REDO_IN_GROUP, redo_backup_copy(&db, 1, &n));
    WANT(REDO_IN_GROUP, redo_backup_finish(&db, &n));
    WANT(REDO_IN_GROUP, redo_backup_give_up(&db));
    WANT(REDO_OK, redo_end(&db));
    WANT(REDO_OK, redo_backup_give_up(&db));
    WANT(REDO_OK, redo_backup_start(&db, path));
    WANT(REDO_IN_BACKUP, redo_backup_start(&db, path)), detail_is(0, 0);
    WANT(REDO_LOCKED, redo_open(&other, path));
    WANT(REDO_OK, redo_backup_give_up(&db));
    WANT(REDO_NOT_A_STORE, redo_open(&other, path));
    WANT(REDO_OK, redo_backup_start(&db, path));
    put(5, "first");
    WANT(REDO_OK, redo_backup_copy(&db, 7, &n));
    if (n != 7) fail("%d objects are copied", (int)n);
    put(5, "second"), put(7, "third");
    WANT(REDO_OK, redo_drain(&db));
    WANT(REDO_IN_BACKUP, redo_trim(&db)), detail_is(7, 0);
    WANT(REDO_NOT_COPIED, redo_backup_finish(&db, &saved)), detail_is(7, 0);
    WANT(REDO_OK, redo_backup_copy(&db, 65535, &n));
    if (n != 8) fail("%d objects are copied", (int)n);
    WANT(REDO_OK, redo_backup_finish(&db, &saved));
    WANT(REDO_NO_BACKUP, redo_backup_copy(&db, 1, &n)), detail_is(0, 0);
    put(5, "later");
    WANT(REDO_OK, redo_trim(&db));
    WANT(REDO_OK, redo_open(&other, path));
    WANT(REDO_OK, redo_force(&other, &n));
    if (n != saved) fail("%d commands in the place of %d", (int)n, (int)saved);
    WANT(REDO_OK, redo_get(&other, 5, got, sizeof got, &n));
    if (n != 6 || memcmp(got, "second", n)) fail("the copy of object 5");
    WANT(REDO_OK, redo_get(&other, 0, got, sizeof got, &n));
    if (n != 5 || memcmp(got, "hello", n)) fail("the copy of object 0");
    WANT(REDO_OK, redo_close(&other));
    WANT(REDO_ALREADY_STORE, redo_backup_start(&db, path));
    write_log(path);
    WANT(REDO_ALREADY_STORE, redo_backup_start(&db, path)), detail_is(0, 0);
    WANT(REDO_NO_BACKUP, redo_backup_give_up(&db));
    is(5, "later");
}

/* The trees and hash files stand in a store of their own. */
static void maps(const char *folder) {
    char path[4096];
    snprintf(path, sizeof path, "%s/maps", folder);
    mkdir(path, 0777);
    redo_t s = REDO_CLOSED;
    redo_lengths_t l;
    uint8_t key[32];
    char name[8];
    WANT(REDO_OK, redo_create(&s, path, 128, 1024, 1 << 20));
    WANT(REDO_NO_KEY, redo_tree_get(&s, range(0, 63), B("k"), got, sizeof got, &n));
    for (int i = 0; i < 60; i++) {
        snprintf(name, sizeof name, "k%02d", i * 7 % 60);
        WANT(REDO_OK, redo_tree_insert(&s, range(0, 63), B(name), B(name)));
        WANT(REDO_OK, redo_hash_put(&s, range(64, 127), B(name), B(name)));
    }
    WANT(REDO_OK, redo_tree_insert(&s, range(0, 63), B("k07"), B("seven")));
    WANT(REDO_OK, redo_tree_get(&s, range(0, 63), B("k07"), got, sizeof got, &n));
    if (n != 5 || memcmp(got, "seven", 5)) fail("the tree's k07");
    WANT(REDO_OK, redo_tree_delete(&s, range(0, 63), B("k08")));
    WANT(REDO_NO_KEY, redo_tree_delete(&s, range(0, 63), B("k08")));
    WANT(REDO_OK, redo_tree_range(&s, range(0, 63), B("k05"), B("k12"), &n));
    if (n != 6) fail("the range has %d pairs", (int)n);
    WANT(REDO_OK, redo_tree_pair(&s, 3, key, sizeof key, got, sizeof got, &l));
    if (l.key != 3 || l.value != 3 || memcmp(key, "k09", 3) || memcmp(got, "k09", 3)) fail("pair 3");
    WANT(REDO_NO_LENGTH, redo_tree_pair(&s, 3, key, 2, got, sizeof got, 0));
    WANT(REDO_NO_LENGTH, redo_tree_pair(&s, 3, key, sizeof key, got, 2, 0));
    WANT(REDO_OK, redo_tree_pair(&s, 3, key, 3, got, 3, 0));
    WANT(REDO_OK, redo_tree_pair(&s, 3, key, sizeof key, 0, 0, 0));
    WANT(REDO_NO_LENGTH, redo_tree_get(&s, range(0, 63), B("k07"), got, 4, 0));
    WANT(REDO_NO_LENGTH, redo_hash_get(&s, range(64, 127), B("k33"), got, 2, 0));
    WANT(REDO_NO_KEY, redo_tree_pair(&s, 6, key, sizeof key, got, sizeof got, &l));
    WANT(REDO_OK, redo_hash_get(&s, range(64, 127), B("k33"), got, sizeof got, &n));
    if (n != 3 || memcmp(got, "k33", 3)) fail("the hash file's k33");
    WANT(REDO_OK, redo_hash_delete(&s, range(64, 127), B("k33")));
    WANT(REDO_NO_KEY, redo_hash_get(&s, range(64, 127), B("k33"), got, sizeof got, &n));
    WANT(REDO_NO_KEY, redo_hash_delete(&s, range(64, 127), B("k33")));
    WANT(REDO_BAD_KEY, redo_tree_insert(&s, range(0, 63), "", 0, B("v")));
    WANT(REDO_BAD_KEY, redo_hash_put(&s, range(64, 127), B("a key of more than thirty-two bytes"), B("v")));
    WANT(REDO_NO_OBJECT, redo_tree_insert(&s, range(9, 8), B("k"), B("v")));
    WANT(REDO_NO_OBJECT, redo_tree_insert(&s, range(9, 8), "", 0, B("v")));
    WANT(REDO_BAD_KEY, redo_tree_insert(&s, range(60, 128), "", 0, B("v")));
    WANT(REDO_BAD_KEY, redo_hash_get(&s, range(60, 128), "", 0, got, sizeof got, &n));
    WANT(REDO_NO_OBJECT, redo_tree_insert(&s, range(60, 128), B("k"), B("v")));
    WANT(REDO_NO_OBJECT, redo_hash_put(&s, range(9, 9), B("k"), B("v")));
    WANT(REDO_OK, redo_force(&s, &n));
    WANT(REDO_OK, redo_close(&s));
    WANT(REDO_OK, redo_open(&s, path));
    WANT(REDO_OK, redo_tree_range(&s, range(0, 63), B("k"), B("l"), &n));
    if (n != 59) fail("the tree has %d pairs", (int)n);
    WANT(REDO_OK, redo_close(&s));
}

/* The pair that was found last. */
static void pair_is(redo_t *s, uint64_t pair, const char *name, const char *value) {
    redo_lengths_t l;
    uint8_t key[32];
    WANT(REDO_OK, redo_map_pair(s, pair, key, sizeof key, got, sizeof got, &l));
    if (l.key != strlen(name) || memcmp(key, name, l.key) || l.value != strlen(value) || memcmp(got, value, l.value))
        fail("pair %d is %.*s: %.*s", (int)pair, (int)l.key, key, (int)l.value, got);
}
/* Calls on a map are staged, and are seen; an abort drops them, and a commit keeps them. */
static void staged_pages(redo_t *s, redo_range_t m) {
    redo_lengths_t l;
    uint64_t before, all;
    uint8_t key[4];
    WANT(REDO_OK, redo_map_count(s, m, 0, 0, 0, 0, &before));
    for (int kept = 0; kept < 2; kept++) {
        WANT(REDO_OK, redo_txn_begin(s));
        WANT(REDO_OK, redo_map_set(s, m, B("k"), B("v")));
        WANT(REDO_OK, redo_map_set(s, m, B("l"), B("w")));
        WANT(REDO_OK, redo_map_delete(s, m, B("l")));
        WANT(REDO_NO_KEY, redo_map_delete(s, m, B("l")));
        WANT(REDO_OK, redo_map_get(s, m, B("k"), got, sizeof got, &n));
        WANT(REDO_OK, redo_map_count(s, m, 0, 0, 0, 0, &all));
        if (all != before + 1) fail("%d pairs are staged", (int)(all - before));
        WANT(REDO_OK, redo_map_range(s, m, B("k"), 0, 0, 1, &n)), pair_is(s, 0, "k", "v");
        WANT(REDO_OK, redo_map_back(s, m, 0, 0, "k", 2, 1, &n)), pair_is(s, 0, "k", "v");
        WANT(REDO_OK, redo_map_next(s, m, B("j\xff"), key, sizeof key, 0, 0, &l)), pair_is(s, 0, "k", "v");
        WANT(REDO_OK, redo_map_prev(s, m, "k", 2, key, sizeof key, 0, 0, &l)), pair_is(s, 0, "k", "v");
        WANT(REDO_NO_OBJECT, redo_map_get(s, range(9, 8), B("k"), got, sizeof got, &n));
        WANT(REDO_TOO_LONG, redo_map_set(s, m, "", 0, B("v")));
        WANT(REDO_OK, kept ? redo_txn_commit(s) : redo_txn_abort(s));
        WANT(kept ? REDO_OK : REDO_NO_KEY, redo_map_get(s, m, B("k"), got, sizeof got, &n));
    }
    WANT(REDO_OK, redo_map_delete(s, m, B("k")));
}
static void cursors(redo_t *s, redo_range_t m) {
    redo_lengths_t l;
    uint8_t key[1024] = {0}, value[32];
    int count = 0;
    for (l.key = 0; redo_map_next(s, m, key, l.key, key, sizeof key, value, sizeof value, &l) == REDO_OK; count++) {
        if (l.key != 4 || l.value != 4 || memcmp(key, value, 4)) fail("a pair of a walk");
        if (count % 2) WANT(REDO_OK, redo_map_delete(s, m, key, l.key));
    }
    if (count != 199) fail("%d pairs of a walk", count);
    for (l.key = 0; redo_map_prev(s, m, key, l.key, key, sizeof key, 0, 0, &l) == REDO_OK;) count--;
    if (count != 99) fail("%d pairs of a walk back", count);
    WANT(REDO_NO_KEY, redo_map_prev(s, m, B("k000"), key, sizeof key, value, sizeof value, &l)), detail_of(s, 0, 0);
    WANT(REDO_NO_KEY, redo_map_next(s, m, B("k199"), key, sizeof key, value, sizeof value, &l));
    WANT(REDO_NO_LENGTH, redo_map_next(s, m, "", 0, key, 3, value, sizeof value, 0));
    WANT(REDO_NO_LENGTH, redo_map_prev(s, m, "", 0, key, sizeof key, value, 3, 0));
    memset(key, 'k', sizeof key);
    WANT(REDO_NO_KEY, redo_map_next(s, m, key, sizeof key, key, sizeof key, value, sizeof value, &l));
    WANT(REDO_NO_KEY, redo_map_get(s, m, key, sizeof key, got, sizeof got, &n));
    WANT(REDO_NO_KEY, redo_map_delete(s, m, key, sizeof key));
}
/* What is refused, in the order in which it is asked. */
static void not_in_pages(redo_t *s, redo_range_t m) {
    static uint8_t bytes[65536];
    WANT(REDO_NO_OBJECT, redo_map_set(s, range(9, 8), bytes, 65536, B("v")));
    WANT(REDO_TOO_LONG, redo_map_set(s, range(9, 128), bytes, 65536, B("v")));
    WANT(REDO_TOO_LONG, redo_map_set(s, range(9, 128), B("k"), bytes, 65536));
    WANT(REDO_NO_OBJECT, redo_map_set(s, range(9, 128), bytes, 65535, B("v")));
    WANT(REDO_NO_OBJECT, redo_map_get(s, range(9, 128), B("k"), got, sizeof got, &n));
    WANT(REDO_NO_OBJECT, redo_map_delete(s, range(9, 128), B("k")));
    WANT(REDO_NO_OBJECT, redo_map_count(s, range(9, 128), 0, 0, 0, 0, &n));
    WANT(REDO_NO_OBJECT, redo_map_range(s, range(9, 8), 0, 0, 0, 0, 1, &n));
    WANT(REDO_NO_OBJECT, redo_map_back(s, range(9, 128), 0, 0, 0, 0, 1, &n));
    WANT(REDO_NO_OBJECT, redo_map_next(s, range(9, 8), 0, 0, 0, 0, 0, 0, 0));
    WANT(REDO_NO_OBJECT, redo_map_prev(s, range(9, 128), 0, 0, 0, 0, 0, 0, 0));
    WANT(REDO_TOO_LONG, redo_map_set(s, m, "", 0, B("v")));
    WANT(REDO_TOO_LONG, redo_map_set(s, m, bytes, 505, B("v")));
    WANT(REDO_TOO_LONG, redo_map_set(s, m, B("k"), bytes, 1025)), detail_of(s, 0, 0);
    WANT(REDO_OK, redo_map_set(s, m, bytes, 504, bytes, 1024));
    WANT(REDO_OK, redo_map_get(s, m, bytes, 504, got, sizeof got, &n));
    if (n != 1024 || memcmp(got, bytes, 1024)) fail("the longest pair");
    WANT(REDO_NO_LENGTH, redo_map_get(s, m, bytes, 504, got, 1023, 0));
    WANT(REDO_OK, redo_map_set(s, m, bytes, 504, 0, 0));
    WANT(REDO_OK, redo_map_get(s, m, bytes, 504, got, sizeof got, &n));
    if (n != 0) fail("an empty value");
    WANT(REDO_OK, redo_map_delete(s, m, bytes, 504));
    staged_pages(s, m);
    WANT(REDO_NULL, redo_map_set(s, m, 0, 1, "v", 1));
    WANT(REDO_NULL, redo_map_set(s, m, "k", 1, 0, 1));
    WANT(REDO_NULL, redo_map_delete(s, m, 0, 1));
    WANT(REDO_NULL, redo_map_get(s, m, "k", 1, 0, 1, &n));
    WANT(REDO_NULL, redo_map_count(s, m, 0, 1, 0, 0, &n));
    WANT(REDO_NULL, redo_map_range(s, m, 0, 0, 0, 1, 1, &n));
    WANT(REDO_NULL, redo_map_back(s, m, 0, 1, 0, 0, 1, &n));
    WANT(REDO_NULL, redo_map_pair(s, 0, 0, 1, got, 1, 0));
    WANT(REDO_NULL, redo_map_next(s, m, 0, 1, got, 1, 0, 0, 0));
    WANT(REDO_NULL, redo_map_prev(s, m, "k", 1, 0, 1, 0, 0, 0));
}
/* Maps of wide pages stand in a store that has them. */
static void pages(const char *folder) {
    char path[4096], name[8];
    snprintf(path, sizeof path, "%s/pages", folder);
    mkdir(path, 0777);
    redo_t s = REDO_CLOSED;
    redo_range_t m = range(4, 127);
    WANT(REDO_NO_PAGES, redo_map_set(&db, range(0, 7), B("k"), B("v")));
    WANT(REDO_NO_PAGES, redo_map_delete(&db, range(0, 7), B("k")));
    WANT(REDO_BAD_PARAMS, redo_create_pages(&s, path, 0, 4096, 1 << 20));
    WANT(REDO_OK, redo_create_pages(&s, path, 128, 4096, 1 << 20));
    WANT(REDO_OK, redo_map_count(&s, m, 0, 0, 0, 0, &n));
    if (n) fail("an empty range has %d pairs", (int)n);
    for (int i = 0; i < 200; i++) {
        snprintf(name, sizeof name, "k%03d", i * 7 % 200);
        WANT(REDO_OK, redo_map_set(&s, m, B(name), B(name)));
    }
    WANT(REDO_OK, redo_map_set(&s, m, B("k007"), B("seven")));
    WANT(REDO_OK, redo_map_get(&s, m, B("k007"), got, sizeof got, &n));
    if (n != 5 || memcmp(got, "seven", 5)) fail("the map's k007");
    WANT(REDO_OK, redo_map_delete(&s, m, B("k007")));
    WANT(REDO_NO_KEY, redo_map_delete(&s, m, B("k007")));
    WANT(REDO_NO_KEY, redo_map_get(&s, m, B("k007"), got, sizeof got, &n));
    WANT(REDO_OK, redo_map_range(&s, m, B("k005"), B("k012"), 4, &n));
    if (n != 4) fail("the range has %d pairs", (int)n);
    pair_is(&s, 0, "k005", "k005"), pair_is(&s, 3, "k009", "k009");
    WANT(REDO_NO_KEY, redo_map_pair(&s, 4, got, 1, got, 1, 0)), detail_of(&s, 0, 0);
    WANT(REDO_OK, redo_map_back(&s, m, B("k005"), B("k012"), UINT32_MAX, &n));
    if (n != 6) fail("the range back has %d pairs", (int)n);
    pair_is(&s, 0, "k011", "k011"), pair_is(&s, 5, "k005", "k005");
    WANT(REDO_OK, redo_map_range(&s, m, B("k198"), 0, 0, 9, &n));
    if (n != 2) fail("the end has %d pairs", (int)n);
    WANT(REDO_NO_OBJECT, redo_map_range(&s, range(9, 8), 0, 0, 0, 0, 9, &n)), pair_is(&s, 1, "k199", "k199");
    WANT(REDO_OK, redo_map_count(&s, m, B("k005"), B("k012"), &n));
    if (n != 6) fail("%d pairs are counted", (int)n);
    not_in_pages(&s, m), cursors(&s, m);
    WANT(REDO_OK, redo_snapshot_begin(&s));
    WANT(REDO_OK, redo_map_set(&s, m, B("k000"), B("new")));
    WANT(REDO_OK, redo_snapshot_end(&s));
    WANT(REDO_OK, redo_force(&s, &n));
    WANT(REDO_OK, redo_close(&s));
    WANT(REDO_OK, redo_open(&s, path));
    WANT(REDO_OK, redo_map_count(&s, m, 0, 0, 0, 0, &n));
    if (n != 100) fail("the map has %d pairs", (int)n);
    WANT(REDO_OK, redo_map_next(&s, m, 0, 0, 0, 0, 0, 0, 0)), pair_is(&s, 0, "k000", "new");
    WANT(REDO_OK, redo_close(&s));
}

static void applications(void) {
    put(0, "hello"), put(5, ""), put(6, "");
    WANT(REDO_OK, redo_app_read(&db, 5, 0));
    WANT(REDO_OK, redo_app_exec(&db, 5));
    WANT(REDO_OK, redo_app_run(&db, 5, 10, &n));
    if (n != 4) fail("%d steps", (int)n);
    WANT(REDO_NO_INPUT, redo_app_exec(&db, 5));
    WANT(REDO_OK, redo_app_write(&db, 5, 6));
    put(0, "no program"), put(6, "");
    WANT(REDO_OK, redo_program_read(&db, 6, 0));
    WANT(REDO_NOT_CODE, redo_program_exec(&db, 6, 0));
    WANT(REDO_NOT_CODE, redo_program_run(&db, 6, 0, 1, &n));
    WANT(REDO_OK, redo_program_write(&db, 6, 7));
    WANT(REDO_NO_OBJECT, redo_app_exec(&db, 8));
}

/* A group is given up. */
static void given_up(const char *folder) {
    redo_stat_t before, after;
    put(0, "kept"), put(1, "too");
    WANT(REDO_NO_GROUP, redo_group_abort(&db)), detail_is(0, 0);
    WANT(REDO_OK, redo_begin(&db));
    WANT(REDO_OK, redo_stat(&db, &before));
    put(0, "lost"), put(1, "lost"), is(0, "lost");
    WANT(REDO_OK, redo_group_abort(&db));
    WANT(REDO_NO_GROUP, redo_group_abort(&db));
    WANT(REDO_NO_GROUP, redo_end(&db));
    is(0, "kept"), is(1, "too");
    WANT(REDO_OK, redo_stat(&db, &after));
    if (after.accepted != before.accepted || after.forced != before.accepted) fail("the commands after a group was given up");
    WANT(REDO_OK, redo_close(&db));
    WANT(REDO_OK, redo_open(&db, folder));
    is(0, "kept"), is(1, "too");
}
/* A group of which no command meets a full log, or which is not begun. */
static void roomy(void) {
    WANT(REDO_LOG_FULL, redo_begin_room(&db, 65536)), detail_is_full(&db, 65536);
    WANT(REDO_LOG_FULL, redo_begin_room(&db, UINT64_MAX));
    WANT(REDO_OK, redo_begin_room(&db, 100));
    WANT(REDO_IN_GROUP, redo_begin_room(&db, 100)), detail_is(0, 0);
    put(2, "roomy");
    WANT(REDO_OK, redo_end(&db));
}
/* Where the store is not opened again, the handle has let it go, and the files have what was there before the group. */
extern bool fake_aborts_fail __attribute__((weak));
static void lost(const char *folder) {
    if (!&fake_aborts_fail) return;
    for (int in_txn = 0; in_txn < 2; in_txn++) {
        WANT(REDO_OK, in_txn ? redo_txn_begin(&db) : redo_begin(&db));
        put(0, "lost");
        fake_aborts_fail = true;
        WANT(REDO_DISK_FAULT, in_txn ? redo_txn_commit(&db) : redo_group_abort(&db)), detail_is(ENOMEM, 0);
        fake_aborts_fail = false;
        WANT(REDO_DISK_FAULT, redo_get(&db, 0, got, sizeof got, &n));
        WANT(REDO_OK, redo_close(&db));
        WANT(REDO_OK, redo_open(&db, folder));
        is(0, "kept");
    }
}

/* What takes no part in a transaction is refused within one. */
static void apart(void) {
    WANT(REDO_IN_TXN, redo_txn_begin(&db)), detail_is(0, 0);
    WANT(REDO_IN_TXN, redo_begin(&db));
    WANT(REDO_IN_TXN, redo_begin_room(&db, 1));
    WANT(REDO_NO_GROUP, redo_end(&db));
    WANT(REDO_NO_GROUP, redo_group_abort(&db));
}
/* Trees, hash files and runs are staged, and are seen; an abort drops them, and a commit keeps them. */
static void staged_calls(void) {
    redo_range_t tree = range(2, 3), hash = range(4, 5);
    for (uint32_t x = 2; x < 7; x++) put(x, "");
    for (int kept = 0; kept < 2; kept++) {
        WANT(REDO_OK, redo_txn_begin(&db));
        WANT(REDO_OK, redo_tree_insert(&db, tree, B("k"), B("v")));
        WANT(REDO_OK, redo_tree_insert(&db, tree, B("l"), B("w")));
        WANT(REDO_OK, redo_tree_delete(&db, tree, B("l")));
        WANT(REDO_NO_KEY, redo_tree_delete(&db, tree, B("l")));
        WANT(REDO_OK, redo_tree_get(&db, tree, B("k"), got, sizeof got, &n));
        WANT(REDO_OK, redo_tree_range(&db, tree, B("a"), B("z"), &n));
        if (n != 1) fail("%d pairs are staged", (int)n);
        WANT(REDO_NO_OBJECT, redo_tree_get(&db, range(0, 8), B("k"), got, sizeof got, &n));
        WANT(REDO_OK, redo_hash_put(&db, hash, B("k"), B("v")));
        WANT(REDO_OK, redo_hash_get(&db, hash, B("k"), got, sizeof got, &n));
        WANT(REDO_NO_KEY, redo_hash_delete(&db, hash, B("l")));
        WANT(REDO_OK, redo_app_read(&db, 6, 0));
        WANT(REDO_OK, redo_app_run(&db, 6, 100, &n));
        if (n != 4) fail("%d steps are staged", (int)n);
        WANT(REDO_OK, redo_program_run(&db, 6, 0, 0, &n));
        WANT(REDO_OK, kept ? redo_txn_commit(&db) : redo_txn_abort(&db));
        WANT(kept ? REDO_OK : REDO_NO_KEY, redo_tree_get(&db, tree, B("k"), got, sizeof got, &n));
        WANT(kept ? REDO_OK : REDO_NO_KEY, redo_hash_get(&db, hash, B("k"), got, sizeof got, &n));
    }
    WANT(REDO_OK, redo_tree_delete(&db, tree, B("k")));
    WANT(REDO_OK, redo_hash_delete(&db, hash, B("k")));
    for (uint32_t x = 2; x < 7; x++) put(x, "");
}
/* With upkeep on, the log has room for more than its limit. */
static void upkept(void) {
    uint8_t long_value[1024] = {0};
    WANT(REDO_OK, redo_upkeep(&db, 1));
    for (int i = 0; i < 400; i++) WANT(REDO_OK, redo_put(&db, 4, long_value, sizeof long_value));
    WANT(REDO_OK, redo_begin(&db));
    put(4, "");
    WANT(REDO_OK, redo_end(&db));
    WANT(REDO_OK, redo_upkeep(&db, 0));
}
static void transactions(const char *folder) {
    redo_stat_t before, after;
    uint8_t long_value[1024] = {0};
    WANT(REDO_NO_TXN, redo_txn_commit(&db)), detail_is(0, 0);
    WANT(REDO_NO_TXN, redo_txn_abort(&db));
    WANT(REDO_OK, redo_begin(&db));
    WANT(REDO_IN_GROUP, redo_txn_begin(&db));
    WANT(REDO_OK, redo_end(&db));
    WANT(REDO_OK, redo_stat(&db, &before));
    WANT(REDO_OK, redo_txn_begin(&db)), apart();
    put(0, "staged"), is(0, "staged"), is(1, "too");
    WANT(REDO_OK, redo_append(&db, 0, 1)), is(1, "toostaged");
    WANT(REDO_BAD_PLACE, redo_cut(&db, 0, 1, 7));
    WANT(REDO_NO_OBJECT, redo_put(&db, 8, B("x")));
    WANT(REDO_NO_OBJECT, redo_get(&db, 8, got, 1, &n));
    WANT(REDO_OK, redo_force(&db, &n));
    WANT(REDO_OK, redo_stat(&db, &after));
    if (after.accepted != before.accepted) fail("what is staged is no command of the store");
    WANT(REDO_OK, redo_txn_abort(&db)), is(0, "kept"), is(1, "too");
    staged_calls();
    WANT(REDO_OK, redo_txn_begin(&db));
    put(0, "staged"), put(1, "staged");
    WANT(REDO_OK, redo_txn_commit(&db)), is(0, "staged");
    WANT(REDO_NO_TXN, redo_txn_commit(&db));
    WANT(REDO_OK, redo_stat(&db, &before));
    WANT(REDO_OK, redo_txn_begin(&db));
    put(0, "lazy");
    WANT(REDO_OK, redo_txn_commit_lazily(&db)), is(0, "lazy");
    WANT(REDO_NO_TXN, redo_txn_commit_lazily(&db));
    WANT(REDO_OK, redo_stat(&db, &after));
    if (after.accepted != before.accepted + 1 || after.forced != before.forced) fail("a lazy commit forces nothing");
    put(0, "kept"), put(1, "too");
    while (redo_put(&db, 4, long_value, sizeof long_value) == REDO_OK) {}
    WANT(REDO_OK, redo_txn_begin(&db));
    for (uint32_t x = 5; x < 8; x++) WANT(REDO_OK, redo_put(&db, x, long_value, sizeof long_value));
    WANT(REDO_LOG_FULL, redo_txn_commit(&db)), detail_is_full(&db, 65536);
    WANT(REDO_OK, redo_drain(&db));
    WANT(REDO_OK, redo_trim(&db));
    WANT(REDO_OK, redo_txn_commit(&db));
    WANT(REDO_OK, redo_txn_begin(&db));
    for (uint32_t i = 0; i < 70; i++) WANT(REDO_OK, redo_put(&db, i % 8, long_value, sizeof long_value));
    WANT(REDO_LOG_FULL, redo_txn_commit(&db));
    WANT(REDO_OK, redo_close(&db));                     /* drops it */
    WANT(REDO_OK, redo_open(&db, folder));
    is(0, "kept");
}

/* What a snapshot answers, and what the store does. */
static void was(uint32_t x, const char *value) {
    WANT(REDO_OK, redo_snapshot_get(&db, x, got, sizeof got, &n));
    if (n != strlen(value) || memcmp(got, value, n)) fail("object %u had %d bytes: %.*s", x, (int)n, (int)n, (char *)got);
}
/* Whatever changes objects leaves what they were in the snapshot: the first value is in the same object each time. */
static int32_t change(int which) {
    redo_range_t r = range(0, 7);
    switch (which) {
    case 0: return redo_put(&db, 0, B("new"));
    case 1: return redo_copy(&db, 1, 0);
    case 2: return redo_append(&db, 1, 0);
    case 3: return redo_cut(&db, 0, 2, 1);
    case 4: return redo_cut(&db, 1, 0, 1);
    case 5: return redo_sort(&db, 1, 0, 1);
    case 6: return redo_swap(&db, 0, 1);
    case 7: return redo_swap(&db, 1, 0);
    case 8: return redo_app_read(&db, 0, 1);
    case 9: return redo_txn_begin(&db) ?: redo_put(&db, 0, B("new")) ?: redo_txn_commit(&db);
    case 10: return redo_txn_begin(&db) ?: redo_swap(&db, 1, 0) ?: redo_txn_commit_lazily(&db);
    case 11: return redo_begin(&db) ?: redo_put(&db, 0, B("new")) ?: redo_group_abort(&db);
    case 12: return redo_txn_begin(&db) ?: redo_put(&db, 0, B("new")) ?: redo_txn_abort(&db);
    case 13: return redo_put(&db, 0, B("")) ?: redo_put(&db, 1, B("")) ?: redo_tree_insert(&db, r, B("k"), B("v"));
    case 14: return redo_put(&db, 0, B("")) ?: redo_put(&db, 1, B("")) ?: redo_hash_put(&db, r, B("k"), B("v"));
    default: return -1;
    }
}
/* Where a test says so, no memory is left for a value that is to be kept. */
extern bool fake_keeps_fail __attribute__((weak));
static void drained(void) {
    WANT(REDO_OK, redo_drain(&db));
    WANT(REDO_OK, redo_trim(&db));
}
static void snapshots(void) {
    for (uint32_t x = 0; x < 8; x++) put(x, "");
    WANT(REDO_NO_SNAPSHOT, redo_snapshot_get(&db, 0, got, sizeof got, &n)), detail_is(0, 0);
    WANT(REDO_NO_SNAPSHOT, redo_snapshot_end(&db));
    for (int which = 0; which < 15; which++) {
        for (uint32_t x = 2; x < 8; x++) put(x, "");
        put(0, "old"), put(1, "one");
        WANT(REDO_OK, redo_snapshot_begin(&db));
        WANT(REDO_IN_SNAPSHOT, redo_snapshot_begin(&db));
        int32_t rc = change(which);
        if (rc != REDO_OK && rc != REDO_NOT_APP) fail("change %d: %s", which, redo_strerror(rc));
        was(0, "old"), was(1, "one"), was(2, "");
        put(0, "newer"), is(0, "newer"), was(0, "old");
        WANT(REDO_NO_OBJECT, redo_snapshot_get(&db, 8, got, 1, &n));
        WANT(REDO_NULL, redo_snapshot_get(&db, 0, 0, 1, &n));
        WANT(REDO_NO_LENGTH, redo_snapshot_get(&db, 0, got, 1, 0));
        WANT(REDO_OK, redo_snapshot_end(&db));
        drained();
    }
    WANT(REDO_OK, redo_begin(&db));
    put(0, "never");
    WANT(REDO_OK, redo_snapshot_begin(&db));
    WANT(REDO_OK, redo_group_abort(&db));
    WANT(REDO_GIVEN_UP, redo_snapshot_get(&db, 0, got, sizeof got, &n)), detail_is(0, 0);
    WANT(REDO_GIVEN_UP, redo_snapshot_get(&db, 1, got, sizeof got, &n));
    WANT(REDO_OK, redo_snapshot_end(&db));
    if (&fake_keeps_fail) {
        WANT(REDO_OK, redo_snapshot_begin(&db));
        fake_keeps_fail = true;
        put(0, "done"), is(0, "done");
        fake_keeps_fail = false;
        WANT(REDO_GIVEN_UP, redo_snapshot_get(&db, 0, got, sizeof got, &n));
        WANT(REDO_OK, redo_snapshot_end(&db));
    }
    put(0, "kept"), put(1, "too");
}

/* A child is killed within a group: what was forced is there, and of the group nothing. */
static void killed(const char *folder) {
    WANT(REDO_OK, redo_close(&db));
    pid_t child = fork();
    if (child == 0) {
        WANT(REDO_OK, redo_open(&db, folder));
        put(0, "kept");
        WANT(REDO_OK, redo_force(&db, &n));
        WANT(REDO_OK, redo_begin(&db));
        put(0, "lost"), put(1, "lost");
        kill(getpid(), SIGKILL);
    }
    int status = 0;
    waitpid(child, &status, 0);
    if (!WIFSIGNALED(status)) fail("the child ended with %d", status);
    WANT(REDO_OK, redo_open(&db, folder));
    is(0, "kept");
}

/* A handle may pass from one thread to another. */
static void *in_thread(void *unused) { return put(3, "thread"), unused; }
static void threads(void) {
    pthread_t t;
    if (pthread_create(&t, 0, in_thread, 0) || pthread_join(t, 0)) fail("no thread");
    is(3, "thread");
}

/* The first file that is opened takes the number of a stream that is closed. */
static void closed_streams(const char *folder) {
    WANT(REDO_OK, redo_close(&db));
    fflush(stdout);
    int kept = dup(1);
    close(1), close(0);
    WANT(REDO_OK, redo_open(&db, folder));
    if (write(1, "into no file\n", 13) != -1) fail("a file of the store has the number of a stream");
    dup2(kept, 1), close(kept);
    is(0, "kept");
}

int main(int argc, char **argv) {
    const char *folder = argc > 1 ? argv[1] : ".";
    closed(folder), made(folder), values(), nowhere(folder), groups(), upkeep(), backups(folder), maps(folder), pages(folder), applications(), given_up(folder), roomy(), lost(folder), upkept(), transactions(folder), snapshots(), killed(folder), threads();
    WANT(REDO_OK, redo_last_detail(&db, &(redo_detail_t){0, 0, 0}));
    closed_streams(folder);
    WANT(REDO_OK, redo_close(&db));
    WANT(REDO_NOT_OPEN, redo_close(&db));
    WANT(REDO_OK, redo_open(&other, folder));
    WANT(REDO_OK, redo_close(&other));
    puts("test_redo: ok");
    return 0;
}
