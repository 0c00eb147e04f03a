/* Answers that the small store of fake_core.c has not: test_answers FOLDER, an empty one. */
#include "want.h"
#include <sys/mman.h>
#include <sys/resource.h>
#include <sys/stat.h>

static void detail_is(const redo_t *db, uint64_t first, uint64_t second) {
    redo_detail_t d;
    WANT(REDO_OK, redo_last_detail(db, &d));
    if (d.first != first || d.second != second) fail("detail %d %d", (int)d.first, (int)d.second);
}

/* A pair of a hash file: the key says which, and each is told once. */
typedef struct { redo_t *db; uint64_t most, told; uint8_t seen[200]; } seen_t;
static int see(void *with, const void *key, size_t key_length, const void *value, size_t length) {
    seen_t *seen = with;
    char text[8] = "";
    if (key_length != 4 || length != key_length + 1 || memcmp(key, value, 4) || ((const char *)value)[4] != '!') fail("a pair");
    memcpy(text, key, 4);
    int i = atoi(text + 1);
    if (i < 0 || i >= 200 || seen->seen[i]++) fail("%s is told twice", text);
    WANT(REDO_BUSY, redo_get(seen->db, 0, 0, 0, 0));
    return ++seen->told == seen->most;
}
static void pairs(redo_t *db) {
    redo_range_t hash = range(2, 63);
    seen_t all = {.db = db, .most = 1000}, some = {.db = db, .most = 3};
    uint64_t n = 9;
    char key[8], value[8];
    int kept = 0;
    WANT(REDO_OK, redo_hash_each(db, hash, see, &all, &n));
    if (n || all.told) fail("a hash file that is not begun");
    for (int i = 0; i < 200; i++) {
        snprintf(key, sizeof key, "k%03d", i), snprintf(value, sizeof value, "k%03d!", i);
        int32_t answer = redo_hash_put(db, hash, B(key), B(value));
        if (answer == REDO_OK) kept++;
        else WANT(REDO_HASH_FULL, answer);
    }
    for (int i = 0; i < 10; i++) {
        snprintf(key, sizeof key, "k%03d", i);
        WANT(REDO_OK, redo_hash_delete(db, hash, B(key)));
    }
    WANT(REDO_OK, redo_hash_each(db, hash, see, &all, &n));
    if (n != (uint64_t)kept - 10 || all.told != n || all.seen[0] || !all.seen[10]) fail("%d pairs of %d", (int)n, kept - 10);
    WANT(REDO_OK, redo_hash_each(db, hash, 0, 0, &n));
    if (n != all.told || n < 100) fail("%d pairs are counted", (int)n);
    WANT(REDO_OK, redo_hash_each(db, hash, see, &some, &n));
    if (n != 3 || some.told != 3) fail("%d pairs were told", (int)n);
    WANT(REDO_OK, redo_hash_each(db, hash, 0, 0, 0));
    WANT(REDO_NO_OBJECT, redo_hash_each(db, range(2, 64), 0, 0, &n)), WANT(REDO_NO_OBJECT, redo_hash_each(db, range(3, 3), 0, 0, &n));
    WANT(REDO_OK, redo_txn_begin(db)), WANT(REDO_OK, redo_hash_delete(db, hash, B("k010"))), WANT(REDO_OK, redo_hash_each(db, hash, 0, 0, &n));
    if (n != all.told - 1) fail("%d pairs are counted within a transaction", (int)n);
    WANT(REDO_OK, redo_txn_abort(db));

    static const char *const spoilt[5] = {"\x04\0\1\1", "\x04\0\0\1", "\x03\0\0", "\x04\0", "\x04\0\1\1k\2v"};
    static const size_t lengths[5] = {4, 4, 3, 2, 7};
    uint8_t directory[6] = {3, 0, 1}, longer[600] = {4};
    WANT(REDO_OK, redo_put(db, 0, directory, sizeof directory));
    for (int i = 0; i < 5; i++) {
        WANT(REDO_OK, redo_put(db, 1, spoilt[i], lengths[i]));
        WANT(REDO_BAD_HASH, redo_hash_each(db, range(0, 1), 0, 0, &n)), detail_is(db, 1, 0);
    }
    WANT(REDO_OK, redo_put(db, 1, longer, sizeof longer));
    WANT(REDO_BAD_HASH, redo_hash_each(db, range(0, 1), 0, 0, &n)), detail_is(db, 1, 0);
    for (int i = 0; i < 3; i++) {
        WANT(REDO_OK, redo_put(db, 0, i == 0 ? (uint8_t[6]){3, 0, 2} : i == 1 ? (uint8_t[6]){3, 1, 1} : (uint8_t[6]){5, 0, 1}, 6));
        WANT(REDO_BAD_HASH, redo_hash_each(db, range(0, 1), 0, 0, &n)), detail_is(db, i == 0 ? 2 : 0, 0);
    }
}

/* No value makes a call ask for memory that is longer than a store's may be. */
static void huge(redo_t *db) {
    size_t length = (size_t)1 << 30;
    void *bytes = mmap(0, length, PROT_READ, MAP_PRIVATE | MAP_ANONYMOUS | MAP_NORESERVE, -1, 0);
    struct rlimit some = {(rlim_t)3 << 29, (rlim_t)3 << 29};
    if (bytes == MAP_FAILED || setrlimit(RLIMIT_AS, &some)) fail("no memory");
    WANT(REDO_TOO_LARGE, redo_put(db, 0, bytes, length));
    WANT(REDO_NO_OBJECT, redo_put(db, 16, bytes, length));
    WANT(REDO_BAD_KEY, redo_tree_insert(db, range(5, 5), B("k"), bytes, length));
    WANT(REDO_BAD_KEY, redo_hash_get(db, range(6, 7), bytes, length, 0, 0, 0));
    WANT(REDO_TOO_LONG, redo_map_set(db, range(14, 15), bytes, length, B("v")));
    WANT(REDO_TOO_LONG, redo_map_set(db, range(14, 15), B("k"), bytes, length));
    WANT(REDO_NO_KEY, redo_map_get(db, range(14, 15), bytes, length, 0, 0, 0));
    WANT(REDO_NO_KEY, redo_map_next(db, range(14, 15), bytes, length, 0, 0, 0, 0, 0));
    WANT(REDO_OK, redo_map_range(db, range(14, 15), bytes, length, bytes, length, 1, 0));
    munmap(bytes, length);
}

/* A map whose objects are no pages, and one whose pages are full: it can be emptied, and filled again. */
static void pages(const char *folder) {
    redo_t db = REDO_CLOSED;
    redo_range_t m = range(6, 11);
    uint64_t n;
    char path[4096], key[8] = "k00";
    uint8_t value[256] = {0}, got[256];
    int32_t rc = REDO_OK;
    snprintf(path, sizeof path, "%s/pages", folder);
    mkdir(path, 0777);
    WANT(REDO_OK, redo_create_pages(&db, path, 16, 1024, 65536));
    WANT(REDO_OK, redo_put(&db, 4, B("no page")));
    WANT(REDO_BAD_MAP, redo_map_get(&db, range(4, 5), B("k"), got, sizeof got, &n)), detail_is(&db, 4, 0);
    WANT(REDO_BAD_MAP, redo_map_set(&db, range(4, 5), B("k"), B("v"))), detail_is(&db, 4, 0);
    WANT(REDO_BAD_MAP, redo_map_delete(&db, range(4, 5), B("k")));
    WANT(REDO_BAD_MAP, redo_map_count(&db, range(4, 5), 0, 0, 0, 0, &n));
    WANT(REDO_BAD_MAP, redo_map_back(&db, range(4, 5), 0, 0, 0, 0, 1, &n)), detail_is(&db, 4, 0);
    WANT(REDO_BAD_MAP, redo_map_next(&db, range(4, 5), 0, 0, 0, 0, 0, 0, 0));
    for (int round = 0; round < 3; round++) {
        int count = 0;
        for (; rc == REDO_OK; count += rc == REDO_OK) {
            snprintf(key, sizeof key, "k%02d", count * 37 % 100);
            rc = redo_map_set(&db, m, B(key), value, sizeof value);
        }
        WANT(REDO_MAP_FULL, rc), detail_is(&db, 0, 0);
        WANT(REDO_OK, redo_map_count(&db, m, 0, 0, 0, 0, &n));
        if (n != (uint64_t)count || count < 6) fail("%d pairs are in six pages, not %d", (int)n, count);
        while ((rc = redo_map_next(&db, m, 0, 0, key, 3, 0, 0, 0)) == REDO_OK) WANT(REDO_OK, redo_map_delete(&db, m, key, 3));
        WANT(REDO_NO_KEY, rc), rc = REDO_OK;
        WANT(REDO_OK, redo_drain(&db));
        WANT(REDO_OK, redo_trim(&db));
    }
    WANT(REDO_OK, redo_close(&db));
}

int main(int argc, char **argv) {
    const char *folder = argc > 1 ? argv[1] : ".";
    redo_t db = REDO_CLOSED;
    uint64_t n;
    char key[4] = "k00", path[4096];
    uint8_t got[32], halt[8] = {0};
    WANT(REDO_OK, redo_create(&db, folder, 16, 1024, 65536));
    WANT(REDO_OK, redo_put(&db, 1, B("x")));
    WANT(REDO_NOT_APP, redo_app_exec(&db, 1));
    WANT(REDO_NOT_APP, redo_program_exec(&db, 1, 0));
    WANT(REDO_SAME, redo_app_read(&db, 1, 1));
    WANT(REDO_OK, redo_put(&db, 2, halt, sizeof halt));
    WANT(REDO_OK, redo_program_exec(&db, 3, 2));
    WANT(REDO_HALTED, redo_program_exec(&db, 3, 2));
    WANT(REDO_OK, redo_put(&db, 4, B("no node")));
    WANT(REDO_BAD_TREE, redo_tree_get(&db, range(4, 10), B("k"), got, sizeof got, &n)), detail_is(&db, 4, 0);
    WANT(REDO_BAD_TREE, redo_tree_insert(&db, range(4, 10), B("k"), B("v"))), detail_is(&db, 4, 0);
    for (int i = 0; i < 7; i++) {
        key[2] = (char)('0' + i);
        WANT(REDO_OK, redo_tree_insert(&db, range(5, 5), B(key), B("v")));
        WANT(REDO_OK, redo_hash_put(&db, range(6, 7), B(key), B("v")));
    }
    WANT(REDO_TREE_FULL, redo_tree_insert(&db, range(5, 5), B("k7"), B("v")));
    WANT(REDO_NO_ROOM, redo_hash_put(&db, range(6, 7), B("k7"), B("v"))), detail_is(&db, 0, 0);
    WANT(REDO_OK, redo_put(&db, 9, B("no directory")));
    WANT(REDO_BAD_HASH, redo_hash_get(&db, range(9, 12), B("k"), got, sizeof got, &n)), detail_is(&db, 9, 0);
    pages(folder), huge(&db);
    WANT(REDO_OK, redo_force(&db, &n));
    WANT(REDO_OK, redo_close(&db));

    snprintf(path, sizeof path, "%s/pairs", folder);
    if (mkdir(path, 0777)) fail("%s cannot be made", path);
    WANT(REDO_OK, redo_create(&db, path, 64, 1024, 65536)), pairs(&db);
    WANT(REDO_OK, redo_close(&db));

    /* A create that was cut short at its first byte, which a crash may leave as any, has made no store, and may be made again. */
    for (int byte = 0; byte < 3; byte++) {
        char file[sizeof path + 16];
        snprintf(path, sizeof path, "%s/torn%d", folder, byte);
        snprintf(file, sizeof file, "%s/objects.rdo", path);
        mkdir(path, 0777);
        FILE *torn = fopen(file, "wb");
        if (!torn || fputc(byte, torn) == EOF || fclose(torn)) fail("%s cannot be written", file);
        WANT(byte == 1 ? REDO_DAMAGED : REDO_NOT_A_STORE, redo_open(&db, path));
        WANT(REDO_OK, redo_create(&db, path, 16, 1024, 65536));
        WANT(REDO_OK, redo_close(&db));
    }

    /* A byte of the header is spoilt: the store says where, and the handle is closed. */
    snprintf(path, sizeof path, "%s/objects.rdo", folder);
    FILE *f = fopen(path, "r+b");
    if (!f || fseek(f, 12, SEEK_SET) || fputc(255, f) == EOF || fclose(f)) fail("%s cannot be written", path);
    WANT(REDO_DAMAGED, redo_open(&db, folder)), detail_is(&db, 0, 9);
    WANT(REDO_NOT_OPEN, redo_close(&db));
    puts("test_answers: ok");
    return 0;
}
