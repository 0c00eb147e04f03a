/* The ways to open a store, and what an answer says in words: test_opening FOLDER, an empty one. */
#include "calls.h"
#include "want.h"
#include <signal.h>
#include <sys/socket.h>
#include <sys/stat.h>
#include <sys/wait.h>
#include <time.h>

static const redo_params_t numbers = {64, 1024, 65536};
static redo_t db = REDO_CLOSED, reader = REDO_CLOSED, other = REDO_CLOSED;
static uint64_t n;
static uint8_t got[2048];

static void is(redo_t *of, uint32_t x, const char *value) {
    WANT(REDO_OK, redo_get(of, x, got, sizeof got, &n));
    if (n != strlen(value) || memcmp(got, value, n)) fail("object %u has %d bytes: %.*s", x, (int)n, (int)n, (char *)got);
}
static void says(const redo_t *of, const char *wanted) {
    char text[160];
    const char *said = redo_last_error(of, text, sizeof text);
    if (said != text || strcmp(text, wanted) != 0) fail("'%s' in the place of '%s'", said, wanted);
}
static double now(void) {
    struct timespec t;
    clock_gettime(CLOCK_MONOTONIC, &t);
    return (double)t.tv_sec + (double)t.tv_nsec / 1e9;
}
static void no_call_was_made(const char *what) {
    for (size_t i = 0; i < made_count; i++)
        if (made[i].done == WRITTEN || made[i].done == MADE) fail("%s: file %d was written", what, made[i].file);
}

/* A log with a block, without an objects file, is kept. */
static void old_log(const char *folder) {
    char path[4096], log[40] = "\1RDOLOG01";
    snprintf(path, sizeof path, "%s/log_b.rdo", folder);
    log[33] = 1;
    FILE *f = fopen(path, "wb");
    if (!f || fwrite(log, 1, sizeof log, f) != sizeof log || fclose(f)) fail("%s cannot be written", path);
    WANT(REDO_OLD_LOG, redo_open_with(&db, folder, REDO_OR_CREATE, 0, &numbers));
    remove(path);
    if (access_in(folder, "objects.rdo")) fail("a file was made");
}

/* A store is made where none is, once, and opened where one is. */
static void or_create(const char *folder) {
    redo_params_t p, bad = {0, 0, 0};
    WANT(REDO_BAD_WAY, redo_open_with(&db, folder, 4, 0, &numbers));
    WANT(REDO_BAD_WAY, redo_open_with(&db, folder, REDO_OR_CREATE | REDO_TO_READ, 0, &numbers));
    WANT(REDO_NULL, redo_open_with(&db, folder, REDO_OR_CREATE, 0, 0));
    WANT(REDO_NULL, redo_open_with(&db, 0, REDO_OR_CREATE, 0, &numbers));
    WANT(REDO_NOT_A_STORE, redo_open_with(&db, folder, 0, 0, &numbers));
    WANT(REDO_NOT_A_STORE, redo_open_with(&db, folder, REDO_TO_READ, 0, 0));
    WANT(REDO_BAD_PARAMS, redo_open_with(&db, folder, REDO_OR_CREATE, 0, &bad));
    WANT(REDO_OK, redo_open_with(&db, folder, REDO_OR_CREATE, 0, &numbers));
    WANT(REDO_ALREADY_OPEN, redo_open_with(&db, folder, REDO_OR_CREATE, 0, &numbers));
    WANT(REDO_ALREADY_OPEN, redo_open_with(&db, folder, 4, 0, 0));
    WANT(REDO_OK, redo_put(&db, 0, B("first"))), WANT(REDO_OK, redo_force(&db, &n));
    WANT(REDO_OK, redo_close(&db));
    WANT(REDO_OK, redo_open_with(&db, folder, REDO_OR_CREATE, 0, &bad)), is(&db, 0, "first");
    WANT(REDO_OK, redo_params(&db, &p));
    if (memcmp(&p, &numbers, sizeof p)) fail("the numbers of the store");
    WANT(REDO_OK, redo_close(&db));
}

/* One that has maps of wide pages is made, and read. */
static void with_pages(const char *folder) {
    redo_params_t wide = {8, 1024, 65536};
    char path[4096];
    snprintf(path, sizeof path, "%s/pages", folder);
    mkdir(path, 0777);
    WANT(REDO_BAD_WAY, redo_open_with(&db, path, REDO_TO_READ | REDO_WITH_PAGES, 0, 0));
    WANT(REDO_OK, redo_open_with(&db, path, REDO_OR_CREATE | REDO_WITH_PAGES, 0, &wide));
    WANT(REDO_OK, redo_map_set(&db, range(0, 7), B("k"), B("v"))), WANT(REDO_OK, redo_force(&db, &n));
    WANT(REDO_OK, redo_close(&db));
    WANT(REDO_OK, redo_open_with(&db, path, REDO_TO_READ, 0, 0));
    WANT(REDO_OK, redo_map_get(&db, range(0, 7), B("k"), got, sizeof got, &n));
    WANT(REDO_OK, redo_map_next(&db, range(0, 7), 0, 0, 0, 0, got, sizeof got, 0));
    WANT(REDO_READ_ONLY, redo_map_set(&db, range(0, 7), B("k"), B("w")));
    WANT(REDO_READ_ONLY, redo_map_delete(&db, range(0, 7), B("k")));
    WANT(REDO_OK, redo_close(&db));
}

/* A log without an objects file is kept, and so is what is damaged. */
static void nothing_is_overwritten(const char *folder) {
    char path[4096], aside[4096], byte = 0;
    snprintf(path, sizeof path, "%s/objects.rdo", folder), snprintf(aside, sizeof aside, "%s/aside", folder);
    if (rename(path, aside)) fail("no objects file");
    int32_t answer = redo_open_with(&db, folder, REDO_OR_CREATE, 0, &numbers);
    if (answer == REDO_OK) WANT(REDO_OK, redo_close(&db));      /* that of the small store looks otherwise */
    else WANT(REDO_OLD_LOG, answer);
    if (rename(aside, path)) fail("no objects file");
    snprintf(path, sizeof path, "%s/log_b.rdo", folder);
    if (answer == REDO_OK) return;
    FILE *f = fopen(path, "r+b");
    if (!f || fwrite(&byte, 1, 1, f) != 1 || fclose(f)) fail("%s cannot be written", path);
    snprintf(path, sizeof path, "%s/log_a.rdo", folder);
    if (truncate(path, 0)) fail("%s cannot be cut", path);
    WANT(REDO_DAMAGED, redo_open_with(&db, folder, REDO_OR_CREATE, 0, &numbers));
}

/* A child has the store until it is told, and a little longer; who waits long enough gets it. */
static void waits(const char *folder) {
    int ends[2], status = 1;
    char byte;
    if (socketpair(AF_UNIX, SOCK_STREAM, 0, ends)) fail("no pair of sockets");
    pid_t child = fork();
    if (child == 0) {
        WANT(REDO_OK, redo_open(&other, folder));
        if (write(ends[1], "o", 1) != 1 || read(ends[1], &byte, 1) != 1) fail("no word from the parent");
        usleep(100000);
        WANT(REDO_OK, redo_close(&other));
        _exit(0);
    }
    if (read(ends[0], &byte, 1) != 1) fail("no word from the child");
    WANT(REDO_LOCKED, redo_open(&db, folder));
    WANT(REDO_LOCKED, redo_open_with(&db, folder, REDO_TO_READ, 0, 0));
    double start = now();
    WANT(REDO_LOCKED, redo_open_with(&db, folder, REDO_TO_READ, 30, 0)), says(&db, "another handle or process has the store");
    if (now() - start < 0.03) fail("the wait was too short");
    if (write(ends[0], "c", 1) != 1) fail("no word to the child");
    WANT(REDO_OK, redo_open_with(&db, folder, REDO_OR_CREATE, 60000, &numbers));
    WANT(REDO_OK, redo_close(&db));
    if (waitpid(child, &status, 0) != child || status != 0) fail("the child ended with %d", status);
    close(ends[0]), close(ends[1]);
}

static void reads(redo_t *of) {
    redo_stat_t stat;
    redo_params_t p;
    is(of, 0, "first");
    WANT(REDO_OK, redo_stat(of, &stat)), WANT(REDO_OK, redo_params(of, &p));
    WANT(REDO_OK, redo_tree_get(of, (redo_range_t){8, 15}, B("ann"), got, sizeof got, &n));
    WANT(REDO_OK, redo_tree_range(of, (redo_range_t){8, 15}, B("a"), B("z"), &n));
    WANT(REDO_OK, redo_tree_pair(of, 0, got, 32, got + 32, 32, 0));
    WANT(REDO_OK, redo_hash_get(of, (redo_range_t){16, 31}, B("bob"), got, sizeof got, &n));
    WANT(REDO_NO_KEY, redo_hash_get(of, (redo_range_t){16, 31}, B("eve"), got, sizeof got, &n));
    WANT(REDO_NO_OBJECT, redo_get(of, 64, got, sizeof got, &n));
    WANT(REDO_OK, redo_hash_each(of, (redo_range_t){16, 31}, 0, 0, &n));
    WANT(REDO_OK, redo_snapshot_begin(of));
    WANT(REDO_OK, redo_snapshot_get(of, 0, got, sizeof got, &n));
    WANT(REDO_OK, redo_snapshot_end(of));
}
static void changes_nothing(redo_t *of, const char *folder) {
    redo_range_t tree = {8, 15}, hash = {16, 31};
    WANT(REDO_READ_ONLY, redo_put(of, 0, B("x"))), says(of, "the handle only reads");
    WANT(REDO_READ_ONLY, redo_copy(of, 0, 1)), WANT(REDO_READ_ONLY, redo_append(of, 0, 1));
    WANT(REDO_READ_ONLY, redo_cut(of, 0, 1, 2)), WANT(REDO_READ_ONLY, redo_sort(of, 0, 1, 1));
    WANT(REDO_READ_ONLY, redo_swap(of, 0, 1));
    WANT(REDO_READ_ONLY, redo_force(of, &n)), WANT(REDO_READ_ONLY, redo_install(of, &n));
    WANT(REDO_READ_ONLY, redo_tend(of, 1, &n)), WANT(REDO_READ_ONLY, redo_drain(of));
    WANT(REDO_READ_ONLY, redo_checkpoint(of)), WANT(REDO_READ_ONLY, redo_trim(of)), WANT(REDO_READ_ONLY, redo_upkeep(of, 1));
    WANT(REDO_READ_ONLY, redo_begin(of)), WANT(REDO_READ_ONLY, redo_begin_room(of, 1));
    WANT(REDO_READ_ONLY, redo_end(of)), WANT(REDO_READ_ONLY, redo_group_abort(of));
    WANT(REDO_READ_ONLY, redo_txn_begin(of)), WANT(REDO_READ_ONLY, redo_txn_abort(of));
    WANT(REDO_READ_ONLY, redo_txn_commit(of)), WANT(REDO_READ_ONLY, redo_txn_commit_lazily(of));
    WANT(REDO_READ_ONLY, redo_backup_start(of, folder)), WANT(REDO_READ_ONLY, redo_backup_copy(of, 1, &n));
    WANT(REDO_READ_ONLY, redo_backup_finish(of, &n)), WANT(REDO_READ_ONLY, redo_backup_give_up(of));
    WANT(REDO_READ_ONLY, redo_tree_insert(of, tree, B("k"), B("v"))), WANT(REDO_READ_ONLY, redo_tree_delete(of, tree, B("ann")));
    WANT(REDO_READ_ONLY, redo_hash_put(of, hash, B("k"), B("v"))), WANT(REDO_READ_ONLY, redo_hash_delete(of, hash, B("bob")));
    WANT(REDO_READ_ONLY, redo_app_exec(of, 0)), WANT(REDO_READ_ONLY, redo_app_read(of, 0, 1));
    WANT(REDO_READ_ONLY, redo_app_write(of, 0, 1)), WANT(REDO_READ_ONLY, redo_app_run(of, 0, 1, &n));
    WANT(REDO_READ_ONLY, redo_program_exec(of, 0, 1)), WANT(REDO_READ_ONLY, redo_program_read(of, 0, 1));
    WANT(REDO_READ_ONLY, redo_program_write(of, 0, 1)), WANT(REDO_READ_ONLY, redo_program_run(of, 0, 1, 1, &n));
}

/* Many read what a kill has left, and none writes: not to the files, which are opened to be read. */
static void readers(const char *folder) {
    redo_range_t tree = {8, 15}, hash = {16, 31};
    pid_t child = fork();
    if (child == 0) {
        WANT(REDO_OK, redo_open(&db, folder));
        WANT(REDO_OK, redo_tree_insert(&db, tree, B("ann"), B("1"))), WANT(REDO_OK, redo_hash_put(&db, hash, B("bob"), B("2")));
        WANT(REDO_OK, redo_put(&db, 1, B("second"))), WANT(REDO_OK, redo_force(&db, &n));
        kill(getpid(), SIGKILL);
    }
    waitpid(child, 0, 0);
    recording = true;
    WANT(REDO_OK, redo_open_with(&reader, folder, REDO_TO_READ, 0, 0));
    WANT(REDO_OK, redo_open_with(&other, folder, REDO_TO_READ, 0, 0));
    WANT(REDO_LOCKED, redo_open(&db, folder)), WANT(REDO_LOCKED, redo_open_with(&db, folder, REDO_OR_CREATE, 5, &numbers));
    reads(&reader), reads(&other), changes_nothing(&reader, folder), reads(&reader), is(&other, 1, "second");
    WANT(REDO_OK, redo_close(&reader));
    WANT(REDO_LOCKED, redo_open(&db, folder));
    WANT(REDO_OK, redo_close(&other));
    recording = false;
    no_call_was_made("a reader");
    WANT(REDO_OK, redo_open(&db, folder)), is(&db, 1, "second");
    WANT(REDO_LOCKED, redo_open_with(&reader, folder, REDO_TO_READ, 0, 0));
    WANT(REDO_OK, redo_close(&db));
}

/* A file system that cannot be written to may have no sync. What else fails is said, and closes the handle. */
static void readers_faults(const char *folder) {
    static const int reasons[3] = {EROFS, EINVAL, EIO};
    for (int i = 0; i < 3; i++) {
        bool is_passed_over = reasons[i] != EIO, is_failing = true;
        for (unsigned at = 1; is_failing; at++) {
            fail_which = FSYNC, fail_at = at, fail_why = reasons[i], has_failed = false;
            int32_t answer = redo_open_with(&reader, folder, REDO_TO_READ, 0, 0);
            fail_at = 0, is_failing = has_failed;
            WANT(is_failing && !is_passed_over ? REDO_DISK_FAULT : REDO_OK, answer);
            if (answer == REDO_DISK_FAULT && at == 1) says(&reader, "the folder of the store could not be synced: Input/output error");
            if (answer == REDO_DISK_FAULT && at == 2) says(&reader, "objects.rdo of the store could not be synced: Input/output error");
            WANT(answer == REDO_OK ? REDO_OK : REDO_NOT_OPEN, redo_close(&reader));
        }
    }
    fail_which = OPENAT, fail_at = 2, fail_why = EACCES;
    WANT(REDO_DISK_FAULT, redo_open_with(&reader, folder, REDO_TO_READ, 0, 0));
    says(&reader, "log_a.rdo of the store could not be opened: Permission denied");
    fail_which = FSYNC, fail_at = 1, fail_why = EROFS;
    WANT(REDO_DISK_FAULT, redo_open(&db, folder));
    fail_at = 0, fail_why = EIO;
}

static void says_memory(void) {
    redo_detail_t d;
    WANT(REDO_OK, redo_last_detail(&db, &d)), says(&db, "memory was refused in the middle of a call on the store");
    if (d.first != ENOMEM || d.second || d.third) fail("the detail of memory is %d %d %d", (int)d.first, (int)d.second, (int)d.third);
}

/* What an answer says in words. */
extern bool fake_aborts_fail __attribute__((weak)), fake_calls_are_long __attribute__((weak));
static void words(const char *folder) {
    char text[160], few[8];
    redo_t none = REDO_CLOSED;
    says(&none, "done");
    WANT(REDO_NO_FOLDER, redo_open(&none, "/nowhere/at/all"));
    says(&none, "the folder is not there, or cannot be locked: No such file or directory");
    if (redo_last_error(&none, 0, 16) != redo_strerror(REDO_NO_FOLDER)) fail("a text without room");
    if (redo_last_error(&none, few, 0) != redo_strerror(REDO_NO_FOLDER)) fail("a text without room");
    if (strcmp(redo_last_error(&none, few, sizeof few), "the fol") != 0) fail("a text that is cut: %s", few);
    WANT(REDO_OK, redo_open(&db, folder));
    WANT(REDO_NO_OBJECT, redo_get(&db, 64, got, sizeof got, &n)), says(&db, "the store has no such object");
    WANT(REDO_OK, redo_get(&db, 0, got, sizeof got, &n)), says(&db, "the store has no such object");
    WANT(REDO_OK, redo_begin(&db)), WANT(REDO_OK, redo_put(&db, 1, B("second")));
    WANT(REDO_IN_GROUP, redo_force(&db, &n)), says(&db, "not within a group (commands in it: 1)");
    WANT(REDO_OK, redo_end(&db));
    int32_t rc;
    memset(got, 'x', 1000);
    while ((rc = redo_put(&db, 2, got, 1000)) == REDO_OK) {}
    WANT(REDO_LOG_FULL, rc), redo_last_error(&db, text, sizeof text);
    if (strncmp(text, "the log is full: ", 17) != 0 || !strstr(text, " needed, of 65536")) fail("%s", text);
    WANT(REDO_OK, redo_drain(&db)), WANT(REDO_OK, redo_trim(&db)), WANT(REDO_OK, redo_put(&db, 2, B("third")));
    fail_which = FDATASYNC, fail_at = 1;
    WANT(REDO_DISK_FAULT, redo_force(&db, &n));
    redo_last_error(&db, text, sizeof text);
    if (!strstr(text, " of the store could not be synced: Input/output error")) fail("%s", text);
    WANT(REDO_DISK_FAULT, redo_get(&db, 0, got, sizeof got, &n));
    if (strcmp(redo_last_error(&db, few, sizeof few), text) == 0) fail("a text that is not cut: %s", few);
    WANT(REDO_OK, redo_close(&db)), says(&db, "done");
    if (!&fake_aborts_fail) return;
    WANT(REDO_OK, redo_open(&db, folder)), WANT(REDO_OK, redo_begin(&db));
    fake_aborts_fail = true;
    WANT(REDO_DISK_FAULT, redo_group_abort(&db)), says_memory();
    fake_aborts_fail = false;
    WANT(REDO_OK, redo_close(&db));
    WANT(REDO_OK, redo_open(&db, folder)), WANT(REDO_OK, redo_put(&db, 1, B("lost")));
    fake_calls_are_long = true;
    WANT(REDO_DISK_FAULT, redo_force(&db, &n)), says_memory();
    fake_calls_are_long = false;
    WANT(REDO_OK, redo_close(&db));
}

/* What fails of a backup is called so. */
static void words_of_backups(const char *folder) {
    char path[4096];
    snprintf(path, sizeof path, "%s/copy", folder);
    if (mkdir(path, 0777)) fail("%s cannot be made", path);
    WANT(REDO_OK, redo_open(&db, folder)), WANT(REDO_OK, redo_force(&db, &n));
    fail_which = FSYNC, fail_at = 1;
    WANT(REDO_BACKUP_FAULT, redo_backup_start(&db, path));
    says(&db, "the folder of the backup could not be synced: Input/output error");
    WANT(REDO_OK, redo_backup_start(&db, path)), WANT(REDO_OK, redo_backup_copy(&db, 4, &n));
    WANT(REDO_NOT_COPIED, redo_backup_finish(&db, &n)), says(&db, "not all objects are copied (copied: 4)");
    WANT(REDO_OK, redo_backup_copy(&db, 64, &n));
    WANT(REDO_OK, redo_backup_finish(&db, &n));
    WANT(REDO_OK, redo_close(&db));
    WANT(REDO_OK, redo_open_with(&reader, path, REDO_TO_READ, 0, 0)), is(&reader, 0, "first");
    WANT(REDO_OK, redo_close(&reader));
}

int main(int argc, char **argv) {
    const char *folder = argc > 1 ? argv[1] : ".";
    if (strcmp(redo_version_string(), REDO_VERSION_STRING) != 0) fail("the version is %s", redo_version_string());
    old_log(folder), or_create(folder), with_pages(folder), waits(folder), readers(folder), readers_faults(folder), words(folder), words_of_backups(folder);
    nothing_is_overwritten(folder);
    puts("test_opening: ok");
    return 0;
}
