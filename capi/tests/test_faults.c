/* What happens when a call on a file fails, and what a crash leaves at each call: test_faults FOLDER, an empty one. */
#define _GNU_SOURCE
#include "calls.h"
#include "want.h"
#include <fcntl.h>
#include <sys/stat.h>

/* The commands: the i-th puts the numbers below i into object 0, so that object 0 says how many were done. Each third one is
 * followed by a force, and two of them by a trim. */
enum { COMMANDS = 24 };
static uint8_t numbers[COMMANDS];
static const char *const names[3] = {"objects.rdo", "log_a.rdo", "log_b.rdo"};

static char root[4096];
static const char *in_root(const char *name) {
    static char path[2][8192];
    static int turn;
    char *p = path[turn ^= 1];
    snprintf(p, sizeof path[0], "%s/%s", root, name);
    return p;
}
static void empty(const char *folder) {
    char path[12288];
    mkdir(folder, 0777);
    for (int i = 0; i < 3; i++) snprintf(path, sizeof path, "%s/%s", folder, names[i]), unlink(path);
}

/* What a run was told: how many commands were accepted, how many of them to be durable, and the first answer that was not 0. */
typedef struct { bool is_made; int accepted, forced; int32_t answer; size_t made_at[COMMANDS + 1]; size_t store_at; } told_t;

/* Some puts are those of a transaction, and come behind a group that is given up. */
static int32_t put(redo_t *db, int i) {
    if (i % 5) return redo_put(db, 0, numbers, (size_t)i);
    return redo_begin(db) ?: redo_put(db, 0, "never", 5) ?: redo_group_abort(db) ?: redo_txn_begin(db)
        ?: redo_put(db, 0, numbers, (size_t)i) ?: redo_txn_commit(db);
}
static bool is_done(told_t *t, int32_t rc) { return t->answer = rc, rc == REDO_OK; }
static told_t run(const char *folder, redo_t *db) {
    told_t t = {0};
    uint64_t n;
    if (!is_done(&t, redo_create(db, folder, 4, 64, 65536))) return t;
    t.is_made = true, t.store_at = made_count;
    for (int i = 1; i <= COMMANDS; i++) {
        if (!is_done(&t, put(db, i))) return t;
        t.accepted = i;
        if (i % 3 == 0) {
            if (!is_done(&t, redo_force(db, &n))) return t;
            if (n != (uint64_t)i) fail("%d forced in the place of %d", (int)n, i);
            t.forced = i, t.made_at[i] = made_count;
        }
        if (i % 9 == 0 && !(is_done(&t, redo_drain(db)) && is_done(&t, redo_trim(db)))) return t;
    }
    return t;
}

/* How many commands a store has; -1 where the folder has none that is whole, as before redo_create has answered. */
static int commands_in(const char *folder) {
    redo_t db = REDO_CLOSED;
    uint8_t got[64];
    uint64_t n = 0;
    int32_t rc = redo_open(&db, folder);
    if (rc == REDO_NOT_A_STORE || rc == REDO_DAMAGED) return -1;
    WANT(REDO_OK, rc);
    WANT(REDO_OK, redo_get(&db, 0, got, sizeof got, &n));
    if (n > COMMANDS || memcmp(got, numbers, n)) fail("a value that was never put");
    redo_stat_t s;
    WANT(REDO_OK, redo_stat(&db, &s));
    if (s.accepted != n) fail("%d commands, and object 0 has %d bytes", (int)s.accepted, (int)n);
    WANT(REDO_OK, redo_put(&db, 1, numbers, 1));
    WANT(REDO_OK, redo_force(&db, &n));
    WANT(REDO_OK, redo_close(&db));
    return (int)n - 1;
}

/* What is let go are files of the store. */
static bool has_input;
static void input_stays(void) {
    if (has_input && fcntl(0, F_GETFD) < 0) fail("a file of the program's own is closed");
}

/* After a disk fault the handle answers nothing else, its lock is gone, and the store has what was forced. */
static void check_failed(const char *folder, redo_t *db, told_t told) {
    uint64_t n;
    redo_detail_t d;
    if (told.answer == REDO_OK) fail("no answer tells of the fault");
    redo_last_detail(db, &d);
    if (told.is_made) {
        WANT(REDO_DISK_FAULT, told.answer);
        if (d.first != EIO) fail("the reason is %d", (int)d.first);
        WANT(REDO_DISK_FAULT, redo_put(db, 0, numbers, 1));
        WANT(REDO_DISK_FAULT, redo_force(db, &n));
        WANT(REDO_DISK_FAULT, redo_get(db, 0, 0, 0, &n));
        WANT(REDO_ALREADY_OPEN, redo_open(db, folder));
        WANT(REDO_OK, redo_close(db));
    }
    WANT(REDO_NOT_OPEN, redo_close(db)), input_stays();
    int count = commands_in(folder);
    if (count == -1 ? told.is_made : count < told.forced || count > told.accepted + 1)
        fail("%d commands after %d were forced and %d accepted", count, told.forced, told.accepted);
}

/* A backup, and commands meanwhile: how many were accepted, whether the finish was asked for, how many it saved, and the first
 * answer that was not 0. */
typedef struct { int accepted; bool is_asked; uint64_t saved; int32_t answer; } backup_t;
static backup_t back_up(redo_t *db, const char *copy) {
    backup_t b = {0};
    uint64_t n;
    if ((b.answer = redo_backup_start(db, copy)) != REDO_OK) return b;
    for (int i = 1; i <= 3; i++) {
        if ((b.answer = redo_put(db, 0, numbers, (size_t)i)) != REDO_OK) return b;
        b.accepted = i;
        if (i == 2 && (b.answer = redo_drain(db)) != REDO_OK) return b;
        if ((b.answer = redo_backup_copy(db, i == 1 ? 1 : 2, &n)) != REDO_OK) return b;
    }
    b.is_asked = true;
    b.answer = redo_backup_finish(db, &b.saved);
    return b;
}

/* Where a file of the backup failed the store goes on without it; where one of the store did, the handle answers nothing else. The
 * copy's folder is let go, and is no store, or, where its finish was asked for, all of it. */
static void check_failed_backup(const char *folder, const char *copy, redo_t *db, backup_t b) {
    uint64_t n;
    redo_detail_t d;
    redo_last_detail(db, &d);
    if (d.first != EIO) fail("the reason is %d", (int)d.first);
    if (b.answer == REDO_DISK_FAULT) {
        WANT(REDO_DISK_FAULT, redo_backup_give_up(db));
    } else {
        if (b.answer != REDO_BACKUP_FAULT && (b.answer != REDO_NO_FOLDER || b.accepted)) fail("the answer is %d", b.answer);
        WANT(REDO_NO_BACKUP, redo_backup_give_up(db));
        WANT(REDO_OK, redo_put(db, 0, numbers, (size_t)b.accepted + 1));
        WANT(REDO_OK, redo_force(db, &n));
    }
    int saved = commands_in(copy);
    WANT(REDO_OK, redo_close(db)), input_stays();
    int kept = commands_in(folder);
    if (saved != -1 && (!b.is_asked || saved != b.accepted)) fail("%d commands are saved of %d", saved, b.accepted);
    if (kept > b.accepted + 1 || (b.answer != REDO_DISK_FAULT && kept != b.accepted + 1)) fail("%d commands of %d", kept, b.accepted);
}

static void each_fault_of_backup(void) {
    const char *folder = in_root("saved"), *copy = in_root("copy");
    for (int kind = 0; kind < CALLS; kind++) {
        for (unsigned at = 1;; at++) {
            redo_t db = REDO_CLOSED;
            empty(folder), empty(copy);
            WANT(REDO_OK, redo_create(&db, folder, 4, 64, 65536));
            fail_which = (enum which)kind, fail_at = at, has_failed = false, fail_why = EIO;
            backup_t b = back_up(&db, copy);
            fail_at = 0;
            if (has_failed) {
                check_failed_backup(folder, copy, &db, b);
                continue;
            }
            WANT(REDO_OK, b.answer);
            WANT(REDO_OK, redo_close(&db));
            if (b.saved != 3 || commands_in(copy) != 3) fail("not all commands are saved");
            break;
        }
    }
}

/* Each call of each kind fails once. */
static void each_fault(void) {
    const char *folder = in_root("faulty");
    for (int kind = 0; kind < CALLS; kind++) {
        unsigned at = 1;
        for (;; at++) {
            redo_t db = REDO_CLOSED;
            empty(folder);
            fail_which = (enum which)kind, fail_at = at, has_failed = false, fail_why = EIO;
            told_t told = run(folder, &db);
            fail_at = 0;
            if (has_failed) {
                if (calls_after) fail("%u calls after one of %s had failed", calls_after, call_names[kind]);
                check_failed(folder, &db, told);
                continue;
            }
            WANT(REDO_OK, told.answer);
            WANT(REDO_OK, redo_close(&db));
            break;
        }
        printf("%s: %u faults\n", call_names[kind], at - 1);
    }
}

/* A call that a signal has interrupted is made again. */
static void each_interruption(void) {
    static const enum which kinds[2] = {PREAD, PWRITE};
    const char *folder = in_root("faulty");
    redo_t db = REDO_CLOSED;
    fail_why = EINTR;
    for (int i = 0; i < 2; i++) {
        bool is_interrupted = true;
        for (unsigned at = 1; is_interrupted; at++) {
            empty(folder);
            fail_which = kinds[i], fail_at = at, has_failed = false;
            WANT(REDO_OK, run(folder, &db).answer);
            WANT(REDO_OK, redo_close(&db));
            WANT(REDO_OK, redo_open(&db, folder));
            WANT(REDO_OK, redo_close(&db));
            is_interrupted = has_failed, fail_at = 0, has_failed = false;
            if (commands_in(folder) != COMMANDS) fail("not all commands");
        }
    }
}

/* The same when a store is opened. Nothing was changed then, and the handle is closed. */
static void each_fault_of_open(void) {
    const char *folder = in_root("faulty");
    for (int kind = 0; kind < CALLS; kind++) {
        for (unsigned at = 1;; at++) {
            redo_t db = REDO_CLOSED;
            fail_which = (enum which)kind, fail_at = at, has_failed = false;
            int32_t rc = redo_open(&db, folder);
            fail_at = 0;
            if (!has_failed) {
                WANT(REDO_OK, rc);
                WANT(REDO_OK, redo_close(&db));
                break;
            }
            if (calls_after) fail("%u calls after one of %s had failed", calls_after, call_names[kind]);
            if (rc != REDO_DISK_FAULT && !(rc == REDO_NO_FOLDER && kind <= LOCK)) fail("%s: %d", call_names[kind], rc);
            WANT(REDO_NOT_OPEN, redo_close(&db)), input_stays();
        }
    }
    if (commands_in(folder) != COMMANDS) fail("not all commands");
    fail_which = LOCK, fail_at = 1, fail_why = EWOULDBLOCK;
    redo_t db = REDO_CLOSED;
    WANT(REDO_LOCKED, redo_open(&db, folder));
}

/* On a disk that is full past some length of a file forces go on as long as there is room for their blocks, zeros ahead of them or
 * not; then they fail, and what was forced stays. */
static void each_full_disk(void) {
    const char *folder = in_root("full");
    unsigned forces = 0;
    for (uint64_t end = 1400; end <= 4096; end += 71) {
        redo_t db = REDO_CLOSED;
        redo_detail_t d;
        redo_stat_t s;
        uint64_t n, forced = 0, used = 0;
        empty(folder);
        WANT(REDO_OK, redo_create(&db, folder, 4, 64, 65536));
        disk_end = end;
        int32_t answer = REDO_OK;
        for (forces = 0; answer == REDO_OK; forces++) {
            WANT(REDO_OK, redo_stat(&db, &s)), used = s.used;
            if ((answer = redo_put(&db, 0, numbers, 16)) == REDO_OK) answer = redo_force(&db, &n);
            if (answer == REDO_OK) forced = n;
        }
        WANT(REDO_DISK_FAULT, answer);
        redo_last_detail(&db, &d);
        if (d.first != ENOSPC) fail("the reason is %d", (int)d.first);
        if (used + 128 < end) fail("%u forces, and %d bytes of %d are used", forces, (int)used, (int)end);
        disk_end = 0;
        WANT(REDO_OK, redo_close(&db));
        WANT(REDO_OK, redo_open(&db, folder));
        WANT(REDO_OK, redo_stat(&db, &s));
        if (s.accepted != forced && s.accepted != forced + 1) fail("%d commands of %d", (int)s.accepted, (int)forced);
        for (int i = 0; i < 40; i++) WANT(REDO_OK, redo_put(&db, 1, numbers, 16)), WANT(REDO_OK, redo_force(&db, &n));
        WANT(REDO_OK, redo_close(&db));
    }
    if (forces < 40) fail("%u forces", forces);
    printf("%u forces on the last full disk\n", forces - 1);
}

/* Zeros of a value are none that are written ahead: where a trim cannot write them, that is a fault, and the log before it counts. */
static void each_fault_of_trim(void) {
    enum { LENGTH = 400000 };
    static uint8_t got[LENGTH], zeros[LENGTH];
    const char *folder = in_root("trimmed");
    bool is_failed = true;
    for (unsigned at = 1; is_failed; at++) {
        redo_t db = REDO_CLOSED;
        uint64_t n;
        empty(folder);
        WANT(REDO_OK, redo_create(&db, folder, 4, LENGTH, 4000000));
        WANT(REDO_OK, redo_put(&db, 0, zeros, LENGTH));
        WANT(REDO_OK, redo_force(&db, &n));
        fail_which = PWRITE, fail_at = at, has_failed = false, fail_why = ENOSPC;
        int32_t answer = redo_trim(&db);
        fail_at = 0, is_failed = has_failed;
        WANT(is_failed ? REDO_DISK_FAULT : REDO_OK, answer);
        WANT(REDO_OK, redo_close(&db));
        WANT(REDO_OK, redo_open(&db, folder));
        WANT(REDO_OK, redo_get(&db, 0, got, LENGTH, &n));
        if (n != LENGTH || memcmp(got, zeros, LENGTH)) fail("%d bytes after fault %u", (int)n, at);
        WANT(REDO_OK, redo_close(&db));
    }
}

/* The files at one moment: what reads give, and what a crash leaves where nothing unsynced has reached the disk. */
typedef struct { uint8_t *now, *synced; size_t length, synced_length; bool is_made, is_named; } file_t;
enum { MOST = 1 << 18, IMAGES = 6 };
static file_t files[3];

static void make(const made_t *m) {
    if (m->done == READ) return;
    if (m->file == 3) {
        for (int i = 0; i < 3; i++) files[i].is_named = files[i].is_made;
        return;
    }
    file_t *f = &files[m->file];
    if (m->done == MADE) {
        f->is_made = true;
        return;
    }
    if (m->done == SYNCED) {
        memcpy(f->synced, f->now, MOST), f->synced_length = f->length;
        return;
    }
    if (m->at + m->length > MOST) fail("a file of more than %d bytes", MOST);
    memcpy(f->now + m->at, m->bytes, m->length);
    if (m->at + m->length > f->length) f->length = m->at + m->length;
}
/* One of the images that the disk may have: each byte that is not synced is as it was (0), as it was written (1), another one
 * (2), or one of the three at random, and so is the length. A file whose name is not synced is there or is not. */
static void write_image(const char *folder, int how) {
    char path[12288];
    empty(folder);
    for (int i = 0; i < 3; i++) {
        file_t *f = &files[i];
        size_t more = f->length - f->synced_length;
        size_t n = how == 0 ? f->synced_length : how < 3 ? f->length : f->synced_length + (more ? (size_t)rand() % (more + 1) : 0);
        if (n == 0 || (!f->is_named && (how == 0 || rand() % 2))) continue;
        uint8_t *bytes = malloc(n);
        for (size_t k = 0; k < n; k++) {
            bool is_settled = k < f->synced_length && f->now[k] == f->synced[k];
            int as = how < 3 ? how : rand() % 3;
            bytes[k] = is_settled || as == 1 ? f->now[k] : as == 0 ? f->synced[k] : (uint8_t)rand();
        }
        snprintf(path, sizeof path, "%s/%s", folder, names[i]);
        FILE *out = fopen(path, "wb");
        if (!out || fwrite(bytes, 1, n, out) != n || fclose(out)) fail("%s cannot be written", path);
        free(bytes);
    }
}

static void forget(void) {
    for (size_t k = 0; k < made_count; k++) free(made[k].bytes);
    free(made), made = 0, made_count = 0;
}

/* Looks at what a crash may leave after each front of the calls that were recorded: `has` is told how many calls were made, and
 * how many commands the store has then. */
static void each_front_of(const char *left, const void *told, void has(const void *, size_t, int)) {
    for (int i = 0; i < 3; i++) files[i] = (file_t){.now = calloc(1, MOST), .synced = calloc(1, MOST)};
    for (size_t k = 0; k <= made_count; k++) {
        if (k > 0) make(&made[k - 1]);
        for (int how = 0; how < IMAGES; how++) write_image(left, how), has(told, k, commands_in(left));
    }
    for (int i = 0; i < 3; i++) free(files[i].now), free(files[i].synced);
    printf("%d images of %d fronts\n", IMAGES * ((int)made_count + 1), (int)made_count + 1);
    forget();
}

/* Each front of the calls of a run is a store (or none, before it was made) that has what was forced by then. */
static void has_forced(const void *told, size_t k, int count) {
    const told_t *t = told;
    int forced = 0;
    for (int i = 1; i <= COMMANDS; i++)
        if (t->made_at[i] && t->made_at[i] <= k) forced = i;
    if (count == -1 ? k >= t->store_at : count < forced) fail("%d commands after %d were forced: call %d of %d", count, forced, (int)k, (int)made_count);
}
static void each_front(void) {
    const char *folder = in_root("recorded"), *left = in_root("left");
    redo_t db = REDO_CLOSED;
    empty(folder);
    recording = true, made_count = 0;
    told_t told = run(folder, &db);
    recording = false;
    WANT(REDO_OK, told.answer);
    WANT(REDO_OK, redo_close(&db));
    each_front_of(left, &told, has_forced);
}

/* Each front of the calls on the files of a backup is no store, or all that it saved; and this once all are made. */
static void has_saved(const void *told, size_t k, int count) {
    const backup_t *b = told;
    if (count == -1 ? k == made_count : count != (int)b->saved) fail("%d commands are saved: call %d of %d", count, (int)k, (int)made_count);
}
static void each_front_of_backup(void) {
    const char *copy = in_root("copy"), *folder = in_root("saved");
    redo_t db = REDO_CLOSED;
    empty(folder), empty(copy);
    WANT(REDO_OK, redo_create(&db, folder, 4, 64, 65536));
    recording = true, recorded = copy, made_count = 0;
    backup_t b = back_up(&db, copy);
    recording = false, recorded = 0;
    WANT(REDO_OK, b.answer);
    WANT(REDO_OK, redo_close(&db));
    each_front_of(in_root("left"), &b, has_saved);
}

/* Another process may have written what is read, and have been killed: so the files and the folder are synced first. */
static void synced_before_read(void) {
    const char *folder = in_root("recorded");
    redo_t db = REDO_CLOSED;
    bool is_synced[4] = {false}, is_read[4] = {false};
    recording = true, made_count = 0;
    WANT(REDO_OK, redo_open(&db, folder));
    recording = false;
    WANT(REDO_OK, redo_close(&db));
    for (size_t k = 0; k < made_count; k++) {
        if (made[k].done == SYNCED) is_synced[made[k].file] = true;
        if (made[k].done == READ) is_read[made[k].file] = true;
        if (made[k].done == READ && !(is_synced[made[k].file] && is_synced[3]))
            fail("file %d is read and not synced", made[k].file);
    }
    if (!is_read[0] || !is_read[1]) fail("the files are not read");
    forget();
}

int main(int argc, char **argv) {
    snprintf(root, sizeof root, "%s", argc > 1 ? argv[1] : ".");
    for (int i = 0; i < COMMANDS; i++) numbers[i] = (uint8_t)i;
    has_input = fcntl(0, F_GETFD) >= 0;
    each_interruption(), each_fault(), each_fault_of_open(), each_fault_of_backup(), each_fault_of_trim(), each_full_disk();
    most = 7;                           /* the system moves seven bytes a call */
    each_fault(), each_front(), each_fault_of_backup(), each_front_of_backup();
    most = 0;
    each_front(), each_front_of_backup(), synced_before_read();
    puts("test_faults: ok");
    return 0;
}
