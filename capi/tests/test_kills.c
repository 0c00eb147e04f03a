/* A child writes and is killed, at any moment, over and over: test_kills FOLDER, an empty one. */
#include "want.h"
#include <signal.h>
#include <sys/stat.h>
#include <sys/wait.h>

enum { KILLS = 40 };

static void put_both(redo_t *db, uint32_t i) {
    WANT(REDO_OK, redo_begin(db));
    WANT(REDO_OK, redo_put(db, 0, (uint8_t *)&i, sizeof i));
    WANT(REDO_OK, redo_put(db, 1, (uint8_t *)&i, sizeof i));
    WANT(REDO_OK, redo_end(db));
}

/* Puts a number into both objects while they are saved in a folder, which is emptied first. */
static void save(redo_t *db, const char *copy, uint32_t i) {
    static const char *const names[3] = {"objects.rdo", "log_a.rdo", "log_b.rdo"};
    char path[8192];
    uint64_t n;
    for (int k = 0; k < 3; k++) snprintf(path, sizeof path, "%s/%s", copy, names[k]), unlink(path);
    WANT(REDO_OK, redo_backup_start(db, copy));
    WANT(REDO_OK, redo_backup_copy(db, 1, &n));
    put_both(db, i);
    WANT(REDO_OK, redo_backup_copy(db, 3, &n));
    WANT(REDO_OK, redo_backup_finish(db, &n));
}

/* Puts numbers that rise into two objects, in a group, and tells each that is forced. */
static void write_on(const char *folder, const char *copy, int out) {
    redo_t db = REDO_CLOSED;
    uint32_t last[1] = {0};
    uint64_t n;
    WANT(REDO_OK, redo_open(&db, folder));
    WANT(REDO_OK, redo_get(&db, 0, (uint8_t *)last, sizeof last, &n));
    for (uint32_t i = last[0] + 1;; i++) {
        i % 5 ? put_both(&db, i) : save(&db, copy, i);
        WANT(REDO_OK, redo_force(&db, &n));
        if (write(out, &i, sizeof i) != sizeof i) exit(3);
        if (i % 50 == 0) WANT(REDO_OK, redo_drain(&db)), WANT(REDO_OK, redo_trim(&db));
    }
}

static uint32_t number_in(redo_t *db, uint32_t x) {
    uint32_t i = 0;
    uint64_t n;
    WANT(REDO_OK, redo_get(db, x, (uint8_t *)&i, sizeof i, &n));
    return i;
}

/* A copy is no store, or whole: it has a number that was put while it was made, in both objects. */
static bool is_saved(const char *copy, uint32_t told) {
    redo_t db = REDO_CLOSED;
    int32_t rc = redo_open(&db, copy);
    if (rc == REDO_NOT_A_STORE || rc == REDO_DAMAGED) return false;
    WANT(REDO_OK, rc);
    uint32_t i = number_in(&db, 0);
    if (i != number_in(&db, 1) || i % 5 || i > told + 1) fail("%u is saved", i);
    WANT(REDO_OK, redo_close(&db));
    return true;
}

/* A child works, and is killed in the middle: the number that it told last, or this one where it told none. */
typedef void work_t(const char *, const char *, int);
static uint32_t killed(work_t *work, const char *folder, const char *copy, uint32_t told) {
    int ends[2], status;
    uint32_t i;
    if (pipe(ends)) fail("no pipe");
    pid_t child = fork();
    if (child == 0) close(ends[0]), work(folder, copy, ends[1]);
    close(ends[1]);
    for (int more = rand() % 20; more >= 0 && read(ends[0], &i, sizeof i) == sizeof i; more--) told = i;
    usleep((useconds_t)(rand() % 2000));
    kill(child, SIGKILL), waitpid(child, &status, 0);
    while (read(ends[0], &i, sizeof i) == sizeof i) told = i;
    close(ends[0]);
    if (!WIFSIGNALED(status) || WTERMSIG(status) != SIGKILL) fail("the child ended by itself");
    return told;
}

/* The i-th pair of a map: the keys come in no order. */
static const redo_range_t whole = {1, 4095};
static const char *name_of(uint32_t i) {
    static char name[8];
    return snprintf(name, sizeof name, "%06u", i * 7919 % 100003), name;
}
/* Step i sets pair i, and each third one deletes another pair; it is told once it is forced. */
static void set_on(const char *folder, const char *copy, int out) {
    redo_t db = REDO_CLOSED;
    uint32_t last = 0;
    uint8_t value[200] = {0};
    uint64_t n;
    (void)copy;
    WANT(REDO_OK, redo_open(&db, folder));
    WANT(REDO_OK, redo_upkeep(&db, 1));
    WANT(REDO_OK, redo_get(&db, 0, &last, sizeof last, &n));
    for (uint32_t i = last + 1;; i++) {
        memcpy(value, &i, sizeof i);
        WANT(REDO_OK, redo_map_set(&db, whole, B(name_of(i)), value, i % sizeof value));
        int32_t rc = i % 3 ? REDO_OK : redo_map_delete(&db, whole, B(name_of(i / 3)));
        if (rc != REDO_NO_KEY || i != last + 1) WANT(REDO_OK, rc);          /* the first step may be one that was cut short */
        WANT(REDO_OK, redo_put(&db, 0, &i, sizeof i));
        WANT(REDO_OK, redo_force(&db, &n));
        if (write(out, &i, sizeof i) != sizeof i) exit(3);
    }
}
/* Whether the map holds what it holds after so many steps: of the next one, its set, and its delete. */
static bool is_after(redo_t *db, uint32_t steps, bool set, bool gone) {
    uint32_t last = steps + set, first = (steps + gone) / 3 + 1, i;
    uint64_t n;
    WANT(REDO_OK, redo_map_count(db, whole, 0, 0, 0, 0, &n));
    if (n != last + 1 - first) return false;
    for (i = first; i <= last; i++)
        if (redo_map_get(db, whole, B(name_of(i)), 0, 0, &n) != REDO_OK || n != i % 200) return false;
    return true;
}
static uint32_t map_kills(const char *folder) {
    redo_t db = REDO_CLOSED;
    uint32_t told = 0;
    WANT(REDO_OK, redo_create_pages(&db, folder, 4096, 1024, 1 << 18));
    WANT(REDO_OK, redo_close(&db));
    for (int kill_no = 0; kill_no < KILLS; kill_no++) {
        told = killed(set_on, folder, 0, told);
        WANT(REDO_OK, redo_open(&db, folder));
        uint32_t steps = number_in(&db, 0);
        if (steps < told || steps > told + 1) fail("%u steps in the place of %u", steps, told);
        if (!is_after(&db, steps, 0, 0) && !is_after(&db, steps, 1, 0) && !is_after(&db, steps, 1, 1)) fail("half a step behind %u", steps);
        WANT(REDO_OK, redo_close(&db));
    }
    return told;
}

int main(int argc, char **argv) {
    const char *folder = argc > 1 ? argv[1] : ".";
    char copy[4096], map[4096];
    redo_t db = REDO_CLOSED;
    uint32_t told = 0, saved = 0;
    snprintf(copy, sizeof copy, "%s/copy", folder), snprintf(map, sizeof map, "%s/map", folder);
    mkdir(copy, 0777), mkdir(map, 0777);
    WANT(REDO_OK, redo_create(&db, folder, 4, 64, 65536));
    WANT(REDO_OK, redo_close(&db));
    for (int kill_no = 0; kill_no < KILLS; kill_no++) {
        told = killed(write_on, folder, copy, told);
        WANT(REDO_OK, redo_open(&db, folder));
        if (number_in(&db, 0) != number_in(&db, 1)) fail("half a group");
        if (number_in(&db, 0) < told || number_in(&db, 0) > told + 1) fail("%u in the place of %u", number_in(&db, 0), told);
        WANT(REDO_OK, redo_close(&db));
        saved += is_saved(copy, told);
    }
    printf("%d kills, %u groups, %u copies, %u steps of a map\ntest_kills: ok\n", 2 * KILLS, told, saved, map_kills(map));
    return 0;
}
