/* Calls that are refused since of a handle there is one, in one process, with one call at a time: test_misuse FOLDER, an empty
 * one. */
#define _GNU_SOURCE
#include "calls.h"
#include "want.h"
#include <dirent.h>
#include <pthread.h>
#include <signal.h>
#include <sys/stat.h>
#include <sys/time.h>
#include <sys/wait.h>

static redo_t db = REDO_CLOSED;
static const char *folder;
static uint64_t n;

static void is(uint32_t x, const char *value) {
    char got[64];
    WANT(REDO_OK, redo_get(&db, x, got, sizeof got, &n));
    if (n != strlen(value) || memcmp(got, value, n)) fail("object %u has %.*s", x, (int)n, got);
}
/* How many files in the store's folder, and the folder itself, this process has open. */
static int open_files(void) {
    char path[512], real[4096], wanted[4096];
    int count = 0;
    DIR *dir = opendir("/proc/self/fd");
    if (!realpath(folder, wanted)) fail("no folder");
    for (struct dirent *e; (e = readdir(dir));) {
        snprintf(path, sizeof path, "/proc/self/fd/%s", e->d_name);
        ssize_t k = readlink(path, real, sizeof real - 1);
        if (k > 0) real[k] = 0, count += strncmp(real, wanted, strlen(wanted)) == 0;
    }
    closedir(dir);
    return count;
}
static void ended_well(pid_t child) {
    int status;
    if (waitpid(child, &status, 0) != child || !WIFEXITED(status) || WEXITSTATUS(status)) fail("the child failed");
}

/* A copy of a handle is none, and its close closes nothing. */
static void copies(void) {
    redo_t copy = db;
    redo_detail_t d;
    WANT(REDO_COPIED, redo_put(&copy, 0, B("copy")));
    WANT(REDO_COPIED, redo_get(&copy, 0, 0, 0, &n));
    WANT(REDO_COPIED, redo_backup_copy(&copy, 1, &n));
    WANT(REDO_COPIED, redo_close(&copy));
    WANT(REDO_ALREADY_OPEN, redo_open(&copy, folder));
    WANT(REDO_OK, redo_last_detail(&copy, &d));
    if (d.first || d.second || d.third) fail("the detail of a copy");
    is(0, "one");
}

/* A child has no store: what it could force would be written over by the parent. Its close keeps the parent's lock. */
static void forks(void) {
    redo_t other = REDO_CLOSED;
    WANT(REDO_OK, redo_put(&db, 1, B("accepted")));
    pid_t child = fork();
    if (child == 0) {
        WANT(REDO_FORKED, redo_put(&db, 1, B("child")));
        WANT(REDO_FORKED, redo_force(&db, &n));
        WANT(REDO_FORKED, redo_get(&db, 1, 0, 0, &n));
        WANT(REDO_OK, redo_close(&db));
        WANT(REDO_NOT_OPEN, redo_force(&db, &n));
        WANT(REDO_LOCKED, redo_open(&db, folder));
        if (open_files()) fail("the child has files of the store");
        exit(0);
    }
    ended_well(child);
    WANT(REDO_LOCKED, redo_open(&other, folder));
    WANT(REDO_OK, redo_force(&db, &n));
    is(1, "accepted");
}

/* A child that is between its fork and its exec, as those that another thread starts, keeps no store locked. */
static void starts_programs(void) {
    int ends[2];
    char byte;
    if (pipe(ends)) fail("no pipe");
    pid_t child = fork();
    if (child == 0) close(ends[1]), _exit(read(ends[0], &byte, 1) != 0);
    close(ends[0]);
    WANT(REDO_OK, redo_close(&db));
    WANT(REDO_OK, redo_open(&db, folder));
    close(ends[1]);
    ended_well(child);
}

/* A child that is forked in the middle of a call, as by another thread, lets the files go too. */
static pid_t forked;
static void fork_meanwhile(void) {
    if ((forked = fork()) != 0) return;
    WANT(REDO_FORKED, redo_put(&db, 0, B("child")));
    WANT(REDO_OK, redo_close(&db));
    WANT(REDO_NOT_OPEN, redo_close(&db));
    if (open_files()) fail("the child has files of the store");
    exit(0);
}
static void forks_within_calls(void) {
    WANT(REDO_OK, redo_put(&db, 0, B("one")));
    meanwhile = fork_meanwhile;
    WANT(REDO_OK, redo_force(&db, &n));
    ended_well(forked);
    is(0, "one");
}
static void forks_within_opens(const char *other) {
    redo_t *first = &db;
    WANT(REDO_OK, redo_close(first));
    meanwhile = fork_meanwhile;
    WANT(REDO_OK, redo_create(&db, other, 4, 64, 65536));
    ended_well(forked);
    WANT(REDO_OK, redo_close(&db));
    WANT(REDO_OK, redo_open(&db, folder));
}

/* A call in the middle of another one is refused, whichever it is, and leaves that alone. */
static void call_meanwhile(void) {
    redo_stat_t s;
    WANT(REDO_BUSY, redo_put(&db, 2, B("within")));
    WANT(REDO_BUSY, redo_get(&db, 0, 0, 0, &n));
    WANT(REDO_BUSY, redo_force(&db, &n));
    WANT(REDO_BUSY, redo_stat(&db, &s));
    WANT(REDO_BUSY, redo_open(&db, folder));
    WANT(REDO_BUSY, redo_close(&db));
    WANT(REDO_BUSY, redo_backup_give_up(&db));
    WANT(REDO_BUSY, redo_end(&db));
}
static void calls_within_calls(void) {
    WANT(REDO_OK, redo_put(&db, 2, B("before")));
    meanwhile = call_meanwhile;
    WANT(REDO_OK, redo_force(&db, &n));
    if (meanwhile) fail("no call was made within the force");
    is(2, "before");
}

/* The same where a signal comes at any moment: each call that is answered has its own value. */
static volatile unsigned refused, answered;
static void get_other(int sig) {
    char got[64];
    uint64_t length;
    int32_t rc = redo_get(&db, 2, got, sizeof got, &length);
    if (rc == REDO_BUSY) refused++;
    else if (rc == REDO_OK && length == 6 && memcmp(got, "before", 6) == 0) answered++;
    else _exit(sig);
}
static void signals(void) {
    struct sigaction act = {.sa_handler = get_other};
    struct itimerval often = {{0, 100}, {0, 100}}, never = {{0, 0}, {0, 0}};
    sigaction(SIGALRM, &act, 0);
    setitimer(ITIMER_REAL, &often, 0);
    for (int i = 0; refused < 50 && i < 20000000; i++) is(0, "one");
    setitimer(ITIMER_REAL, &never, 0);
    printf("%u calls within a call, %u between two\n", refused, answered);
    if (!refused) fail("no signal came within a call");
}

/* Two threads at once are refused, and not answered with something else. */
static void *gets(void *handle) {
    char got[64];
    uint64_t length;
    for (int i = 0; i < 20000; i++) {
        int32_t rc = redo_get(handle, 1, got, sizeof got, &length);
        if (rc != REDO_BUSY) WANT(REDO_OK, rc);
        if (rc == REDO_OK && (length != 8 || memcmp(got, "accepted", 8))) fail("another value");
    }
    return 0;
}
static void threads(void) {
    pthread_t two[2];
    for (int i = 0; i < 2; i++) pthread_create(&two[i], 0, gets, &db);
    for (int i = 0; i < 2; i++) pthread_join(two[i], 0);
}

int main(int argc, char **argv) {
    char other[4096];
    folder = argc > 1 ? argv[1] : ".";
    snprintf(other, sizeof other, "%s/other", folder);
    mkdir(other, 0777);
    WANT(REDO_OK, redo_create(&db, folder, 4, 64, 65536));
    WANT(REDO_OK, redo_put(&db, 0, B("one")));
    copies(), forks(), starts_programs(), forks_within_calls(), forks_within_opens(other);
    WANT(REDO_OK, redo_put(&db, 0, B("one"))), WANT(REDO_OK, redo_put(&db, 1, B("accepted")));
    calls_within_calls(), signals(), threads();
    WANT(REDO_OK, redo_close(&db));
    puts("test_misuse: ok");
    return 0;
}
