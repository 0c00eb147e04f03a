#define _GNU_SOURCE
#include "calls.h"
#include <errno.h>
#include <fcntl.h>
#include <stdarg.h>
#include <stdio.h>
#include <stdlib.h>
#include <string.h>
#include <sys/file.h>
#include <sys/stat.h>
#include <sys/syscall.h>
#include <unistd.h>

const char *const call_names[CALLS] = {"open", "flock", "openat", "lseek", "pread", "fsync", "pwrite", "ftruncate", "fdatasync"};
enum which fail_which;
unsigned fail_at;
int fail_why = EIO;
size_t most;
uint64_t disk_end;
void (*meanwhile)(void);
bool has_failed, recording;
const char *recorded;
unsigned calls_after;
made_t *made;
size_t made_count;

/* `KIND N`: the N-th call of that kind from now on fails. As a library before the others (LD_PRELOAD) REDO_FAIL says so. */
void read_words(const char *words) {
    const char *space = words ? strchr(words, ' ') : 0;
    for (int i = 0; space && i < CALLS; i++)
        if (strlen(call_names[i]) == (size_t)(space - words) && strncmp(call_names[i], words, (size_t)(space - words)) == 0)
            fail_which = (enum which)i, fail_at = (unsigned)atoi(space);
}
__attribute__((constructor)) static void read_environment(void) { read_words(getenv("REDO_FAIL")); }

static bool fails(enum which call) {
    calls_after += has_failed;
    if (call != fail_which || fail_at == 0 || --fail_at > 0) return false;
    errno = fail_why, has_failed = true, calls_after = 0;
    return true;
}
static size_t as_much(size_t n) { return most && n > most ? most : n; }
/* How many bytes there is still room for. */
static size_t that_fit(size_t n, uint64_t at) {
    return disk_end && at + n > disk_end ? (at < disk_end ? disk_end - at : 0) : n;
}

/* The path of an open file. */
static ssize_t path_of(int fd, char path[4096]) {
    char link[64];
    snprintf(link, sizeof link, "/proc/self/fd/%d", fd);
    return readlink(link, path, 4095);
}
/* Which file of a store a number is, by its name: 3 is a folder, -1 another one. */
static int file_of(int fd) {
    static const char *const names[3] = {"/objects.rdo", "/log_a.rdo", "/log_b.rdo"};
    char path[4096];
    struct stat st;
    if (syscall(SYS_fstat, fd, &st) == 0 && S_ISDIR(st.st_mode)) return 3;
    ssize_t n = path_of(fd, path);
    for (int i = 0; n > 0 && i < 3; i++) {
        size_t k = strlen(names[i]);
        if ((size_t)n > k && memcmp(path + n - k, names[i], k) == 0) return i;
    }
    return -1;
}
static bool is_recorded(int fd) {
    char path[4096];
    if (!recording || file_of(fd) < 0) return false;
    if (!recorded) return true;
    size_t k = strlen(recorded);
    ssize_t n = path_of(fd, path);
    return n >= (ssize_t)k && memcmp(path, recorded, k) == 0 && (n == (ssize_t)k || path[k] == '/');
}
static void record(enum done done, int fd, const void *bytes, size_t n, uint64_t at) {
    if (!is_recorded(fd)) return;
    made = realloc(made, (made_count + 1) * sizeof *made);
    made[made_count] = (made_t){done, file_of(fd), at, n, malloc(n + 1)};
    if (n) memcpy(made[made_count].bytes, bytes, n);
    made_count++;
}

static bool file_at(int folder, const char *path) {
    size_t n = strlen(path);
    return folder >= 0 && n > 4 && strcmp(path + n - 4, ".rdo") == 0;
}

int open(const char *path, int how, ...) {
    va_list args;
    va_start(args, how);
    int mode = va_arg(args, int);
    va_end(args);
    return (how & O_DIRECTORY) && fails(OPEN) ? -1 : (int)syscall(SYS_openat, AT_FDCWD, path, how, mode);
}
int openat(int folder, const char *path, int how, ...) {
    va_list args;
    va_start(args, how);
    int mode = va_arg(args, int);
    va_end(args);
    if (file_at(folder, path) && fails(OPENAT)) return -1;
    bool is_new = (how & O_CREAT) && syscall(SYS_faccessat, folder, path, F_OK) != 0;
    int fd = (int)syscall(SYS_openat, folder, path, how, mode);
    if (is_new && fd >= 0) record(MADE, fd, 0, 0, 0);
    return fd;
}
int flock(int fd, int how) { return how != LOCK_UN && fails(LOCK) ? -1 : (int)syscall(SYS_flock, fd, how); }
off_t lseek(int fd, off_t at, int from) { return file_of(fd) >= 0 && fails(LSEEK) ? -1 : syscall(SYS_lseek, fd, at, from); }
ssize_t pread(int fd, void *into, size_t n, off_t at) {
    if (fails(PREAD)) return -1;
    record(READ, fd, 0, 0, 0);
    return syscall(SYS_pread64, fd, into, as_much(n), at);
}
ssize_t pwrite(int fd, const void *bytes, size_t n, off_t at) {
    bool is_failing = fails(PWRITE);
    if (n && !(n = that_fit(n, (uint64_t)at))) return errno = ENOSPC, -1;
    ssize_t done = syscall(SYS_pwrite64, fd, bytes, is_failing ? n / 2 : as_much(n), at);
    if (done > 0) record(WRITTEN, fd, bytes, (size_t)done, (uint64_t)at);
    return is_failing ? (errno = fail_why, -1) : done;
}
int ftruncate(int fd, off_t length) {
    if (fails(FTRUNCATE)) return -1;
    record(WRITTEN, fd, 0, 0, (uint64_t)length);
    return (int)syscall(SYS_ftruncate, fd, length);
}
int fsync(int fd) {
    if (fails(FSYNC)) return -1;
    record(SYNCED, fd, 0, 0, 0);
    return (int)syscall(SYS_fsync, fd);
}
int fdatasync(int fd) {
    void (*first)(void) = meanwhile;
    if (first) meanwhile = 0, first();
    if (fails(FDATASYNC)) return -1;
    record(SYNCED, fd, 0, 0, 0);
    return (int)syscall(SYS_fdatasync, fd);
}
