/* How a store is opened: the folder is locked, and its files are read. This page is trusted and not proved, and it is right if, once
 * `redo_open_files` has answered REDO_OK,
 *   - no other process has the folder; or, for a handle that only reads, none that writes;
 *   - the bytes that were read are those of the files on the disk: each file was synced before it was read, and their names by a
 *     sync of the folder. */
#define _GNU_SOURCE
#include "redo_files.h"
#include <errno.h>
#include <fcntl.h>
#include <stdlib.h>
#include <string.h>
#include <sys/file.h>
#include <time.h>
#include <unistd.h>

enum { LOG_HEADER = 33, LONGEST_PAUSE = 32 };           /* bytes before a log's first block: docs/FORMATS.md; milliseconds */

static void sleep_for(uint32_t milliseconds) {
    struct timespec left = {0, milliseconds * 1000000L};
    while (nanosleep(&left, &left) != 0 && errno == EINTR) {}
}

/* Tries now and then until it is had, or the pauses between are so many milliseconds. False leaves errno. */
static bool lock(int folder, int kind, uint32_t wait) {
    uint32_t pause = 1;
    while (flock(folder, kind | LOCK_NB) != 0) {
        if (errno != EWOULDBLOCK || wait == 0) return false;
        if (pause > wait) pause = wait;
        sleep_for(pause);
        wait -= pause;
        if (pause < LONGEST_PAUSE) pause *= 2;
    }
    return true;
}

/* What was written to it is on the disk. A file system that cannot be written to has nothing to sync. */
static bool is_synced(const redo_t *db, int fd) { return fsync(fd) == 0 || (db->reads_ && (errno == EROFS || errno == EINVAL)); }

/* The whole of a file, once what was written to it is on the disk. A file that is not there has no bytes. (Its length is where its
 * end is: the C libraries before glibc 2.33 export no fstat.) */
static int32_t read_file(redo_t *db, redo_files_t *files, uint32_t i, bytes_t *bytes) {
    if (!redo_open_file(files, i, db->reads_ ? O_RDONLY : O_RDWR))
        return errno == ENOENT ? REDO_OK : redo_failed(db, i, REDO_FAILED_OPEN);
    int fd = files->file_[i];
    if (!is_synced(db, fd)) return redo_failed(db, i, REDO_FAILED_SYNC);
    off_t size = lseek(fd, 0, SEEK_END);
    if (size < 0) return redo_failed(db, i, REDO_FAILED_READ);
    if (size == 0) return REDO_OK;
    if (!(bytes->at = malloc((size_t)size))) return REDO_MEMORY;
    while (bytes->length < (size_t)size) {
        errno = 0;
        ssize_t n = pread(fd, bytes->at + bytes->length, (size_t)size - bytes->length, (off_t)bytes->length);
        if (n < 0 && errno == EINTR) continue;
        if (n <= 0) return redo_failed(db, i, REDO_FAILED_READ);
        bytes->length += (size_t)n;
    }
    return REDO_OK;
}

/* Locks the folder, and reads the files. */
int32_t redo_open_files(redo_t *db, redo_files_t *files, const char *path, uint32_t wait, bytes_t bytes[3]) {
    int folder = files->folder_ = redo_above_streams(open(path, O_RDONLY | O_DIRECTORY | O_CLOEXEC));
    if (folder < 0) return redo_because(db, REDO_NO_FOLDER);
    if (!lock(folder, db->reads_ ? LOCK_SH : LOCK_EX, wait))
        return errno == EWOULDBLOCK ? REDO_LOCKED : redo_because(db, REDO_NO_FOLDER);
    if (!is_synced(db, folder)) return redo_failed(db, REDO_FOLDER, REDO_FAILED_SYNC);
    for (uint32_t i = 0; i < 3; i++) {
        int32_t answer = read_file(db, files, i, &bytes[i]);
        if (answer != REDO_OK) return answer;
    }
    return REDO_OK;
}

/* Whether the bytes are a log with an open header and a block behind it. */
static bool is_log(bytes_t b) { return b.length > LOG_HEADER && memcmp(b.at, "\1RDOLOG01", 9) == 0 && b.at[LOG_HEADER] == 1; }
bool redo_has_log(bytes_t bytes[3]) { return is_log(bytes[1]) || is_log(bytes[2]); }

/* Makes a store with these numbers, with pages or without: not where a log tells of one whose objects file is spoilt. */
static int32_t make(redo_t *db, bytes_t bytes[3], const redo_params_t *numbers, bool pages) {
    int32_t answer = (int32_t)redo_core_create(&db->core_, FILES(bytes), numbers, pages, &db->detail_);
    if (answer == REDO_OK && redo_has_log(bytes)) redo_core_close(&db->core_), answer = REDO_OLD_LOG;
    return answer;
}

/* What is asked for when a store is opened: that one which is there is opened, that one is made where none is (with these numbers,
 * which are null where none is to be made), and as long a wait for the lock. */
typedef struct { bool opens, reads, pages; uint32_t wait; const redo_params_t *numbers; } wish_t;

static int32_t start(redo_t *db, const char *path, wish_t wish) {
    bytes_t bytes[3] = {{0, 0}, {0, 0}, {0, 0}};
    if (db->state_ != REDO_IS_CLOSED) return db->busy_ ? REDO_BUSY : redo_alone(db, REDO_ALREADY_OPEN);
    if (!path) return redo_alone(db, REDO_NULL);
    *db = (redo_t){.state_ = REDO_IS_OPENING, .reads_ = wish.reads, .files_ = redo_no_files, .copy_ = redo_no_files};
    redo_own(db);
    int32_t answer = redo_open_files(db, &db->files_, path, wish.wait, bytes);
    if (answer == REDO_OK)
        answer = wish.opens ? (int32_t)redo_core_open(&db->core_, FILES(bytes), &db->detail_) : REDO_NOT_A_STORE;
    if (answer == REDO_NOT_A_STORE && wish.numbers) answer = make(db, bytes, wish.numbers, wish.pages);
    for (int i = 0; i < 3; i++) free(bytes[i].at);
    if (answer == REDO_OK) answer = redo_report(db, REDO_OK);
    else if (answer == REDO_DISK_FAULT && db->detail_.third == 0) redo_no_memory(db);
    if (answer != REDO_OK) redo_close_files(db, &db->files_), *db = (redo_t){.detail_ = db->detail_};
    else db->state_ = REDO_IS_OPEN;
    return redo_leave(db, answer);
}

int32_t redo_create(redo_t *db, const char *path, uint32_t objects, uint32_t cap, uint32_t limit) {
    return start(db, path, (wish_t){.numbers = &(redo_params_t){objects, cap, limit}});
}
int32_t redo_create_pages(redo_t *db, const char *path, uint32_t objects, uint32_t cap, uint32_t limit) {
    return start(db, path, (wish_t){.numbers = &(redo_params_t){objects, cap, limit}, .pages = true});
}
int32_t redo_open(redo_t *db, const char *path) { return start(db, path, (wish_t){.opens = true}); }
int32_t redo_open_with(redo_t *db, const char *path, uint32_t how, uint32_t wait, const redo_params_t *numbers) {
    bool makes = how & REDO_OR_CREATE, reads = how & REDO_TO_READ, pages = how & REDO_WITH_PAGES;
    bool is_way = how <= (REDO_OR_CREATE | REDO_WITH_PAGES) && !(makes && reads) && (makes || !pages);
    if (db->state_ == REDO_IS_CLOSED && !is_way) return redo_alone(db, REDO_BAD_WAY);
    if (db->state_ == REDO_IS_CLOSED && makes && !numbers) return redo_alone(db, REDO_NULL);
    return start(db, path, (wish_t){true, reads, pages, wait, makes ? numbers : 0});
}
