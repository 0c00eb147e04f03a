/* The files of a store that is open. The proved library (redo_core_*) keeps a store in memory and touches no file: redo_open.c reads
 * the files, and this page then makes on them what the library asks for before an answer is given. It is trusted and not
 * proved, and it is right if
 *   - `make_calls` makes the calls in the order of redo_core_next, each of them whole before the next one; of a handle that only reads
 *     it makes none;
 *   - where a call fails that is no write of zeros ahead, no later one is made, and the handle answers REDO_DISK_FAULT alone.
 * redo_handle.c says who may call; redo_backup.c does the same with the files of a backup; redo_calls.c hands the other calls of
 * redo.h on, each through `redo_report`. */
#define _GNU_SOURCE
#include "redo_files.h"
#include <errno.h>
#include <fcntl.h>
#include <stdlib.h>
#include <string.h>
#include <sys/file.h>
#include <unistd.h>

_Static_assert(sizeof(redo_t) == 128, "the size of a handle is the same in all versions");

enum { DONE = 0, LOG_HEADER = 33 };             /* bytes before a log's first block: docs/FORMATS.md */
const char *const redo_file_names[4] = {"objects.rdo", "log_a.rdo", "log_b.rdo", "the folder"};
const redo_files_t redo_no_files = {-1, {-1, -1, -1}};

/* A number above those of the standard streams, which the program may close and print to. */
int redo_above_streams(int fd) {
    if (fd < 0 || fd > 2) return fd;
    int higher = fcntl(fd, F_DUPFD_CLOEXEC, 3);
    close(fd);
    return higher;
}

/* Opens a file of the folder; with O_CREAT it is made if it is not there. False leaves errno. */
bool redo_open_file(redo_files_t *files, uint32_t i, int how) {
    files->file_[i] = redo_above_streams(openat(files->folder_, redo_file_names[i], how | O_CLOEXEC, 0666));
    return files->file_[i] >= 0;
}

/* Ends the lock too, which a child between its fork and its exec would else keep; but a child does not end that of its parent. */
void redo_close_files(const redo_t *db, redo_files_t *files) {
    for (int i = 0; i < 3; i++)
        if (files->file_[i] >= 0) close(files->file_[i]);
    if (files->folder_ >= 0 && redo_is_own(db)) flock(files->folder_, LOCK_UN);
    if (files->folder_ >= 0) close(files->folder_);
    *files = redo_no_files;
}

/* A file that a write makes: its name is on the disk before anything is written to it. */
static int32_t has_file(redo_files_t *files, uint32_t i) {
    if (files->file_[i] >= 0) return DONE;
    if (!redo_open_file(files, i, O_RDWR | O_CREAT)) return REDO_FAILED_OPEN;
    return fsync(files->folder_) == 0 ? DONE : REDO_FAILED_SYNC;
}

static bool write_all(int fd, const uint8_t *bytes, size_t length, uint64_t at) {
    while (length > 0) {
        ssize_t n = pwrite(fd, bytes, length, (off_t)at);
        if (n < 0 && errno == EINTR) continue;
        if (n <= 0) return false;
        bytes += n, length -= (size_t)n, at += (uint64_t)n;
    }
    return true;
}

/* A write of no bytes past the end lengthens the file. */
static bool lengthen(int fd, uint64_t at) {
    off_t size = lseek(fd, 0, SEEK_END);
    return size >= 0 && ((uint64_t)size >= at || ftruncate(fd, (off_t)at) == 0);
}

/* Whether these are the zeros that a log is filled ahead with, for blocks to come (docs/DISK.md). Nothing else that is written
 * behind the header of a log whose gate is open is zeros alone: a block begins with its length. */
static bool are_spare(int fd, const redo_call_t *call, const uint8_t *bytes) {
    uint8_t gate;
    if (call->file == 0 || call->at <= LOG_HEADER || bytes[0] != 0 || memcmp(bytes, bytes + 1, call->length - 1) != 0) return false;
    return pread(fd, &gate, 1, 0) == 1 && gate == 1;
}

/* What is said is on no file. A file that is not there has nothing to sync. Zeros ahead that cannot be written, as on a full disk,
 * are passed over, as the program does: the bytes behind the end of a log are free, and there may still be room for a block. */
static int32_t make_call(redo_files_t *files, const redo_call_t *call, const uint8_t *bytes) {
    uint32_t i = call->file;
    if (call->kind == REDO_CALL_SAY) return DONE;
    if (call->kind == REDO_CALL_SYNC) return files->file_[i] < 0 || fdatasync(files->file_[i]) == 0 ? DONE : REDO_FAILED_SYNC;
    int32_t failed = has_file(files, i);
    if (failed) return failed;
    int fd = files->file_[i];
    if (call->length == 0) return lengthen(fd, call->at) ? DONE : REDO_FAILED_WRITE;
    return write_all(fd, bytes, call->length, call->at) || are_spare(fd, call, bytes) ? DONE : REDO_FAILED_WRITE;
}

/* Makes all calls that wait, in order, on these files. Where one fails it says which, and why, beside the answer. */
bool redo_make_calls(redo_t *db, redo_files_t *files, next_call_t *next, redo_core_t *core) {
    redo_call_t call;
    uint8_t none;
    errno = 0;
    while (next(core, &call, db->buffer_ ? db->buffer_ : &none, db->room_) == 1) {
        if (call.length > db->room_) {                         /* there was no room for its bytes: it is told again */
            uint8_t *buffer = realloc(db->buffer_, call.length);
            if (!buffer) return redo_no_memory(db), false;
            db->buffer_ = buffer, db->room_ = call.length;
        } else if (!db->reads_) {
            int32_t failed = make_call(files, &call, db->buffer_);
            if (failed) return redo_failed(db, call.file, failed), false;
        }
    }
    return true;
}

/* A child that was forked in the middle of another thread's call has memory that nothing can be said of: it stays as it is. */
static void let_go(redo_t *db) {
    if (redo_is_own(db) || !db->busy_) {
        redo_end_backup(db);
        redo_core_close(&db->core_);
        free(db->buffer_);
    }
    redo_close_files(db, &db->copy_);
    redo_close_files(db, &db->files_);
}

/* Gives the answer, once all that it stands on was made. At a disk fault the files are a front of what was asked for: the store
 * is let go, with its lock, and a new handle may open it. (The library has no file: a fault of it is memory that was refused.) */
int32_t redo_report(redo_t *db, uint32_t answer) {
    if (answer != REDO_OK) redo_core_detail(&db->core_, &db->detail_);
    if (answer == REDO_DISK_FAULT) redo_no_memory(db);
    else if (redo_make_calls(db, &db->files_, redo_core_next, &db->core_)) return (int32_t)answer;
    let_go(db);
    *db = (redo_t){.state_ = REDO_IS_FAILED, .busy_ = 1, .files_ = redo_no_files, .detail_ = db->detail_, .copy_ = redo_no_files,
                   .self_ = db, .forks_ = db->forks_};
    return REDO_DISK_FAULT;
}

/* That of a parent too: the child lets its own copy go. */
int32_t redo_close(redo_t *db) {
    int32_t answer = redo_enter(db);
    if (answer != REDO_OK && answer != REDO_FORKED && answer != REDO_DISK_FAULT) return answer;
    if (db->state_ != REDO_IS_FAILED) let_go(db);
    *db = (redo_t)REDO_CLOSED;
    return REDO_OK;
}
