/* The calls of redo.c on files, in the place of the system's: one of them fails, and all are recorded. A program that is linked
 * with calls.c has these functions in the place of the C library's, for libredo.so too (link with -rdynamic). */
#ifndef CALLS_H
#define CALLS_H
#include <stdbool.h>
#include <stdint.h>
#include <stddef.h>

enum which { OPEN, LOCK, OPENAT, LSEEK, PREAD, FSYNC, PWRITE, FTRUNCATE, FDATASYNC, CALLS };
extern const char *const call_names[CALLS];

/* The call that fails: the `fail_at`-th of this kind from 1 on, with errno `fail_why`; none where it is 0. A pwrite writes
 * the first half of its bytes then. Beside that, each pwrite and pread moves at most `most` bytes where that is not 0. */
extern enum which fail_which;
extern unsigned fail_at;
extern int fail_why;
extern size_t most;
/* Where this is not 0, the disk is full past this length of a file. */
extern uint64_t disk_end;
extern bool has_failed;
/* How many such calls were made since. */
extern unsigned calls_after;
void read_words(const char *words);
/* What is done in the middle of the next fdatasync, once. */
extern void (*meanwhile)(void);

/* What was done: bytes written at a place of file 0 to 2, a sync of the file, its making, a read of it; or a sync of the folder
 * (file 3). */
enum done { WRITTEN, SYNCED, MADE, READ };
typedef struct made { enum done done; int file; uint64_t at; size_t length; uint8_t *bytes; } made_t;
extern bool recording;
/* Where this is not 0, what is done in the folder with this path alone. */
extern const char *recorded;
extern made_t *made;
extern size_t made_count;
#endif
