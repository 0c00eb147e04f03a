/* What redo.c, redo_open.c and redo_handle.c have for the other pages of C. It is not for programs. */
#ifndef REDO_FILES_H
#define REDO_FILES_H
#include "redo.h"
#include "redo_core.h"
#include <stdbool.h>

typedef struct bytes { uint8_t *at; size_t length; } bytes_t;
/* A number that the caller asks for, or one that is dropped. */
#define COUNT(pointer) ((pointer) ? (pointer) : &(uint64_t){0})
#define FILES(b) redo_some(b[0].at), b[0].length, redo_some(b[1].at), b[1].length, redo_some(b[2].at), b[2].length

/* Of redo_handle.c. `state_` of a handle is one of these: where it is failed, it has let its store go. */
enum { REDO_IS_CLOSED = 0, REDO_IS_OPEN = 1, REDO_IS_FAILED = 2, REDO_IS_OPENING = 3 };
/* A call on an open store: what is made where the handle may be used, or why it may not. Of a handle that only reads it is
 * REDO_READ_ONLY, but where the call reads. */
#define REDO_CALL(made) (redo_enter_to_change(db) ?: redo_leave(db, made))
#define REDO_READING(made) (redo_enter(db) ?: redo_leave(db, made))
int32_t redo_enter(redo_t *);
int32_t redo_enter_to_change(redo_t *);
int32_t redo_leave(redo_t *, int32_t);
/* This place, this process and a call that is under way have the handle. */
void redo_own(redo_t *);
bool redo_is_own(const redo_t *);
/* Answers with nothing beside it, or with the system's reason. */
int32_t redo_alone(redo_t *, int32_t);
int32_t redo_because(redo_t *, int32_t);
/* The same of a disk fault: what failed, and of which file; or memory, which was refused. */
enum { REDO_FOLDER = 3 };
int32_t redo_failed(redo_t *, uint32_t file, int32_t what);
int32_t redo_no_memory(redo_t *);

/* What a call of redo.h answers, where the library has answered this. */
int32_t redo_report(redo_t *, uint32_t);

extern const redo_files_t redo_no_files;
extern const char *const redo_file_names[4];
int redo_above_streams(int);
bool redo_open_file(redo_files_t *, uint32_t, int);
void redo_close_files(const redo_t *, redo_files_t *);
/* Of redo_open.c: waits so many milliseconds for the lock. */
int32_t redo_open_files(redo_t *, redo_files_t *, const char *, uint32_t, bytes_t[3]);
/* Whether a log has records, whatever the file of the objects is. */
bool redo_has_log(bytes_t[3]);

typedef uint32_t next_call_t(redo_core_t *, redo_call_t *, uint8_t *, size_t);
bool redo_make_calls(redo_t *, redo_files_t *, next_call_t *, redo_core_t *);

/* Of redo_backup.c: lets the files of a backup go, if there are some. */
void redo_end_backup(redo_t *);
#endif
