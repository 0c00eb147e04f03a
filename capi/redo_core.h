/* The proved library under redo.c, which keeps a store in memory: no function of it touches a file. It is not for programs. */
#ifndef REDO_CORE_H
#define REDO_CORE_H
#include "redo.h"
#include <stdbool.h>

/* A call that has to be made on the files: `length` bytes written at a place of a file (0 objects, 1 log A, 2 log B), a file
 * synced, or bytes that may be printed. */
enum { REDO_CALL_WRITE = 0, REDO_CALL_SYNC = 1, REDO_CALL_SAY = 2 };
typedef struct redo_call { uint32_t kind, file; uint64_t at, length; } redo_call_t;

/* Bytes: the place, which is never null, and behind it in the list of parameters the length. */
typedef const uint8_t *redo_bytes_t;
static inline redo_bytes_t redo_some(const void *at) { return at ? at : (redo_bytes_t)""; }

uint32_t redo_core_create(redo_core_t *, redo_bytes_t, size_t, redo_bytes_t, size_t, redo_bytes_t, size_t, const redo_params_t *,
                         bool, redo_detail_t *);
uint32_t redo_core_open(redo_core_t *, redo_bytes_t, size_t, redo_bytes_t, size_t, redo_bytes_t, size_t, redo_detail_t *);
uint32_t redo_core_close(redo_core_t *);
/* 1 where a call waits, which is told, and its bytes where there is room for them: then it waits no more. 0 where none does. */
uint32_t redo_core_next(redo_core_t *, redo_call_t *, uint8_t *, size_t);
/* What the last answer says beside its number. */
uint32_t redo_core_detail(redo_core_t *, redo_detail_t *);

uint32_t redo_core_put(redo_core_t *, uint32_t, redo_bytes_t, size_t);
uint32_t redo_core_copy(redo_core_t *, uint32_t, uint32_t);
uint32_t redo_core_append(redo_core_t *, uint32_t, uint32_t);
uint32_t redo_core_cut(redo_core_t *, uint32_t, uint32_t, uint32_t);
uint32_t redo_core_sort(redo_core_t *, uint32_t, uint32_t, uint32_t);
uint32_t redo_core_swap(redo_core_t *, uint32_t, uint32_t);
uint32_t redo_core_get(redo_core_t *, uint32_t, uint8_t *, size_t, uint64_t *);

uint32_t redo_core_begin(redo_core_t *);
uint32_t redo_core_end(redo_core_t *);
uint32_t redo_core_begin_room(redo_core_t *, uint64_t);
/* REDO_DISK_FAULT where the store is not opened again: then it was let go, and the handle is closed. */
uint32_t redo_core_abort(redo_core_t *);
/* Between the two a command is staged. The same of a commit that was cut off within. */
uint32_t redo_core_txn_begin(redo_core_t *);
uint32_t redo_core_txn_commit(redo_core_t *);
uint32_t redo_core_txn_commit_lazily(redo_core_t *);
uint32_t redo_core_txn_abort(redo_core_t *);
/* The values that objects have are kept for the snapshot, before a call that may change them: for it, or for those that are staged, before
 * they are committed. One that is not kept gives the snapshot up. Where none is open it is REDO_NO_SNAPSHOT, and nothing is done. */
uint32_t redo_core_snapshot_begin(redo_core_t *);
uint32_t redo_core_snapshot_keep(redo_core_t *, const uint32_t *, size_t);
uint32_t redo_core_snapshot_keep_staged(redo_core_t *);
uint32_t redo_core_snapshot_get(redo_core_t *, uint32_t, uint8_t *, size_t, uint64_t *);
uint32_t redo_core_snapshot_end(redo_core_t *);
uint32_t redo_core_force(redo_core_t *, uint64_t *);
uint32_t redo_core_install(redo_core_t *, uint64_t *);
uint32_t redo_core_tend(redo_core_t *, size_t, uint64_t *);
uint32_t redo_core_keep_up(redo_core_t *);
uint32_t redo_core_drain(redo_core_t *);
uint32_t redo_core_checkpoint(redo_core_t *);
uint32_t redo_core_trim(redo_core_t *);
uint32_t redo_core_stat(redo_core_t *, redo_stat_t *);
uint32_t redo_core_params(redo_core_t *, redo_params_t *);

uint32_t redo_core_app_exec(redo_core_t *, uint32_t);
uint32_t redo_core_app_read(redo_core_t *, uint32_t, uint32_t);
uint32_t redo_core_app_write(redo_core_t *, uint32_t, uint32_t);
uint32_t redo_core_app_run(redo_core_t *, uint32_t, uint64_t, uint64_t *);
uint32_t redo_core_program_exec(redo_core_t *, uint32_t, uint32_t);
uint32_t redo_core_program_read(redo_core_t *, uint32_t, uint32_t);
uint32_t redo_core_program_write(redo_core_t *, uint32_t, uint32_t);
uint32_t redo_core_program_run(redo_core_t *, uint32_t, uint32_t, uint64_t, uint64_t *);

/* The files of a backup, as they were read, and the calls that have to be made on them. Where a call needs them and they are not
 * there the answer is REDO_NO_BACKUP, and so it is of a close. */
uint32_t redo_core_target_open(redo_core_t *, redo_bytes_t, size_t, redo_bytes_t, size_t, redo_bytes_t, size_t);
uint32_t redo_core_target_close(redo_core_t *);
uint32_t redo_core_target_next(redo_core_t *, redo_call_t *, uint8_t *, size_t);
uint32_t redo_core_backup_start(redo_core_t *, redo_core_t *);
uint32_t redo_core_backup_copy(redo_core_t *, redo_core_t *, uint32_t, uint64_t *);
uint32_t redo_core_backup_finish(redo_core_t *, redo_core_t *, uint64_t *);
uint32_t redo_core_backup_give_up(redo_core_t *);

/* A key that is not there: REDO_NO_KEY. No range of objects: REDO_NO_OBJECT. A key or value not of 1 to 32 bytes: REDO_BAD_KEY. */
uint32_t redo_core_tree_insert(redo_core_t *, const redo_range_t *, redo_bytes_t, size_t, redo_bytes_t, size_t);
uint32_t redo_core_tree_delete(redo_core_t *, const redo_range_t *, redo_bytes_t, size_t);
uint32_t redo_core_tree_get(redo_core_t *, const redo_range_t *, redo_bytes_t, size_t, uint8_t *, size_t, uint64_t *);
/* The pairs from a key up to another, that one left out, are kept until the next call of this function: so many. */
uint32_t redo_core_tree_range(redo_core_t *, const redo_range_t *, redo_bytes_t, size_t, redo_bytes_t, size_t, uint64_t *);
/* One of them, counted from 0, as much of it as there is room for; past the last one REDO_NO_KEY. */
uint32_t redo_core_tree_pair(redo_core_t *, uint64_t, uint8_t *, size_t, uint8_t *, size_t, redo_lengths_t *);
uint32_t redo_core_hash_put(redo_core_t *, const redo_range_t *, redo_bytes_t, size_t, redo_bytes_t, size_t);
uint32_t redo_core_hash_delete(redo_core_t *, const redo_range_t *, redo_bytes_t, size_t);
uint32_t redo_core_hash_get(redo_core_t *, const redo_range_t *, redo_bytes_t, size_t, uint8_t *, size_t, uint64_t *);
/* Of a map of wide pages. Keys from one up to another, or to the end of the map where that has length 0; at most so many of their pairs,
 * the first ones or the last ones; the first pair above a key, or the last one below it. What was found is kept until the next of these
 * four (range, back, next, prev) is done, and redo_core_map_pair gives it, as redo_core_tree_pair does. */
uint32_t redo_core_map_set(redo_core_t *, const redo_range_t *, redo_bytes_t, size_t, redo_bytes_t, size_t);
uint32_t redo_core_map_delete(redo_core_t *, const redo_range_t *, redo_bytes_t, size_t);
uint32_t redo_core_map_get(redo_core_t *, const redo_range_t *, redo_bytes_t, size_t, uint8_t *, size_t, uint64_t *);
uint32_t redo_core_map_count(redo_core_t *, const redo_range_t *, redo_bytes_t, size_t, redo_bytes_t, size_t, uint64_t *);
uint32_t redo_core_map_range(redo_core_t *, const redo_range_t *, redo_bytes_t, size_t, redo_bytes_t, size_t, uint32_t, uint64_t *);
uint32_t redo_core_map_back(redo_core_t *, const redo_range_t *, redo_bytes_t, size_t, redo_bytes_t, size_t, uint32_t, uint64_t *);
uint32_t redo_core_map_next(redo_core_t *, const redo_range_t *, redo_bytes_t, size_t, uint64_t *);
uint32_t redo_core_map_prev(redo_core_t *, const redo_range_t *, redo_bytes_t, size_t, uint64_t *);
uint32_t redo_core_map_pair(redo_core_t *, uint64_t, uint8_t *, size_t, uint8_t *, size_t, redo_lengths_t *);
#endif
