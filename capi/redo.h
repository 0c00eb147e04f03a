/* A store of objects within a program: commands, values, durability, groups, trees, hash files, maps, applications.
 *
 * redo_close forces nothing: what no redo_force has answered for may be lost, as by a kill.
 * A handle is used where it was opened, in the process that opened it, by one call at a time; other calls are refused (REDO_COPIED,
 * REDO_FORKED, REDO_BUSY), and so is a second handle on a store (REDO_LOCKED), but where both only read.
 * docs/LIBRARY.md says more, and docs/SCRIPT.md ("Lines") what the commands do.
 *
 * SPDX-License-Identifier: MIT OR Apache-2.0 */
#ifndef REDO_H
#define REDO_H
#include <stddef.h>
#include <stdint.h>
#ifdef __cplusplus
extern "C" {
#endif

/* Of this header: greater where something was added, which never changes what was there. */
#define REDO_VERSION 7
#define REDO_VERSION_STRING "0.10.0"    /* of the release */
uint32_t redo_version(void);            /* of the library that runs */
const char *redo_version_string(void);
size_t redo_handle_size(void);          /* sizeof(redo_t) in it, which is 128 in all versions */

/* Numbers beside an answer. */
typedef struct redo_detail { uint64_t first, second, third; } redo_detail_t;

/* A handle: memory of the caller that begins as REDO_CLOSED (zeros) and that the library alone reads and writes. It is not
 * copied or moved between redo_open and redo_close: what was is REDO_COPIED, and its redo_close closes nothing. */
typedef struct redo_core { uint8_t opened_; void *at_; } redo_core_t;
typedef struct redo_files { int32_t folder_, file_[3]; } redo_files_t;
typedef struct redo_handle {
    int32_t state_;
    uint8_t busy_, reads_, upkeep_, unused_;
    redo_files_t files_;
    redo_core_t core_;
    uint8_t *buffer_;
    size_t room_;
    redo_detail_t detail_;
    redo_files_t copy_;
    redo_core_t target_;
    const struct redo_handle *self_;
    uint32_t forks_;
    int32_t answer_;
} redo_t;
#ifdef __cplusplus
#define REDO_CLOSED {}
#else
#define REDO_CLOSED {0}
#endif

/* The answers: 0, or why a call was not done. A number is never used again for something else. Below 32 the store or the machine
 * speaks (numbers below 16 are the statuses of the program, which ends with 3 in the place of 6), from 32 on a command is refused,
 * and from 64 on a call is misused. What is refused or misused has changed nothing; of a call that is several commands (trees, hash
 * files, maps, runs of an application) those before the refusal stay. An install, a tend, a drain, a checkpoint or a trim that is answered
 * with REDO_LOG_FULL or REDO_MEMORY may have done a part of its work, which changes no value, and may be called again. After
 * REDO_DISK_FAULT a handle answers that until it is closed. */
enum {
    REDO_OK = 0,
    REDO_BAD_PARAMS = 2,     /* redo_create: numbers that no store may have */
    REDO_NOT_A_STORE = 3,    /* redo_open: the folder has none */
    REDO_DAMAGED = 4,        /* a file is damaged, or a redo_create was cut short; detail: the file (0 objects, 1 log A, 2 log B) and
                              * the place */
    REDO_DISK_FAULT = 5,     /* a file could not be opened, read, written or synced, or memory was refused in the middle of a call;
                              * detail: errno, 0 where a file ended early; the file (3 the folder); what failed, below, 0 where memory was
                              * refused */
    REDO_ALREADY_STORE = 6,  /* the folder in which a store is to be made has one */
    REDO_MEMORY = 8,         /* out of memory */
    REDO_BACKUP_FAULT = 11,  /* as REDO_DISK_FAULT, of a backup's files: the backup is given up, and the store goes on */
    REDO_LOG_FULL = 16,      /* detail: bytes used, bytes needed, limit; redo_drain and redo_trim make room */
    REDO_EXHAUSTED = 17,     /* no number is left for a command; detail: the last one */
    REDO_IN_GROUP = 18,      /* not within a group; detail: how many commands it has */
    REDO_NO_GROUP = 19,      /* redo_end, redo_group_abort: no group is open */
    REDO_IN_BACKUP = 20,     /* not while a backup is being made; detail: how many objects are copied */
    REDO_NO_BACKUP = 21,     /* no backup is being made: said before REDO_IN_GROUP */
    REDO_NOT_COPIED = 22,    /* redo_backup_finish: not all objects are copied; detail: how many are */
    REDO_IN_TXN = 23,        /* not within a transaction */
    REDO_NO_TXN = 24,        /* redo_txn_commit, redo_txn_abort: no transaction is open */
    REDO_IN_SNAPSHOT = 25,   /* redo_snapshot_begin: a snapshot is open */
    REDO_NO_SNAPSHOT = 26,   /* redo_snapshot_get, redo_snapshot_end: none is open */
    REDO_GIVEN_UP = 27,      /* redo_snapshot_get: the snapshot was given up */
    REDO_NO_OBJECT = 32,     /* the store has no such object, or the range is none */
    REDO_SAME = 33,          /* the two objects are one */
    REDO_BAD_PLACE = 34,     /* redo_cut: the value is not that long */
    REDO_BAD_WIDTH = 35,     /* redo_sort: the value is not made of records of this width */
    REDO_NOT_APP = 36,       /* the value is no state of an application */
    REDO_NO_INPUT = 37,      /* the application has no input left */
    REDO_NOT_NODE = 38,      /* the value is no node of a tree and no bucket of a hash file */
    REDO_NO_KEY = 39,        /* the key is not there; redo_tree_pair, redo_map_pair, redo_map_next, redo_map_prev: there is no such pair */
    REDO_NODE_FULL = 40,     /* the node takes no key more */
    REDO_TOO_LARGE = 41,     /* the value would be longer than `cap`, or a tree or a hash file is changed and `cap` is below 1024 */
    REDO_NOT_CODE = 42,      /* the value is no program */
    REDO_HALTED = 43,        /* the program has halted */
    REDO_BAD_TREE = 44,      /* an object of the range is no node of the tree; detail: the object */
    REDO_TREE_FULL = 45,     /* detail: how many objects more the insert needs, how many are empty */
    REDO_BAD_HASH = 46,      /* an object of the range is not of the hash file; detail: the object */
    REDO_HASH_FULL = 47,     /* a bucket cannot be split once more; detail: the object */
    REDO_NO_ROOM = 48,       /* the range has too few empty objects; detail: how many */
    REDO_BAD_KEY = 49,       /* a key, or the value of a key, has 1 to 32 bytes; said before a range is held against the store */
    REDO_NO_PAGES = 50,      /* a map of wide pages is changed in a store that was made without pages, or whose `cap` is below 1024 */
    REDO_BAD_MAP = 51,       /* an object of the range is no page of the map, or not of its place; detail: the object */
    REDO_TOO_LONG = 52,      /* redo_map_set: the key has no bytes, or the key or the value is too long for the store's pages; where it has
                              * 65536 bytes or more, said before a range is held against the store */
    REDO_MAP_FULL = 53,      /* redo_map_set: a page has to be cut in two, and fewer than two objects of the range are empty, or the map
                              * has all its levels */
    REDO_NOT_OPEN = 64,      /* the handle is closed */
    REDO_ALREADY_OPEN = 65,  /* the handle is open */
    REDO_BUSY = 66,          /* another call with this handle is under way: one that a signal has interrupted, or another thread's */
    REDO_COPIED = 67,        /* the handle is a copy of an open one, or was moved since it was opened */
    REDO_FORKED = 68,        /* the handle is the parent's: this process may close it, and nothing else. (A fork by the bare system call
                              * is not noticed.) */
    REDO_NULL = 69,          /* a pointer to bytes, or to room for some, is null and its length is not 0; or a path is null, or the numbers
                              * of a store that may have to be made */
    REDO_LOCKED = 71,        /* another handle, or another process, has the store */
    REDO_NO_FOLDER = 72,     /* the folder is not there, or cannot be locked; detail: errno */
    REDO_OLD_LOG = 73,       /* the folder in which a store is to be made has none, but the log of one: see docs/SCRIPT.md */
    REDO_NO_LENGTH = 74,     /* a value is longer than the room, and `length` is null; the room has the beginning of it */
    REDO_READ_ONLY = 75,     /* the handle only reads */
    REDO_BAD_WAY = 76        /* redo_open_with: no such way to open a store */
};
enum { REDO_FAILED_OPEN = 1, REDO_FAILED_READ = 2, REDO_FAILED_WRITE = 3, REDO_FAILED_SYNC = 4 };
const char *redo_strerror(int32_t answer);      /* a constant text for each number */
/* What the last answer of this handle that was not 0, and not REDO_BUSY, says in words: the numbers beside it, and of a fault the file,
 * what failed and the system's reason. It is put into the room, where 160 bytes are enough, and `into` is the answer; where there is
 * no room, the constant text is. After redo_close there was none. It is that of the handle, not of a thread, as the detail is. */
const char *redo_last_error(const redo_t *db, char *into, size_t room);
/* What the last answer of this handle that was not 0 says beside its number; zeros where it says nothing. */
int32_t redo_last_detail(const redo_t *db, redo_detail_t *detail);

/* A store is the files objects.rdo, log_a.rdo and log_b.rdo of a folder. redo_create makes one in a folder that is there, and
 * leaves it open: 1 to 65535 objects, each of at most `cap` bytes (16 to 1048576), a log of at most `limit` bytes (2 cap + 4096
 * to 536870912). One that was cut short has made no store: redo_open says REDO_NOT_A_STORE or REDO_DAMAGED, and redo_create makes one
 * (after REDO_OLD_LOG once the log files are removed). Opening a store reads its files into memory, and takes twice their length
 * while it does. */
typedef struct redo_params { uint32_t objects, cap, limit; } redo_params_t;
int32_t redo_create(redo_t *db, const char *folder, uint32_t objects, uint32_t cap, uint32_t limit);
/* The same, of a store that has maps of wide pages too (version 3 of its files; older libraries and programs do not open it). */
int32_t redo_create_pages(redo_t *db, const char *folder, uint32_t objects, uint32_t cap, uint32_t limit);
int32_t redo_open(redo_t *db, const char *folder);
/* redo_open, but in this way: 0, or one of these two. The lock is waited for, so many milliseconds at most: then it is REDO_LOCKED.
 * REDO_OR_CREATE: where the folder has no store, one is made with these numbers, which else are not looked at. What redo_open calls
 * damaged is so here. With REDO_WITH_PAGES beside it that is one which has maps of wide pages.
 * REDO_TO_READ: nothing is written, and no restart is logged. Many handles may read one store, in one process or several, and none
 * changes it meanwhile (REDO_LOCKED, on either side; the lock has no queue, and readers that come and go may outlast a wait for it).
 * The folder and its files have to be readable, no more. Every call that does
 * not only read is REDO_READ_ONLY. */
enum { REDO_OR_CREATE = 1, REDO_TO_READ = 2, REDO_WITH_PAGES = 4 };
int32_t redo_open_with(redo_t *db, const char *folder, uint32_t how, uint32_t wait, const redo_params_t *numbers);
int32_t redo_close(redo_t *db);                 /* forces nothing; in a child it lets the child's copy of the handle go */

/* Commands on values. With REDO_OK a command is accepted, and redo_get sees it; it is durable once redo_force says so. Bytes are
 * a pointer and a length, and are copied; those of length 0 may be at no place, others at none are REDO_NULL. */
int32_t redo_put(redo_t *db, uint32_t object, const void *value, size_t length);
int32_t redo_copy(redo_t *db, uint32_t from, uint32_t to);
int32_t redo_append(redo_t *db, uint32_t from, uint32_t to);                    /* the value of `from` behind that of `to` */
int32_t redo_cut(redo_t *db, uint32_t from, uint32_t to, uint32_t place);       /* what is past `place` goes to `to` */
int32_t redo_sort(redo_t *db, uint32_t from, uint32_t to, uint32_t width);
int32_t redo_swap(redo_t *db, uint32_t first, uint32_t second);

/* A value: as much of it as there is room for is copied. `length` says how many bytes it has, so room 0 asks for that alone; where
 * it is null, a value that has more than there is room for is REDO_NO_LENGTH.
 * Here and below, a number that is told is told where its pointer is not null, and only with REDO_OK. */
int32_t redo_get(redo_t *db, uint32_t object, void *into, size_t room, uint64_t *length);

/* Durability. None of these, nor a begin, goes within a group (REDO_IN_GROUP). */
int32_t redo_force(redo_t *db, uint64_t *commands);     /* all accepted commands are durable: so many since redo_create */
int32_t redo_install(redo_t *db, uint64_t *installed);  /* one node of the write graph: 1, or 0 where none was left */
int32_t redo_drain(redo_t *db);                         /* all of them */
/* A piece of a drain: what waits is forced, and up to `most` nodes are installed, with three syncs at most for all of them that go
 * together; 0 where none was left. So it is best called before a redo_force, which then has nothing to do. */
int32_t redo_tend(redo_t *db, uint64_t most, uint64_t *installed);
/* With `on` the handle keeps up: after a command outside a group and a transaction, and after the end of either, it takes one such
 * piece, and one trim that leaves at most 1 MiB, where they are due; and a drain and a trim where the log is past three quarters of
 * its limit still, or has no room for another value. Of that nothing is told but REDO_DISK_FAULT, which is the answer of the command
 * then. */
int32_t redo_upkeep(redo_t *db, int32_t on);
int32_t redo_checkpoint(redo_t *db);                    /* logs where a restart begins */
int32_t redo_trim(redo_t *db);                          /* rewrites the log without the records that no restart needs */

/* A group: of the commands between the two a crash leaves all or none. redo_begin forces first; redo_end forces nothing. */
int32_t redo_begin(redo_t *db);
int32_t redo_end(redo_t *db);
/* The same, where the log has room for records of so many bytes: else REDO_LOG_FULL at once, and nothing is done. No command of the
 * group is REDO_LOG_FULL then as long as their records are no longer (docs/LIBRARY.md says how long they are). */
int32_t redo_begin_room(redo_t *db, uint64_t bytes);
/* Gives up the open group: its commands are gone, in memory and on the disk, and those before it are there, and durable. The store
 * is opened again in memory for that, and a backup that is being made is given up. Where it fails, for want of memory or with a
 * file, the answer is REDO_DISK_FAULT, and the files have the commands before the group. */
int32_t redo_group_abort(redo_t *db);

/* A transaction: between the two, commands on values, calls on trees, hash files and maps, steps and runs of applications are staged,
 * and the calls that read values, trees, hash files and maps see them; nothing is logged. Each is refused as it would be after the
 * staged ones. redo_txn_commit adds all of them, in one group, or none; the next redo_force makes them durable. It is REDO_LOG_FULL
 * only where their records do not fit, and the transaction stays open then: after a redo_drain and a redo_trim it may be committed
 * once more. Every other answer ends it; with one that is not REDO_OK nothing of it is there. Groups and another redo_txn_begin are
 * REDO_IN_TXN meanwhile. */
int32_t redo_txn_begin(redo_t *db);             /* not within a group */
int32_t redo_txn_commit(redo_t *db);            /* forces what was accepted before it */
/* The same, but it forces nothing, so that many transactions go with one redo_force: a crash leaves what the last force left. Where
 * memory runs out within (REDO_MEMORY), all that is not forced is given up: then the store has what the last force left. */
int32_t redo_txn_commit_lazily(redo_t *db);
int32_t redo_txn_abort(redo_t *db);             /* drops what is staged, and so does redo_close */

/* A snapshot: the values that all objects have as it begins, and keep for redo_snapshot_get while other calls change them. A value is
 * copied as the first call since changes it, those of a whole range at the first change of a tree, hash file or map there. Where memory is
 * refused for that, and where the store goes back behind its beginning (redo_group_abort, a commit that is cut off), the snapshot is
 * given up (REDO_GIVEN_UP), and the call is done as without it. What is staged is not seen. One snapshot is open at a time, also across
 * groups and transactions; redo_close ends it. */
int32_t redo_snapshot_begin(redo_t *db);
int32_t redo_snapshot_get(redo_t *db, uint32_t object, void *into, size_t room, uint64_t *length);      /* as redo_get */
int32_t redo_snapshot_end(redo_t *db);

/* A backup: the store as it is at the finish, in another folder, which is there and has no store. Commands, installs and checks go
 * on meanwhile; redo_trim does not (REDO_IN_BACKUP), and nothing of a backup goes within a group. Its files are in memory until its
 * end, and no store before redo_backup_finish; a crash within that leaves none, or the whole one. Once it has answered, the folder
 * is let go, and may be opened. */
int32_t redo_backup_start(redo_t *db, const char *folder);
int32_t redo_backup_copy(redo_t *db, uint32_t count, uint64_t *copied);     /* so many objects more: so many are copied now */
int32_t redo_backup_finish(redo_t *db, uint64_t *commands);                 /* it has so many commands, and all of them */
int32_t redo_backup_give_up(redo_t *db);                                    /* redo_close does that too */

typedef struct redo_stat {
    uint64_t nodes, dirty, uninstalled;     /* of the write graph: nodes, objects to be flushed, records not installed */
    uint64_t forced, accepted;              /* commands since redo_create: durable, all */
    uint64_t used, identities;              /* bytes of the log in use, identity writes logged since the store was opened */
} redo_stat_t;
int32_t redo_stat(redo_t *db, redo_stat_t *stat);
int32_t redo_params(redo_t *db, redo_params_t *params);

/* The objects low to high of a tree, a hash file or a map, in which nothing else is put. Keys and values of a tree or a hash file have 1
 * to 32 bytes, and its store a cap of at least 1024: with less each change is REDO_TOO_LARGE. */
typedef struct redo_range { uint32_t low, high; } redo_range_t;

/* A tree: keys in order, in small nodes. An empty range is an empty tree. */
int32_t redo_tree_insert(redo_t *db, redo_range_t tree, const void *key, size_t key_length, const void *value, size_t length);
int32_t redo_tree_delete(redo_t *db, redo_range_t tree, const void *key, size_t key_length);
int32_t redo_tree_get(redo_t *db, redo_range_t tree, const void *key, size_t key_length, void *into, size_t room,
                      uint64_t *length);
/* The pairs whose keys are not below `from` and below `to`, by rising key: `count` of them, which the handle keeps until its
 * next redo_tree_range, and which redo_tree_pair copies, counted from 0. */
int32_t redo_tree_range(redo_t *db, redo_range_t tree, const void *from, size_t from_length, const void *to, size_t to_length,
                        uint64_t *count);
typedef struct redo_lengths { uint64_t key, value; } redo_lengths_t;
int32_t redo_tree_pair(redo_t *db, uint64_t pair, void *key, size_t key_room, void *value, size_t room, redo_lengths_t *lengths);

/* A hash file, whose keys have no order: one object is read for a key, beside the directory. */
int32_t redo_hash_put(redo_t *db, redo_range_t hash, const void *key, size_t key_length, const void *value, size_t length);
int32_t redo_hash_delete(redo_t *db, redo_range_t hash, const void *key, size_t key_length);
int32_t redo_hash_get(redo_t *db, redo_range_t hash, const void *key, size_t key_length, void *into, size_t room,
                      uint64_t *length);

/* Calls `each` with one pair after the other, in no order, until it answers another number than 0: so many were told. Where it is null
 * they are counted. The bytes are there until it answers, and the handle is busy meanwhile: for good where `each` jumps out. With another
 * answer than REDO_OK some may have been told, and `count` is as it was. */
typedef int (*redo_each_t)(void *with, const void *key, size_t key_length, const void *value, size_t length);
int32_t redo_hash_each(redo_t *db, redo_range_t hash, redo_each_t each, void *with, uint64_t *count);

/* An ordered map of wide pages, each as long as a value may be: P bytes, `cap` or 65535, whichever is less. An empty range is an empty
 * map. Keys have 1 to 1023 bytes, at most P / 8 - 8, and values 0 to P / 4 bytes. The store was made by redo_create_pages, or upgraded
 * by the program, and has a `cap` of at least 1024: else each change is REDO_NO_PAGES.
 * A set or a delete is a few commands. Where one of them is REDO_LOG_FULL, or REDO_MEMORY, those before it stay: after such a set the
 * map holds what it held, and the call may be made again; after such a delete that, or all but the key, and then a second one is
 * REDO_NO_KEY. */
int32_t redo_map_set(redo_t *db, redo_range_t map, const void *key, size_t key_length, const void *value, size_t length);
int32_t redo_map_delete(redo_t *db, redo_range_t map, const void *key, size_t key_length);
int32_t redo_map_get(redo_t *db, redo_range_t map, const void *key, size_t key_length, void *into, size_t room,
                     uint64_t *length);
/* How many keys are not below `from` and below `to`. A `to` of length 0 is the end of the map, here and below. (Keys that begin with some
 * bytes: from these, to these without what is 0xff at their end, and one more in the last byte that is left.) */
int32_t redo_map_count(redo_t *db, redo_range_t map, const void *from, size_t from_length, const void *to, size_t to_length,
                       uint64_t *count);
/* The first of their pairs, by rising key, and the last ones, by falling key: `count` of them, at most `most`. The handle keeps them until
 * the next of these calls and those below, and redo_map_pair copies them, counted from 0. */
int32_t redo_map_range(redo_t *db, redo_range_t map, const void *from, size_t from_length, const void *to, size_t to_length,
                       uint32_t most, uint64_t *count);
int32_t redo_map_back(redo_t *db, redo_range_t map, const void *from, size_t from_length, const void *to, size_t to_length,
                      uint32_t most, uint64_t *count);
int32_t redo_map_pair(redo_t *db, uint64_t pair, void *key, size_t key_room, void *value, size_t room, redo_lengths_t *lengths);
/* The first pair above a key, and the last one below it; of a key of length 0, the first pair of all, and the last one. REDO_NO_KEY where
 * there is none. redo_map_pair copies it too, as pair 0. A cursor is a key: it may have been deleted meanwhile, and `found` may be where
 * `key` is. */
int32_t redo_map_next(redo_t *db, redo_range_t map, const void *key, size_t key_length, void *found, size_t found_room, void *value,
                      size_t room, redo_lengths_t *lengths);
int32_t redo_map_prev(redo_t *db, redo_range_t map, const void *key, size_t key_length, void *found, size_t found_room, void *value,
                      size_t room, redo_lengths_t *lengths);

/* An application whose state is the value of `app`: a step, input added from an object, output taken to one, and steps until
 * `most` are done or one is refused for want of input. */
int32_t redo_app_exec(redo_t *db, uint32_t app);
int32_t redo_app_read(redo_t *db, uint32_t app, uint32_t from);
int32_t redo_app_write(redo_t *db, uint32_t app, uint32_t to);
int32_t redo_app_run(redo_t *db, uint32_t app, uint64_t most, uint64_t *steps);

/* The same of an application that is interpreted: its program is the value of `program`. */
int32_t redo_program_exec(redo_t *db, uint32_t app, uint32_t program);
int32_t redo_program_read(redo_t *db, uint32_t app, uint32_t from);
int32_t redo_program_write(redo_t *db, uint32_t app, uint32_t to);
int32_t redo_program_run(redo_t *db, uint32_t app, uint32_t program, uint64_t most, uint64_t *steps);
#ifdef __cplusplus
}
#endif
#endif
