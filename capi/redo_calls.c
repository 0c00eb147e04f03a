/* The calls of redo.h that ask for no more than the proved library: each hands its words on, and reports the answer. */
#include "redo_files.h"

/* Bytes, or room for some, that are at no place. */
#define NOWHERE(pointer, length) (!(pointer) && (length))
/* Room of the caller's, or none. */
#define INTO(pointer, room) ((pointer) ? (pointer) : &(uint8_t){0}), (room)

#define MADE(name, ...) redo_report(db, redo_core_##name(&db->core_, __VA_ARGS__))
#define REPORT(name, ...) REDO_CALL(MADE(name, __VA_ARGS__))
#define REPORT_OF(name) REDO_CALL(redo_report(db, redo_core_##name(&db->core_)))
#define READ(name, ...) REDO_READING(MADE(name, __VA_ARGS__))
#define READ_OF(name) REDO_READING(redo_report(db, redo_core_##name(&db->core_)))
/* The same of a command, after which the handle keeps up, where it is to. Before it what the objects hold that it names is kept for the
 * snapshot, if one is open: it writes no others. */
#define COMMAND(one, other, name, ...) REDO_CALL((keep(db, one, other), kept_up(db, MADE(name, __VA_ARGS__))))
#define COMMAND_OF(name) REDO_CALL(kept_up(db, redo_report(db, redo_core_##name(&db->core_))))
/* The same of a call on a tree, a hash file or a map, which writes none but the objects of its range. */
#define CHANGE(name, range, ...) (keep_range(db, range), kept_up(db, MADE(name, &range, __VA_ARGS__)))
/* The same, but where bytes that it names are nowhere. */
#define UNLESS(nowhere, made) REDO_CALL((nowhere) ? redo_alone(db, REDO_NULL) : (made))
#define READ_UNLESS(nowhere, made) REDO_READING((nowhere) ? redo_alone(db, REDO_NULL) : (made))

/* Whether the log is past three quarters of its limit, or has no room for another value. */
static int is_nearly_full(redo_t *db) {
    redo_stat_t stat;
    redo_params_t p;
    return redo_core_stat(&db->core_, &stat) == REDO_OK && redo_core_params(&db->core_, &p) == REDO_OK &&
           (stat.used > p.limit / 4 * 3 || stat.used + p.cap + 64 > p.limit);
}
/* What is due after a command, in pieces; and all of it where they leave the log nearly full, as where that has room for few values, or
 * where most commands join objects, whose identity writes take room too. */
static int32_t kept_up(redo_t *db, int32_t answer) {
    if (answer != REDO_OK || !db->upkeep_) return answer;
    redo_detail_t before = db->detail_;
    answer = redo_report(db, redo_core_keep_up(&db->core_));
    if (answer == REDO_OK && is_nearly_full(db)) {
        answer = redo_report(db, redo_core_drain(&db->core_));
        if (answer == REDO_OK) answer = redo_report(db, redo_core_trim(&db->core_));
    }
    if (answer == REDO_DISK_FAULT) return answer;
    return db->detail_ = before, REDO_OK;
}
int32_t redo_upkeep(redo_t *db, int32_t on) { return REDO_CALL((db->upkeep_ = on != 0, REDO_OK)); }

/* Where no snapshot is open nothing is done. One that does not keep what it has to is given up, and a disk fault is answered again by
 * the command. */
static void keep(redo_t *db, uint32_t one, uint32_t other) {
    redo_core_snapshot_keep(&db->core_, (uint32_t[]){one, other}, 2);
}
static void keep_range(redo_t *db, redo_range_t range) {
    redo_params_t p;
    uint32_t objects[64] = {0};
    if (redo_core_snapshot_keep(&db->core_, objects, 0) == REDO_NO_SNAPSHOT) return;
    if (redo_core_params(&db->core_, &p) != REDO_OK || range.high >= p.objects) return;
    for (uint32_t x = range.low; x <= range.high;) {
        size_t count = 0;
        while (count < 64 && x <= range.high) objects[count++] = x++;
        redo_core_snapshot_keep(&db->core_, objects, count);
    }
}

/* How much of a value is handed on, which the library copies before it asks for CAP: with one byte past it it is too large. */
static size_t up_to_cap(redo_t *db, size_t length) {
    redo_params_t p;
    return redo_core_params(&db->core_, &p) == REDO_OK && length > p.cap ? (size_t)p.cap + 1 : length;
}

/* The answer of a call that puts a value into room of the caller's. Where its length is not asked for, none of it may be missing. */
static int32_t told(redo_t *db, int32_t answer, const void *into, size_t room, const uint64_t *unasked) {
    return answer == REDO_OK && into && *unasked > room ? redo_alone(db, REDO_NO_LENGTH) : answer;
}
#define VALUE(name, ...) told(db, MADE(name, __VA_ARGS__, INTO(into, room), length ? length : &unasked), into, room, &unasked)

int32_t redo_put(redo_t *db, uint32_t object, const void *value, size_t length) {
    return UNLESS(NOWHERE(value, length),
                  (keep(db, object, object), kept_up(db, MADE(put, object, redo_some(value), up_to_cap(db, length)))));
}
int32_t redo_copy(redo_t *db, uint32_t from, uint32_t to) { return COMMAND(from, to, copy, from, to); }
int32_t redo_append(redo_t *db, uint32_t from, uint32_t to) { return COMMAND(from, to, append, from, to); }
int32_t redo_cut(redo_t *db, uint32_t from, uint32_t to, uint32_t place) { return COMMAND(from, to, cut, from, to, place); }
int32_t redo_sort(redo_t *db, uint32_t from, uint32_t to, uint32_t width) { return COMMAND(from, to, sort, from, to, width); }
int32_t redo_swap(redo_t *db, uint32_t first, uint32_t second) { return COMMAND(first, second, swap, first, second); }
int32_t redo_get(redo_t *db, uint32_t object, void *into, size_t room, uint64_t *length) {
    uint64_t unasked = 0;
    return READ_UNLESS(NOWHERE(into, room), VALUE(get, object));
}

int32_t redo_force(redo_t *db, uint64_t *commands) { return REPORT(force, COUNT(commands)); }
int32_t redo_install(redo_t *db, uint64_t *installed) { return REPORT(install, COUNT(installed)); }
int32_t redo_tend(redo_t *db, uint64_t most, uint64_t *installed) { return REPORT(tend, most, COUNT(installed)); }
int32_t redo_drain(redo_t *db) { return REPORT_OF(drain); }
int32_t redo_checkpoint(redo_t *db) { return REPORT_OF(checkpoint); }
int32_t redo_trim(redo_t *db) { return REPORT_OF(trim); }
int32_t redo_begin(redo_t *db) { return REPORT_OF(begin); }
int32_t redo_begin_room(redo_t *db, uint64_t bytes) { return REPORT(begin_room, bytes); }
int32_t redo_end(redo_t *db) { return COMMAND_OF(end); }

/* Where the store was opened again, or let go, a backup is over. (A core that was let go has no detail of its own.) */
static int32_t again(redo_t *db, uint32_t core_answer) {
    db->detail_ = (redo_detail_t){0, 0, 0};
    int32_t answer = redo_report(db, core_answer);
    if (answer != REDO_DISK_FAULT) redo_end_backup(db);
    return answer;
}
static int32_t abort_group(redo_t *db) {
    uint32_t answer = redo_core_abort(&db->core_);
    return answer == REDO_NO_GROUP ? redo_report(db, answer) : again(db, answer);
}
int32_t redo_group_abort(redo_t *db) { return REDO_CALL(abort_group(db)); }

/* A commit that is cut off within has given up its group, or all that was not forced. */
static int32_t committed(redo_t *db, uint32_t answer) {
    bool is_cut = answer != REDO_OK && answer != REDO_LOG_FULL && answer != REDO_NO_TXN && answer != REDO_IN_GROUP;
    return is_cut ? again(db, answer) : kept_up(db, redo_report(db, answer));
}
int32_t redo_txn_begin(redo_t *db) { return REPORT_OF(txn_begin); }
#define COMMIT(name) REDO_CALL((redo_core_snapshot_keep_staged(&db->core_), committed(db, redo_core_##name(&db->core_))))
int32_t redo_txn_commit(redo_t *db) { return COMMIT(txn_commit); }
int32_t redo_txn_commit_lazily(redo_t *db) { return COMMIT(txn_commit_lazily); }
int32_t redo_txn_abort(redo_t *db) { return REPORT_OF(txn_abort); }

int32_t redo_snapshot_begin(redo_t *db) { return READ_OF(snapshot_begin); }
int32_t redo_snapshot_get(redo_t *db, uint32_t object, void *into, size_t room, uint64_t *length) {
    uint64_t unasked = 0;
    return READ_UNLESS(NOWHERE(into, room), VALUE(snapshot_get, object));
}
int32_t redo_snapshot_end(redo_t *db) { return READ_OF(snapshot_end); }

int32_t redo_stat(redo_t *db, redo_stat_t *stat) { return READ(stat, stat ? stat : &(redo_stat_t){0}); }
int32_t redo_params(redo_t *db, redo_params_t *params) { return READ(params, params ? params : &(redo_params_t){0}); }

int32_t redo_tree_insert(redo_t *db, redo_range_t tree, const void *key, size_t key_length, const void *value, size_t length) {
    return UNLESS(NOWHERE(key, key_length) || NOWHERE(value, length),
                  CHANGE(tree_insert, tree, redo_some(key), key_length, redo_some(value), length));
}
int32_t redo_tree_delete(redo_t *db, redo_range_t tree, const void *key, size_t key_length) {
    return UNLESS(NOWHERE(key, key_length), CHANGE(tree_delete, tree, redo_some(key), key_length));
}
int32_t redo_tree_get(redo_t *db, redo_range_t tree, const void *key, size_t key_length, void *into, size_t room,
                      uint64_t *length) {
    uint64_t unasked = 0;
    return READ_UNLESS(NOWHERE(key, key_length) || NOWHERE(into, room), VALUE(tree_get, &tree, redo_some(key), key_length));
}
int32_t redo_tree_range(redo_t *db, redo_range_t tree, const void *from, size_t from_length, const void *to, size_t to_length,
                        uint64_t *count) {
    return READ_UNLESS(NOWHERE(from, from_length) || NOWHERE(to, to_length),
                       MADE(tree_range, &tree, redo_some(from), from_length, redo_some(to), to_length, COUNT(count)));
}
/* A pair that was found last. (Where there is no such pair, the library's detail is that of the call before.) */
typedef uint32_t pair_call_t(redo_core_t *, uint64_t, uint8_t *, size_t, uint8_t *, size_t, redo_lengths_t *);
static int32_t kept_pair(redo_t *db, pair_call_t *give, uint64_t pair, void *key, size_t key_room, void *value, size_t room,
                         redo_lengths_t *lengths) {
    redo_lengths_t unasked = {0, 0};
    int32_t answer = redo_report(db, give(&db->core_, pair, INTO(key, key_room), INTO(value, room), lengths ? lengths : &unasked));
    if (answer == REDO_NO_KEY) return redo_alone(db, answer);
    return told(db, told(db, answer, key, key_room, &unasked.key), value, room, &unasked.value);
}
int32_t redo_tree_pair(redo_t *db, uint64_t pair, void *key, size_t key_room, void *value, size_t room,
                       redo_lengths_t *lengths) {
    return READ_UNLESS(NOWHERE(key, key_room) || NOWHERE(value, room),
                       kept_pair(db, redo_core_tree_pair, pair, key, key_room, value, room, lengths));
}
int32_t redo_hash_put(redo_t *db, redo_range_t hash, const void *key, size_t key_length, const void *value, size_t length) {
    return UNLESS(NOWHERE(key, key_length) || NOWHERE(value, length),
                  CHANGE(hash_put, hash, redo_some(key), key_length, redo_some(value), length));
}
int32_t redo_hash_delete(redo_t *db, redo_range_t hash, const void *key, size_t key_length) {
    return UNLESS(NOWHERE(key, key_length), CHANGE(hash_delete, hash, redo_some(key), key_length));
}
int32_t redo_hash_get(redo_t *db, redo_range_t hash, const void *key, size_t key_length, void *into, size_t room,
                      uint64_t *length) {
    uint64_t unasked = 0;
    return READ_UNLESS(NOWHERE(key, key_length) || NOWHERE(into, room), VALUE(hash_get, &hash, redo_some(key), key_length));
}

int32_t redo_map_set(redo_t *db, redo_range_t map, const void *key, size_t key_length, const void *value, size_t length) {
    return UNLESS(NOWHERE(key, key_length) || NOWHERE(value, length),
                  CHANGE(map_set, map, redo_some(key), key_length, redo_some(value), length));
}
int32_t redo_map_delete(redo_t *db, redo_range_t map, const void *key, size_t key_length) {
    return UNLESS(NOWHERE(key, key_length), CHANGE(map_delete, map, redo_some(key), key_length));
}
int32_t redo_map_get(redo_t *db, redo_range_t map, const void *key, size_t key_length, void *into, size_t room,
                     uint64_t *length) {
    uint64_t unasked = 0;
    return READ_UNLESS(NOWHERE(key, key_length) || NOWHERE(into, room), VALUE(map_get, &map, redo_some(key), key_length));
}
/* How much of a key is handed on where the library copies it: no key in a page has so many bytes as this, so the others order it alike
 * among them. */
static size_t front(size_t length) { return length < 65536 ? length : 65536; }
/* The same for keys from one up to another. */
#define BETWEEN(name, ...)                                            \
    READ_UNLESS(NOWHERE(from, from_length) || NOWHERE(to, to_length), \
                MADE(name, &map, redo_some(from), front(from_length), redo_some(to), front(to_length), __VA_ARGS__))
int32_t redo_map_count(redo_t *db, redo_range_t map, const void *from, size_t from_length, const void *to, size_t to_length,
                       uint64_t *count) {
    return BETWEEN(map_count, COUNT(count));
}
int32_t redo_map_range(redo_t *db, redo_range_t map, const void *from, size_t from_length, const void *to, size_t to_length,
                       uint32_t most, uint64_t *count) {
    return BETWEEN(map_range, most, COUNT(count));
}
int32_t redo_map_back(redo_t *db, redo_range_t map, const void *from, size_t from_length, const void *to, size_t to_length,
                      uint32_t most, uint64_t *count) {
    return BETWEEN(map_back, most, COUNT(count));
}
int32_t redo_map_pair(redo_t *db, uint64_t pair, void *key, size_t key_room, void *value, size_t room, redo_lengths_t *lengths) {
    return READ_UNLESS(NOWHERE(key, key_room) || NOWHERE(value, room),
                       kept_pair(db, redo_core_map_pair, pair, key, key_room, value, room, lengths));
}
/* The pair beside a key is the one that was found then, if one was. */
#define BESIDE(name)                                                                            \
    READ_UNLESS(NOWHERE(key, key_length) || NOWHERE(found, found_room) || NOWHERE(value, room), \
                MADE(name, &map, redo_some(key), front(key_length), &(uint64_t){0})             \
                    ?: kept_pair(db, redo_core_map_pair, 0, found, found_room, value, room, lengths))
int32_t redo_map_next(redo_t *db, redo_range_t map, const void *key, size_t key_length, void *found, size_t found_room, void *value,
                      size_t room, redo_lengths_t *lengths) {
    return BESIDE(map_next);
}
int32_t redo_map_prev(redo_t *db, redo_range_t map, const void *key, size_t key_length, void *found, size_t found_room, void *value,
                      size_t room, redo_lengths_t *lengths) {
    return BESIDE(map_prev);
}

int32_t redo_app_exec(redo_t *db, uint32_t app) { return COMMAND(app, app, app_exec, app); }
int32_t redo_app_read(redo_t *db, uint32_t app, uint32_t from) { return COMMAND(app, from, app_read, app, from); }
int32_t redo_app_write(redo_t *db, uint32_t app, uint32_t to) { return COMMAND(app, to, app_write, app, to); }
int32_t redo_app_run(redo_t *db, uint32_t app, uint64_t most, uint64_t *steps) {
    return COMMAND(app, app, app_run, app, most, COUNT(steps));
}
int32_t redo_program_exec(redo_t *db, uint32_t app, uint32_t program) { return COMMAND(app, program, program_exec, app, program); }
int32_t redo_program_read(redo_t *db, uint32_t app, uint32_t from) { return COMMAND(app, from, program_read, app, from); }
int32_t redo_program_write(redo_t *db, uint32_t app, uint32_t to) { return COMMAND(app, to, program_write, app, to); }
int32_t redo_program_run(redo_t *db, uint32_t app, uint32_t program, uint64_t most, uint64_t *steps) {
    return COMMAND(app, program, program_run, app, program, most, COUNT(steps));
}
