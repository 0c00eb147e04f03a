/* A small store in place of the proved library, so that redo.c, redo.h and redo.py can be tested without it. It keeps one map from
 * names to values (an object, a key of a tree, a hash file or a map of pages), and logs each change of the map in blocks with a checksum. */
#include "../redo_core.h"
#include <stdbool.h>
#include <stdlib.h>
#include <string.h>

typedef struct { uint8_t *at; size_t n; } bytes_t;
typedef struct { bytes_t name, value; } entry_t;
typedef struct waiting { redo_call_t call; uint8_t *bytes; struct waiting *next; } waiting_t;
typedef struct {
    redo_params_t numbers; uint8_t pages;
    entry_t *map; size_t count;                 /* rising names */
    bytes_t block;                              /* changes that are not written */
    uint64_t epoch, end, accepted, forced;      /* of the log in force */
    uint64_t filled, growths;                   /* how far its file goes, and how many blocks let it grow */
    bool in_group; uint64_t group;
    bool in_txn; uint64_t staged;               /* changes of a transaction are on the map, and wait in a block of their own */
    bytes_t before, staging;                    /* the map before a group or a transaction */
    bool in_snapshot, is_given_up; uint64_t since;  /* the snapshot, and how many commands there were */
    bytes_t *kept; bool *is_kept;                   /* for each object */
    bool in_backup, is_store; uint32_t copied;      /* of a backup: whether its folder has a store */
    waiting_t *first, **last;
    struct pairs { entry_t *at; size_t count; } of_tree, of_map;
    redo_detail_t detail;
} store_t;

/* Where a test says so, no memory is left for an abort, and the store is let go; or for a snapshot; or for the bytes of a call. */
bool fake_aborts_fail, fake_keeps_fail, fake_calls_are_long;

static bytes_t dup_bytes(const void *at, size_t n) {
    bytes_t b = {malloc(n + 1), n};
    if (n) memcpy(b.at, at, n);
    return b;
}
static void add(bytes_t *to, const void *at, size_t n) {
    to->at = realloc(to->at, to->n + n + 1);
    if (n) memcpy(to->at + to->n, at, n);
    to->n += n;
}
static int order(bytes_t a, bytes_t b) {
    int o = memcmp(a.at, b.at, a.n < b.n ? a.n : b.n);
    return o ? o : a.n < b.n ? -1 : a.n > b.n;
}
static size_t place(store_t *s, bytes_t name) {
    size_t i = 0;
    while (i < s->count && order(s->map[i].name, name) < 0) i++;
    return i;
}
static bytes_t value_of(store_t *s, bytes_t name, bool *found) {
    size_t i = place(s, name);
    *found = i < s->count && order(s->map[i].name, name) == 0;
    return *found ? s->map[i].value : (bytes_t){(uint8_t *)"", 0};
}
/* An empty value of no use: `gone` takes the name out. */
static void change(store_t *s, bytes_t name, bytes_t value, bool gone) {
    size_t i = place(s, name);
    if (i < s->count && order(s->map[i].name, name) == 0) {
        free(s->map[i].name.at), free(s->map[i].value.at);
        memmove(s->map + i, s->map + i + 1, (--s->count - i) * sizeof *s->map);
    }
    if (gone) return;
    s->map = realloc(s->map, (s->count + 1) * sizeof *s->map);
    memmove(s->map + i + 1, s->map + i, (s->count++ - i) * sizeof *s->map);
    s->map[i] = (entry_t){dup_bytes(name.at, name.n), dup_bytes(value.at, value.n)};
}
static void log_change(bytes_t *block, bytes_t name, bytes_t value, bool gone) {
    uint32_t head[2] = {(uint32_t)name.n, gone ? UINT32_MAX : (uint32_t)value.n};
    add(block, head, 8), add(block, name.at, name.n);
    if (!gone) add(block, value.at, value.n);
}
static void redo_changes(store_t *s, bytes_t block) {
    for (size_t at = 0; at < block.n;) {
        uint32_t head[2];
        memcpy(head, block.at + at, 8);
        bool gone = head[1] == UINT32_MAX;
        bytes_t name = {block.at + at + 8, head[0]}, value = {block.at + at + 8 + head[0], gone ? 0 : head[1]};
        change(s, name, value, gone);
        at += 8 + name.n + value.n;
    }
}

static void ask(store_t *s, uint32_t kind, uint32_t file, uint64_t at, const void *bytes, size_t n) {
    waiting_t *w = malloc(sizeof *w);
    *w = (waiting_t){{kind, file, at, n}, dup_bytes(bytes, n).at, 0};
    *s->last = w, s->last = &w->next;
}

/* A block of the log: epoch, commands so far, length, checksum, changes. The low byte of each epoch is 1, so that each log begins
 * with an open gate. From the seventeenth block on that lets the file grow, zeros are written ahead. */
enum { HEAD = 32, FIRST_EPOCH = 1, NEXT_EPOCH = 256, GROWTHS = 16, ZEROS = 1 << 16 };
static uint32_t log_of(uint64_t epoch) { return 1 + (epoch / NEXT_EPOCH & 1); }
static uint64_t sum_of(const uint64_t head[4], bytes_t changes) {
    uint64_t sum = 14695981039346656037u;
    for (int i = 0; i < 3; i++) sum = (sum ^ head[i]) * 1099511628211u;
    for (size_t i = 0; i < changes.n; i++) sum = (sum ^ changes.at[i]) * 1099511628211u;
    return sum;
}
static void write_block(store_t *s, bytes_t changes) {
    uint64_t head[4] = {s->epoch, s->accepted, changes.n, 0};
    static const uint8_t zeros[ZEROS];
    uint32_t file = log_of(s->epoch);
    uint64_t end = s->end + HEAD + changes.n;
    bytes_t all = {0, 0};
    if (end > s->filled && s->growths++ >= GROWTHS) {
        uint64_t from = s->filled > s->end + 1 ? s->filled : s->end + 1;
        ask(s, REDO_CALL_WRITE, file, from, zeros, ZEROS), ask(s, REDO_CALL_SYNC, file, 0, 0, 0);
        s->filled = from + ZEROS;
    }
    if (end > s->filled) s->filled = end;
    head[3] = sum_of(head, changes);
    add(&all, head, HEAD), add(&all, changes.at, changes.n);
    ask(s, REDO_CALL_WRITE, file, s->end, all.at, all.n), ask(s, REDO_CALL_SYNC, file, 0, 0, 0);
    s->end += all.n, s->forced = s->accepted;
    free(all.at);
}
static bool block_at(bytes_t log, size_t at, uint64_t head[4], bytes_t *changes) {
    if (at > log.n || log.n - at < HEAD) return false;
    memcpy(head, log.at + at, HEAD);
    if (head[2] > log.n - at - HEAD) return false;
    *changes = (bytes_t){log.at + at + HEAD, head[2]};
    return head[3] == sum_of(head, *changes);
}
static void force(store_t *s) {
    if (s->block.n) write_block(s, s->block);
    ask(s, REDO_CALL_SAY, 0, 0, "forced\n", 7);
    s->block.n = 0, s->forced = s->accepted;
}
static bytes_t whole_now(store_t *s) {
    bytes_t all = {0, 0};
    for (size_t i = 0; i < s->count; i++) log_change(&all, s->map[i].name, s->map[i].value, false);
    return all;
}
static bytes_t whole(store_t *s) { return s->in_txn ? dup_bytes(s->before.at, s->before.n) : whole_now(s); }
static void trim(store_t *s) {
    bytes_t all = whole(s);
    s->epoch += NEXT_EPOCH, s->end = s->filled = 0, s->block.n = 0;
    write_block(s, all);
    free(all.at);
}

static store_t *new_store(void) {
    store_t *s = calloc(1, sizeof *s);
    s->epoch = FIRST_EPOCH, s->last = &s->first;
    return s;
}
static void drop_pairs(struct pairs *p) {
    for (size_t i = 0; i < p->count; i++) free(p->at[i].name.at), free(p->at[i].value.at);
    free(p->at);
    *p = (struct pairs){0, 0};
}
static void drop_kept(store_t *s) {
    for (uint32_t x = 0; s->in_snapshot && x < s->numbers.objects; x++)
        if (s->is_kept[x]) free(s->kept[x].at);
    free(s->kept), free(s->is_kept), s->kept = 0, s->is_kept = 0, s->in_snapshot = false;
}
static void drop(store_t *s) {
    for (size_t i = 0; i < s->count; i++) free(s->map[i].name.at), free(s->map[i].value.at);
    while (s->first) {
        waiting_t *w = s->first;
        s->first = w->next, free(w->bytes), free(w);
    }
    drop_kept(s), drop_pairs(&s->of_tree), drop_pairs(&s->of_map), free(s->map), free(s->block.at), free(s->before.at), free(s->staging.at), free(s);
}
static void lay_out(store_t *s, bytes_t changes) {
    write_block(s, changes);
    ask(s, REDO_CALL_WRITE, 2, 3, 0, 0), ask(s, REDO_CALL_SYNC, 2, 0, 0, 0);        /* three bytes long, which open asks for */
    ask(s, REDO_CALL_WRITE, 0, 1 + sizeof s->numbers, &s->pages, 1);
    ask(s, REDO_CALL_WRITE, 0, 1, &s->numbers, sizeof s->numbers), ask(s, REDO_CALL_SYNC, 0, 0, 0, 0);
    ask(s, REDO_CALL_WRITE, 0, 0, "F", 1), ask(s, REDO_CALL_SYNC, 0, 0, 0, 0);
}
static uint32_t opened(redo_core_t *c, store_t *s) { return c->opened_ = 1, c->at_ = s, REDO_OK; }

uint32_t redo_core_create(redo_core_t *c, redo_bytes_t o, size_t n, redo_bytes_t a, size_t an, redo_bytes_t b, size_t bn,
                         const redo_params_t *p, bool pages, redo_detail_t *d) {
    (void)a, (void)an, (void)b, (void)bn, (void)d;
    if (p->objects < 1 || p->objects > 65535 || p->cap < 16 || p->cap > 1048576 || p->limit > 536870912 ||
        p->limit < 2 * p->cap + 4096) return REDO_BAD_PARAMS;
    if (n && o[0] == 'F') return REDO_ALREADY_STORE;
    store_t *s = new_store();
    s->numbers = *p, s->pages = pages;
    lay_out(s, (bytes_t){0, 0});
    return opened(c, s);
}
uint32_t redo_core_open(redo_core_t *c, redo_bytes_t o, size_t n, redo_bytes_t a, size_t an, redo_bytes_t b, size_t bn,
                       redo_detail_t *d) {
    if (n < 2 + sizeof(redo_params_t) || o[0] != 'F') return REDO_NOT_A_STORE;
    bytes_t logs[2] = {{(uint8_t *)a, an}, {(uint8_t *)b, bn}}, changes;
    uint64_t head[4], other[4];
    bool first = block_at(logs[0], 0, head, &changes), second = block_at(logs[1], 0, other, &changes);
    if (bn < 3) return *d = (redo_detail_t){2, 0, 0}, REDO_DAMAGED;
    if (!first && !second) return *d = (redo_detail_t){1, 0, 0}, REDO_DAMAGED;
    store_t *s = new_store();
    s->epoch = !first || (second && other[0] > head[0]) ? other[0] : head[0];
    memcpy(&s->numbers, o + 1, sizeof s->numbers), s->pages = o[1 + sizeof s->numbers];
    bytes_t log = logs[log_of(s->epoch) - 1];
    while (block_at(log, s->end, head, &changes) && head[0] == s->epoch)
        redo_changes(s, changes), s->accepted = s->forced = head[1], s->end += HEAD + changes.n;
    s->filled = log.n;
    if (s->accepted) ask(s, REDO_CALL_WRITE, 0, 1, &s->numbers, sizeof s->numbers);         /* a restart writes */
    return opened(c, s);
}
uint32_t redo_core_close(redo_core_t *c) {
    if (!c->opened_) return REDO_NOT_OPEN;
    drop(c->at_), c->opened_ = 0, c->at_ = 0;
    return REDO_OK;
}
uint32_t redo_core_next(redo_core_t *c, redo_call_t *call, uint8_t *into, size_t room) {
    if (!c->opened_) return REDO_NOT_OPEN;
    store_t *s = c->at_;
    waiting_t *w = s->first;
    if (!w) return 0;
    *call = w->call;
    if (fake_calls_are_long) call->length = SIZE_MAX / 2;
    if (call->length > room) return 1;
    if (call->length) memcpy(into, w->bytes, call->length);
    if (!(s->first = w->next)) s->last = &s->first;
    free(w->bytes), free(w);
    return 1;
}
#define STORE store_t *s = c->at_; if (!c->opened_) return REDO_NOT_OPEN
static uint32_t refuse(store_t *s, uint32_t answer) { return s->detail = (redo_detail_t){0, 0, 0}, answer; }
uint32_t redo_core_detail(redo_core_t *c, redo_detail_t *d) { STORE; return *d = s->detail, REDO_OK; }

/* Does a command: the names get these values. */
typedef struct { bytes_t name, value; bool gone; } step_t;
static uint32_t command(store_t *s, const step_t *steps, int count) {
    size_t need = HEAD;
    bytes_t *block = s->in_txn ? &s->staging : &s->block;
    for (int i = 0; i < count; i++) need += 8 + steps[i].name.n + steps[i].value.n;
    if (!s->in_txn && s->end + s->block.n + need > s->numbers.limit)
        return s->detail = (redo_detail_t){s->end + s->block.n, need, s->numbers.limit}, REDO_LOG_FULL;
    for (int i = 0; i < count; i++) log_change(block, steps[i].name, steps[i].value, steps[i].gone);
    bytes_t changes = dup_bytes(block->at + block->n - need + HEAD, need - HEAD);
    redo_changes(s, changes);
    free(changes.at);
    if (s->in_txn) s->staged++;
    else s->accepted++, s->group += s->in_group;
    return REDO_OK;
}
/* The map is kept, and may be had again. */
static void keep_map(store_t *s) { free(s->before.at), s->before = whole(s); }
static void map_is(store_t *s, bytes_t changes) {
    for (size_t i = 0; i < s->count; i++) free(s->map[i].name.at), free(s->map[i].value.at);
    s->count = 0, redo_changes(s, changes);
}
static void map_again(store_t *s) { map_is(s, s->before); }
/* The name of an object, of the input of an application, or of a key. */
enum { LONGEST = 1024 };        /* no key has so many bytes: of one that has more the front orders it among all others */
typedef struct { uint8_t at[9 + LONGEST]; } name_t;
static bytes_t named(name_t *n, char kind, uint32_t low, uint32_t high, redo_bytes_t key, size_t length) {
    uint32_t range[2] = {low, high};
    n->at[0] = (uint8_t)kind, memcpy(n->at + 1, range, 8);
    if (length > LONGEST) length = LONGEST;
    if (length) memcpy(n->at + 9, key, length);
    return (bytes_t){n->at, 9 + length};
}
#define OBJECT(x) named(&(name_t){{0}}, 'o', x, 0, 0, 0)
#define HAS(x) if ((x) >= s->numbers.objects) return refuse(s, REDO_NO_OBJECT)
static bytes_t object(store_t *s, uint32_t x) { bool found; return value_of(s, OBJECT(x), &found); }
static uint32_t set_object(store_t *s, uint32_t x, bytes_t v) {
    if (v.n > s->numbers.cap) return refuse(s, REDO_TOO_LARGE);
    return command(s, &(step_t){OBJECT(x), v, false}, 1);
}
static uint32_t give(uint8_t *into, size_t room, uint64_t *length, bytes_t v) {
    *length = v.n;
    if (room && v.n) memcpy(into, v.at, v.n < room ? v.n : room);
    return REDO_OK;
}

uint32_t redo_core_put(redo_core_t *c, uint32_t x, redo_bytes_t v, size_t n) {
    STORE; HAS(x); return set_object(s, x, (bytes_t){(uint8_t *)v, n});
}
uint32_t redo_core_copy(redo_core_t *c, uint32_t x, uint32_t y) {
    STORE; HAS(x); HAS(y); return set_object(s, y, object(s, x));
}
uint32_t redo_core_append(redo_core_t *c, uint32_t x, uint32_t y) {
    STORE; HAS(x); HAS(y);
    bytes_t v = dup_bytes(object(s, y).at, object(s, y).n);
    add(&v, object(s, x).at, object(s, x).n);
    uint32_t rc = x == y ? refuse(s, REDO_SAME) : set_object(s, y, v);
    free(v.at);
    return rc;
}
uint32_t redo_core_cut(redo_core_t *c, uint32_t x, uint32_t y, uint32_t k) {
    STORE; HAS(x); HAS(y);
    bytes_t v = object(s, x);
    if (x == y) return refuse(s, REDO_SAME);
    if (k > v.n) return refuse(s, REDO_BAD_PLACE);
    return command(s, (step_t[]){{OBJECT(y), {v.at + k, v.n - k}, false}, {OBJECT(x), {v.at, k}, false}}, 2);
}
static uint32_t sort_width;
static int by_bytes(const void *a, const void *b) { return memcmp(a, b, sort_width); }
uint32_t redo_core_sort(redo_core_t *c, uint32_t x, uint32_t y, uint32_t w) {
    STORE; HAS(x); HAS(y);
    if (w == 0 || object(s, x).n % w) return refuse(s, REDO_BAD_WIDTH);
    bytes_t v = dup_bytes(object(s, x).at, object(s, x).n);
    sort_width = w, qsort(v.at, v.n / w, w, by_bytes);
    uint32_t rc = set_object(s, y, v);
    free(v.at);
    return rc;
}
uint32_t redo_core_swap(redo_core_t *c, uint32_t x, uint32_t y) {
    STORE; HAS(x); HAS(y);
    if (x == y) return refuse(s, REDO_SAME);
    return command(s, (step_t[]){{OBJECT(x), object(s, y), false}, {OBJECT(y), object(s, x), false}}, 2);
}
uint32_t redo_core_get(redo_core_t *c, uint32_t x, uint8_t *into, size_t room, uint64_t *length) {
    STORE; HAS(x); return give(into, room, length, object(s, x));
}

/* Calls that take no part in a transaction. */
#define APART STORE; if (s->in_txn) return refuse(s, REDO_IN_TXN)
#define IN_NO_GROUP if (s->in_group) return s->detail = (redo_detail_t){s->group, 0, 0}, REDO_IN_GROUP
#define ALONE STORE; IN_NO_GROUP
uint32_t redo_core_begin(redo_core_t *c) { APART; IN_NO_GROUP; force(s), keep_map(s), s->in_group = true, s->group = 0; return REDO_OK; }
uint32_t redo_core_begin_room(redo_core_t *c, uint64_t n) {
    APART; IN_NO_GROUP;
    uint64_t used = s->end + s->block.n + HEAD;
    if (used > s->numbers.limit || n > s->numbers.limit - used) return s->detail = (redo_detail_t){used, n, s->numbers.limit}, REDO_LOG_FULL;
    return redo_core_begin(c);
}
uint32_t redo_core_abort(redo_core_t *c) {
    STORE;
    if (!s->in_group) return refuse(s, REDO_NO_GROUP);
    if (fake_aborts_fail) return redo_core_close(c), REDO_DISK_FAULT;
    map_again(s), s->block.n = 0, s->accepted -= s->group, s->in_group = s->in_backup = false;
    if (s->accepted < s->since) s->is_given_up = true;
    ask(s, REDO_CALL_SYNC, log_of(s->epoch), 0, 0, 0);
    return REDO_OK;
}
uint32_t redo_core_snapshot_begin(redo_core_t *c) {
    STORE;
    if (s->in_snapshot) return refuse(s, REDO_IN_SNAPSHOT);
    s->kept = calloc(s->numbers.objects, sizeof *s->kept), s->is_kept = calloc(s->numbers.objects, 1);
    return s->in_snapshot = true, s->is_given_up = false, s->since = s->accepted, REDO_OK;
}
uint32_t redo_core_snapshot_keep(redo_core_t *c, const uint32_t *objects, size_t count) {
    STORE;
    if (!s->in_snapshot) return refuse(s, REDO_NO_SNAPSHOT);
    if (count && fake_keeps_fail) s->is_given_up = true;
    for (size_t i = 0; i < count; i++) {
        uint32_t x = objects[i];
        if (s->in_txn || x >= s->numbers.objects || s->is_kept[x]) continue;
        s->kept[x] = dup_bytes(object(s, x).at, object(s, x).n), s->is_kept[x] = true;
    }
    return REDO_OK;
}
/* (The map has what is staged: the map before it is what the objects have.) */
uint32_t redo_core_snapshot_keep_staged(redo_core_t *c) {
    STORE;
    if (!s->in_txn) return refuse(s, REDO_NO_TXN);
    if (!s->in_snapshot) return refuse(s, REDO_NO_SNAPSHOT);
    bytes_t staged = whole_now(s);
    map_again(s), s->in_txn = false;
    for (uint32_t x = 0; x < s->numbers.objects; x++) redo_core_snapshot_keep(c, &x, 1);
    s->in_txn = true, map_is(s, staged);
    return free(staged.at), REDO_OK;
}
uint32_t redo_core_snapshot_get(redo_core_t *c, uint32_t x, uint8_t *into, size_t room, uint64_t *length) {
    STORE;
    if (!s->in_snapshot) return refuse(s, REDO_NO_SNAPSHOT);
    if (s->is_given_up) return refuse(s, REDO_GIVEN_UP);
    HAS(x); return give(into, room, length, s->is_kept[x] ? s->kept[x] : object(s, x));
}
uint32_t redo_core_snapshot_end(redo_core_t *c) {
    STORE;
    if (!s->in_snapshot) return refuse(s, REDO_NO_SNAPSHOT);
    return drop_kept(s), REDO_OK;
}
uint32_t redo_core_txn_begin(redo_core_t *c) {
    STORE;
    if (s->in_txn) return refuse(s, REDO_IN_TXN);
    IN_NO_GROUP;
    keep_map(s), s->in_txn = true, s->staging.n = s->staged = 0;
    return REDO_OK;
}
uint32_t redo_core_txn_abort(redo_core_t *c) {
    STORE;
    if (!s->in_txn) return refuse(s, REDO_NO_TXN);
    return s->in_txn = false, map_again(s), REDO_OK;
}
static uint32_t commit(redo_core_t *c, bool forces) {
    STORE;
    if (!s->in_txn) return refuse(s, REDO_NO_TXN);
    if (fake_aborts_fail) return redo_core_close(c), REDO_DISK_FAULT;
    if (forces) force(s);
    uint64_t used = s->end + s->block.n;
    if (used + s->staging.n + HEAD > s->numbers.limit)
        return s->detail = (redo_detail_t){used, HEAD + s->staging.n, s->numbers.limit}, REDO_LOG_FULL;
    add(&s->block, s->staging.at, s->staging.n), s->accepted += s->staged, s->in_txn = false;
    return REDO_OK;
}
uint32_t redo_core_txn_commit(redo_core_t *c) { return commit(c, true); }
uint32_t redo_core_txn_commit_lazily(redo_core_t *c) { return commit(c, false); }
uint32_t redo_core_end(redo_core_t *c) {
    STORE; if (!s->in_group) return refuse(s, REDO_NO_GROUP); s->in_group = false; return REDO_OK;
}
uint32_t redo_core_force(redo_core_t *c, uint64_t *n) { ALONE; force(s); *n = s->forced; return REDO_OK; }
uint32_t redo_core_install(redo_core_t *c, uint64_t *n) { ALONE; *n = 0; return REDO_OK; }
uint32_t redo_core_tend(redo_core_t *c, size_t most, uint64_t *n) { ALONE; (void)most, force(s), *n = 0; return REDO_OK; }
/* A trim where the log is past a third. */
uint32_t redo_core_keep_up(redo_core_t *c) {
    APART;
    if (!s->in_group && !s->in_backup && s->end + s->block.n > s->numbers.limit / 3) force(s), trim(s);
    return REDO_OK;
}
uint32_t redo_core_drain(redo_core_t *c) { ALONE; force(s); return REDO_OK; }
uint32_t redo_core_checkpoint(redo_core_t *c) { ALONE; force(s); return REDO_OK; }
uint32_t redo_core_trim(redo_core_t *c) {
    ALONE;
    if (s->in_backup) return s->detail = (redo_detail_t){s->copied, 0, 0}, REDO_IN_BACKUP;
    force(s), trim(s);
    return REDO_OK;
}
uint32_t redo_core_stat(redo_core_t *c, redo_stat_t *t) {
    STORE; *t = (redo_stat_t){0, 0, 0, s->forced, s->accepted, s->end + s->block.n, 0}; return REDO_OK;
}
uint32_t redo_core_params(redo_core_t *c, redo_params_t *p) { STORE; *p = s->numbers; return REDO_OK; }

/* A backup is laid out as a whole at its finish; until then its gate is closed. */
uint32_t redo_core_target_open(redo_core_t *t, redo_bytes_t o, size_t n, redo_bytes_t a, size_t an, redo_bytes_t b, size_t bn) {
    (void)a, (void)an, (void)b, (void)bn;
    store_t *s = new_store();
    s->is_store = n && o[0] == 'F';
    return opened(t, s);
}
uint32_t redo_core_target_close(redo_core_t *t) { return t->opened_ ? redo_core_close(t) : REDO_NO_BACKUP; }
uint32_t redo_core_target_next(redo_core_t *t, redo_call_t *call, uint8_t *into, size_t room) {
    return t->opened_ ? redo_core_next(t, call, into, room) : REDO_NO_BACKUP;
}
#define TARGET \
    STORE; \
    store_t *to = t->at_; \
    if (!t->opened_) return refuse(s, REDO_NO_BACKUP); \
    if (s->in_group) return s->detail = (redo_detail_t){s->group, 0, 0}, REDO_IN_GROUP
uint32_t redo_core_backup_start(redo_core_t *c, redo_core_t *t) {
    TARGET;
    if (s->in_backup) return s->detail = (redo_detail_t){s->copied, 0, 0}, REDO_IN_BACKUP;
    if (to->is_store) return refuse(s, REDO_ALREADY_STORE);
    force(s), ask(to, REDO_CALL_WRITE, 0, 0, "", 1), ask(to, REDO_CALL_SYNC, 0, 0, 0, 0);
    return s->in_backup = true, s->copied = 0, REDO_OK;
}
uint32_t redo_core_backup_copy(redo_core_t *c, redo_core_t *t, uint32_t count, uint64_t *copied) {
    TARGET;
    uint32_t rest = s->numbers.objects - s->copied;
    (void)to;
    return *copied = s->copied += count < rest ? count : rest, REDO_OK;
}
uint32_t redo_core_backup_finish(redo_core_t *c, redo_core_t *t, uint64_t *commands) {
    TARGET;
    if (s->copied < s->numbers.objects) return s->detail = (redo_detail_t){s->copied, 0, 0}, REDO_NOT_COPIED;
    force(s), to->numbers = s->numbers, to->pages = s->pages, to->accepted = *commands = s->accepted, s->in_backup = false;
    bytes_t all = whole(s);
    lay_out(to, all), free(all.at);
    return REDO_OK;
}
uint32_t redo_core_backup_give_up(redo_core_t *c) {
    ALONE;
    if (!s->in_backup) return refuse(s, REDO_NO_BACKUP);
    return s->in_backup = false, REDO_OK;
}

/* An application's input alone: a step takes a byte of it. */
#define INPUT(app) named(&(name_t){{0}}, 'a', app, 0, 0, 0)
static uint32_t steps_of(store_t *s, uint32_t app, uint64_t most, uint64_t *steps) {
    for (*steps = 0; *steps < most; ++*steps) {
        bool found;
        bytes_t v = value_of(s, INPUT(app), &found);
        if (!v.n) return REDO_OK;
        uint32_t rc = command(s, &(step_t){INPUT(app), {v.at + 1, v.n - 1}, false}, 1);
        if (rc != REDO_OK) return rc;
    }
    return REDO_OK;
}
uint32_t redo_core_app_run(redo_core_t *c, uint32_t app, uint64_t most, uint64_t *steps) {
    STORE; HAS(app); return steps_of(s, app, most, steps);
}
uint32_t redo_core_app_exec(redo_core_t *c, uint32_t app) {
    STORE; HAS(app);
    uint64_t n;
    uint32_t rc = steps_of(s, app, 1, &n);
    return rc == REDO_OK && n == 0 ? refuse(s, REDO_NO_INPUT) : rc;
}
uint32_t redo_core_app_read(redo_core_t *c, uint32_t app, uint32_t x) {
    STORE; HAS(app); HAS(x); return command(s, &(step_t){INPUT(app), object(s, x), false}, 1);
}
uint32_t redo_core_app_write(redo_core_t *c, uint32_t app, uint32_t x) {
    STORE; HAS(app); HAS(x); return set_object(s, x, (bytes_t){0, 0});
}
uint32_t redo_core_program_exec(redo_core_t *c, uint32_t app, uint32_t p) {
    STORE; HAS(app); HAS(p); return refuse(s, REDO_NOT_CODE);
}
uint32_t redo_core_program_read(redo_core_t *c, uint32_t app, uint32_t x) { return redo_core_app_read(c, app, x); }
uint32_t redo_core_program_write(redo_core_t *c, uint32_t app, uint32_t x) { return redo_core_app_write(c, app, x); }
uint32_t redo_core_program_run(redo_core_t *c, uint32_t app, uint32_t p, uint64_t most, uint64_t *steps) {
    STORE; HAS(app); HAS(p);
    return most ? refuse(s, REDO_NOT_CODE) : (*steps = 0, REDO_OK);
}

#define RANGE(r, kind) if ((r)->low + ((kind) == 'h') > (r)->high) return refuse(s, REDO_NO_OBJECT)
#define KEY(n) if ((n) < 1 || (n) > 32) return refuse(s, REDO_BAD_KEY)
static uint32_t map_set(redo_core_t *c, char kind, const redo_range_t *r, redo_bytes_t k, size_t kn, redo_bytes_t v, size_t n) {
    STORE; RANGE(r, kind); KEY(kn); KEY(n); HAS(r->high);
    return command(s, &(step_t){named(&(name_t){{0}}, kind, r->low, r->high, k, kn), {(uint8_t *)v, n}, false}, 1);
}
static uint32_t map_get(redo_core_t *c, char kind, const redo_range_t *r, redo_bytes_t k, size_t kn, bytes_t *v) {
    STORE; RANGE(r, kind); KEY(kn); HAS(r->high);
    bool found;
    *v = value_of(s, named(&(name_t){{0}}, kind, r->low, r->high, k, kn), &found);
    return found ? REDO_OK : refuse(s, REDO_NO_KEY);
}
static uint32_t map_delete(redo_core_t *c, char kind, const redo_range_t *r, redo_bytes_t k, size_t kn) {
    bytes_t v;
    uint32_t rc = map_get(c, kind, r, k, kn, &v);
    return rc ? rc : command(c->at_, &(step_t){named(&(name_t){{0}}, kind, r->low, r->high, k, kn), {0, 0}, true}, 1);
}
static uint32_t map_give(redo_core_t *c, char kind, const redo_range_t *r, redo_bytes_t k, size_t kn, uint8_t *into, size_t room, uint64_t *length) {
    bytes_t v;
    uint32_t rc = map_get(c, kind, r, k, kn, &v);
    return rc ? rc : give(into, room, length, v);
}
uint32_t redo_core_tree_insert(redo_core_t *c, const redo_range_t *r, redo_bytes_t k, size_t kn, redo_bytes_t v, size_t n) {
    return map_set(c, 't', r, k, kn, v, n);
}
uint32_t redo_core_tree_delete(redo_core_t *c, const redo_range_t *r, redo_bytes_t k, size_t kn) {
    return map_delete(c, 't', r, k, kn);
}
uint32_t redo_core_tree_get(redo_core_t *c, const redo_range_t *r, redo_bytes_t k, size_t kn, uint8_t *into, size_t room,
                            uint64_t *length) {
    return map_give(c, 't', r, k, kn, into, room, length);
}
uint32_t redo_core_hash_put(redo_core_t *c, const redo_range_t *r, redo_bytes_t k, size_t kn, redo_bytes_t v, size_t n) {
    return map_set(c, 'h', r, k, kn, v, n);
}
uint32_t redo_core_hash_delete(redo_core_t *c, const redo_range_t *r, redo_bytes_t k, size_t kn) {
    return map_delete(c, 'h', r, k, kn);
}
uint32_t redo_core_hash_get(redo_core_t *c, const redo_range_t *r, redo_bytes_t k, size_t kn, uint8_t *into, size_t room,
                            uint64_t *length) {
    return map_give(c, 'h', r, k, kn, into, room, length);
}
/* Keeps the pairs whose names are from one up to another: at most so many of them, the last ones first where they fall. */
static void keep_pairs(store_t *s, struct pairs *p, bytes_t from, bytes_t to, bool falling, uint64_t most) {
    size_t first = place(s, from), end = place(s, to);
    drop_pairs(p);
    for (uint64_t i = 0; first < end && i < most; i++) {
        entry_t e = s->map[falling ? --end : first++];
        p->at = realloc(p->at, (p->count + 1) * sizeof *p->at);
        p->at[p->count++] = (entry_t){dup_bytes(e.name.at + 9, e.name.n - 9), dup_bytes(e.value.at, e.value.n)};
    }
}
static uint32_t give_pair(store_t *s, struct pairs *p, uint64_t i, uint8_t *k, size_t kr, uint8_t *v, size_t vr, redo_lengths_t *l) {
    if (i >= p->count) return refuse(s, REDO_NO_KEY);
    return give(k, kr, &l->key, p->at[i].name), give(v, vr, &l->value, p->at[i].value);
}
uint32_t redo_core_tree_range(redo_core_t *c, const redo_range_t *r, redo_bytes_t f, size_t fn, redo_bytes_t t, size_t tn, uint64_t *count) {
    STORE; RANGE(r, 't'); KEY(fn); KEY(tn); HAS(r->high);
    keep_pairs(s, &s->of_tree, named(&(name_t){{0}}, 't', r->low, r->high, f, fn), named(&(name_t){{0}}, 't', r->low, r->high, t, tn), false, UINT64_MAX);
    return *count = s->of_tree.count, REDO_OK;
}
uint32_t redo_core_tree_pair(redo_core_t *c, uint64_t i, uint8_t *k, size_t kr, uint8_t *v, size_t vr, redo_lengths_t *l) {
    STORE; return give_pair(s, &s->of_tree, i, k, kr, v, vr, l);
}

/* A map of pages, of which the store has no pages: it is never full. */
#define PAGED if (!s->pages || s->numbers.cap < 1024) return refuse(s, REDO_NO_PAGES)
uint32_t redo_core_map_set(redo_core_t *c, const redo_range_t *r, redo_bytes_t k, size_t kn, redo_bytes_t v, size_t n) {
    STORE; RANGE(r, 'm');
    if (kn > UINT16_MAX || n > UINT16_MAX) return refuse(s, REDO_TOO_LONG);
    HAS(r->high); PAGED;
    size_t page = s->numbers.cap < UINT16_MAX ? s->numbers.cap : UINT16_MAX;
    if (kn < 1 || kn >= LONGEST || 8 * (kn + 8) > page || 4 * n > page) return refuse(s, REDO_TOO_LONG);
    return command(s, &(step_t){named(&(name_t){{0}}, 'm', r->low, r->high, k, kn), {(uint8_t *)v, n}, false}, 1);
}
uint32_t redo_core_map_get(redo_core_t *c, const redo_range_t *r, redo_bytes_t k, size_t kn, uint8_t *into, size_t room, uint64_t *length) {
    STORE; RANGE(r, 'm'); HAS(r->high);
    bool found;
    bytes_t v = value_of(s, named(&(name_t){{0}}, 'm', r->low, r->high, k, kn), &found);
    return found ? give(into, room, length, v) : refuse(s, REDO_NO_KEY);
}
uint32_t redo_core_map_delete(redo_core_t *c, const redo_range_t *r, redo_bytes_t k, size_t kn) {
    STORE; RANGE(r, 'm'); HAS(r->high); PAGED;
    bool found;
    bytes_t name = named(&(name_t){{0}}, 'm', r->low, r->high, k, kn);
    value_of(s, name, &found);
    return found ? command(s, &(step_t){name, {0, 0}, true}, 1) : refuse(s, REDO_NO_KEY);
}
/* The name of a key; where it has no bytes, one behind all of the map. */
static bytes_t map_end(name_t *n, const redo_range_t *r, redo_bytes_t t, size_t tn) {
    bytes_t end = named(n, 'm', r->low, r->high, t, tn);
    for (size_t i = 9; tn == 0 && ++end.at[--i] == 0;) {}
    return end;
}
static uint32_t map_find(redo_core_t *c, const redo_range_t *r, redo_bytes_t f, size_t fn, redo_bytes_t t, size_t tn, bool falling, uint64_t most, uint64_t *count) {
    STORE; RANGE(r, 'm'); HAS(r->high);
    keep_pairs(s, &s->of_map, named(&(name_t){{0}}, 'm', r->low, r->high, f, fn), map_end(&(name_t){{0}}, r, t, tn), falling, most);
    return *count = s->of_map.count, REDO_OK;
}
uint32_t redo_core_map_count(redo_core_t *c, const redo_range_t *r, redo_bytes_t f, size_t fn, redo_bytes_t t, size_t tn, uint64_t *count) {
    STORE; RANGE(r, 'm'); HAS(r->high);
    size_t first = place(s, named(&(name_t){{0}}, 'm', r->low, r->high, f, fn)), end = place(s, map_end(&(name_t){{0}}, r, t, tn));
    return *count = first < end ? end - first : 0, REDO_OK;
}
uint32_t redo_core_map_range(redo_core_t *c, const redo_range_t *r, redo_bytes_t f, size_t fn, redo_bytes_t t, size_t tn, uint32_t most, uint64_t *count) {
    return map_find(c, r, f, fn, t, tn, false, most, count);
}
uint32_t redo_core_map_back(redo_core_t *c, const redo_range_t *r, redo_bytes_t f, size_t fn, redo_bytes_t t, size_t tn, uint32_t most, uint64_t *count) {
    return map_find(c, r, f, fn, t, tn, true, most, count);
}
uint32_t redo_core_map_next(redo_core_t *c, const redo_range_t *r, redo_bytes_t k, size_t kn, uint64_t *count) {
    uint8_t above[LONGEST + 1] = {0};
    size_t n = kn < LONGEST ? kn : LONGEST;
    memcpy(above, k, n);
    return map_find(c, r, above, n + 1, k, 0, false, 1, count);
}
uint32_t redo_core_map_prev(redo_core_t *c, const redo_range_t *r, redo_bytes_t k, size_t kn, uint64_t *count) {
    return map_find(c, r, k, 0, k, kn, true, 1, count);
}
uint32_t redo_core_map_pair(redo_core_t *c, uint64_t i, uint8_t *k, size_t kr, uint8_t *v, size_t vr, redo_lengths_t *l) {
    STORE; return give_pair(s, &s->of_map, i, k, kr, v, vr, l);
}
