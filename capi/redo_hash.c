/* The pairs of a hash file, out of its directory and its buckets (docs/FORMATS.md, "Directories and buckets of a hash file"). */
#include "redo_files.h"

enum { DIRECTORY = 3, BUCKET = 4, MOST_DEPTH = 6 };
/* A walk over them: what is called with each, how many there were, and whether one was the last. */
typedef struct { redo_each_t each; void *with; uint64_t count; bool is_over; } walk_t;
/* A value that is not longer than a directory or a bucket may be. */
typedef struct { uint8_t at[512]; uint64_t length; } block_t;

static int32_t is_bad(redo_t *db, uint32_t x) {
    redo_alone(db, REDO_BAD_HASH);
    db->detail_.first = x;
    return REDO_BAD_HASH;
}
static int32_t read_block(redo_t *db, uint32_t x, block_t *block) {
    int32_t answer = redo_report(db, redo_core_get(&db->core_, x, block->at, sizeof block->at, &block->length));
    return answer == REDO_OK && block->length > sizeof block->at ? is_bad(db, x) : answer;
}

static int32_t walk_bucket(redo_t *db, uint32_t x, walk_t *walk) {
    block_t bucket;
    uint64_t at = 3;
    int32_t answer = read_block(db, x, &bucket);
    if (answer != REDO_OK) return answer;
    if (bucket.length < at || bucket.at[0] != BUCKET) return is_bad(db, x);
    for (uint32_t pair = 0; pair < bucket.at[2] && !walk->is_over; pair++) {
        uint64_t key = at + 1, value = at < bucket.length ? key + bucket.at[at] + 1 : bucket.length + 1;
        if (value > bucket.length || value + bucket.at[value - 1] > bucket.length) return is_bad(db, x);
        at = value + bucket.at[value - 1], walk->count++;
        walk->is_over = walk->each && walk->each(walk->with, bucket.at + key, value - 1 - key, bucket.at + value, at - value) != 0;
    }
    return walk->is_over || at == bucket.length ? REDO_OK : is_bad(db, x);
}

static uint32_t entry(const block_t *directory, uint32_t i) {
    const uint8_t *at = directory->at + 2 + 4 * i;
    return (uint32_t)at[0] | (uint32_t)at[1] << 8 | (uint32_t)at[2] << 16 | (uint32_t)at[3] << 24;
}
/* Several entries may name one bucket. */
static bool is_first(const block_t *directory, uint32_t i) {
    uint32_t before = 0;
    while (before < i && entry(directory, before) != entry(directory, i)) before++;
    return before == i;
}
static int32_t walk_all(redo_t *db, redo_range_t hash, walk_t *walk) {
    block_t directory;
    int32_t answer = read_block(db, hash.low, &directory);
    if (answer != REDO_OK || directory.length == 0) return answer;
    uint32_t depth = directory.at[1];
    if (directory.length < 6 || directory.at[0] != DIRECTORY || depth > MOST_DEPTH || directory.length != 2 + (4u << depth))
        return is_bad(db, hash.low);
    for (uint32_t i = 0; i < 1u << depth && answer == REDO_OK && !walk->is_over; i++) {
        uint32_t x = entry(&directory, i);
        if (x <= hash.low || x > hash.high) return is_bad(db, x);
        if (is_first(&directory, i)) answer = walk_bucket(db, x, walk);
    }
    return answer;
}

/* The library says whether there may be a hash file in the range, and whether it may be read now: it is asked for a key. */
static int32_t walked(redo_t *db, redo_range_t hash, walk_t walk, uint64_t *count) {
    uint64_t length;
    uint8_t none;
    int32_t answer = redo_report(db, redo_core_hash_get(&db->core_, &hash, redo_some(0), 1, &none, 0, &length));
    if (answer == REDO_OK || answer == REDO_NO_KEY) answer = walk_all(db, hash, &walk);
    if (answer == REDO_OK) *count = walk.count;
    return answer;
}
int32_t redo_hash_each(redo_t *db, redo_range_t hash, redo_each_t each, void *with, uint64_t *count) {
    return REDO_READING(walked(db, hash, (walk_t){each, with, 0, false}, COUNT(count)));
}
