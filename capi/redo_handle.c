/* Who may call with a handle: the process that opened it, where it was opened, one call at a time. Each call of redo.h on a store
 * begins with redo_enter, and ends with redo_leave where that has answered REDO_OK. This page is trusted as redo.c is. */
#include "redo_files.h"
#include <errno.h>
#include <pthread.h>

/* By how many forks this process comes from the one that loaded the library. (To ask for its number at each call would cost more
 * than a redo_get.) */
static uint32_t forks;
static void count_fork(void) { forks++; }
__attribute__((constructor)) static void watch_forks(void) { pthread_atfork(0, 0, count_fork); }

void redo_own(redo_t *db) { db->self_ = db, db->forks_ = forks, db->busy_ = 1; }
bool redo_is_own(const redo_t *db) { return db->forks_ == forks; }

static int32_t beside(redo_t *db, int32_t answer, redo_detail_t detail) { return db->detail_ = detail, db->answer_ = answer; }
int32_t redo_alone(redo_t *db, int32_t answer) { return beside(db, answer, (redo_detail_t){0, 0, 0}); }
int32_t redo_because(redo_t *db, int32_t answer) { return beside(db, answer, (redo_detail_t){(uint64_t)errno, 0, 0}); }
int32_t redo_failed(redo_t *db, uint32_t file, int32_t what) {
    return beside(db, REDO_DISK_FAULT, (redo_detail_t){(uint64_t)errno, file, (uint64_t)what});
}
int32_t redo_no_memory(redo_t *db) { return beside(db, REDO_DISK_FAULT, (redo_detail_t){ENOMEM, 0, 0}); }
int32_t redo_last_detail(const redo_t *db, redo_detail_t *detail) {
    if (!detail) return REDO_NULL;
    *detail = db->detail_;
    return REDO_OK;
}

/* The other call may have all of the handle in its hands: REDO_BUSY leaves it alone. */
int32_t redo_enter(redo_t *db) {
    if (db->state_ == REDO_IS_CLOSED) return redo_alone(db, REDO_NOT_OPEN);
    if (db->self_ != db) return redo_alone(db, REDO_COPIED);
    if (!redo_is_own(db)) return redo_alone(db, REDO_FORKED);
    if (__atomic_exchange_n(&db->busy_, 1, __ATOMIC_ACQUIRE)) return REDO_BUSY;
    return db->state_ == REDO_IS_FAILED ? redo_leave(db, REDO_DISK_FAULT) : REDO_OK;
}
int32_t redo_enter_to_change(redo_t *db) {
    int32_t answer = redo_enter(db);
    return answer == REDO_OK && db->reads_ ? redo_leave(db, redo_alone(db, REDO_READ_ONLY)) : answer;
}
int32_t redo_leave(redo_t *db, int32_t answer) {
    if (answer != REDO_OK) db->answer_ = answer;
    return __atomic_store_n(&db->busy_, 0, __ATOMIC_RELEASE), answer;
}
