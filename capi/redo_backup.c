/* The calls on a backup: the files of the store come first, and then those of the backup, which have a folder and a lock of their
 * own. Where one of these fails the backup is given up, and the store goes on. This page is trusted as redo.c is. */
#include "redo_files.h"
#include <stdlib.h>

void redo_end_backup(redo_t *db) {
    if (!db->target_.opened_) return;
    redo_core_target_close(&db->target_);
    redo_close_files(db, &db->copy_);
}

/* Gives the answer, once what it stands on was made on the store's files and then on those of the backup. */
static int32_t report(redo_t *db, uint32_t core_answer) {
    int32_t answer = redo_report(db, core_answer);
    if (db->target_.opened_ && !redo_make_calls(db, &db->copy_, redo_core_target_next, &db->target_)) {
        answer = REDO_BACKUP_FAULT;
        redo_core_backup_give_up(&db->core_);
    }
    if (answer == REDO_BACKUP_FAULT) redo_end_backup(db);
    return answer;
}

/* Reads what is in the folder, and whether it has a log. */
static int32_t open_target(redo_t *db, const char *folder, bool *has_log) {
    bytes_t bytes[3] = {{0, 0}, {0, 0}, {0, 0}};
    db->detail_ = (redo_detail_t){0, 0, 0};
    int32_t answer = redo_open_files(db, &db->copy_, folder, 0, bytes);
    if (answer == REDO_DISK_FAULT) answer = REDO_BACKUP_FAULT;
    if (answer == REDO_OK) answer = (int32_t)redo_core_target_open(&db->target_, FILES(bytes));
    if (answer != REDO_OK) redo_close_files(db, &db->copy_);
    *has_log = redo_has_log(bytes);
    for (int i = 0; i < 3; i++) free(bytes[i].at);
    return answer;
}

/* A start that would overwrite the log of a store whose objects file is spoilt is taken back, before anything is written there. */
static int32_t start(redo_t *db, const char *folder) {
    bool is_first = !db->target_.opened_, has_log = false;
    int32_t answer = is_first ? open_target(db, folder, &has_log) : REDO_OK;
    if (answer != REDO_OK) return answer;
    uint32_t core_answer = redo_core_backup_start(&db->core_, &db->target_);
    if (core_answer == REDO_OK && has_log) {
        redo_core_backup_give_up(&db->core_);
        redo_end_backup(db);
        core_answer = REDO_OLD_LOG;
    }
    answer = report(db, core_answer);
    if (is_first && answer != REDO_OK) redo_end_backup(db);
    return answer;
}
/* Where the answer is REDO_OK the backup is over. */
static int32_t end(redo_t *db, uint32_t core_answer) {
    int32_t answer = report(db, core_answer);
    if (answer == REDO_OK) redo_end_backup(db);
    return answer;
}

int32_t redo_backup_start(redo_t *db, const char *folder) {
    return REDO_CALL(folder ? start(db, folder) : redo_alone(db, REDO_NULL));
}
int32_t redo_backup_copy(redo_t *db, uint32_t count, uint64_t *copied) {
    return REDO_CALL(report(db, redo_core_backup_copy(&db->core_, &db->target_, count, COUNT(copied))));
}
int32_t redo_backup_finish(redo_t *db, uint64_t *commands) {
    return REDO_CALL(end(db, redo_core_backup_finish(&db->core_, &db->target_, COUNT(commands))));
}
/* (The library looks for a group first, and the two above for a backup.) */
int32_t redo_backup_give_up(redo_t *db) {
    return REDO_CALL(db->target_.opened_ ? end(db, redo_core_backup_give_up(&db->core_)) : redo_alone(db, REDO_NO_BACKUP));
}
