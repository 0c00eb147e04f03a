/* A client that saves its store while it goes on: `library_backup FOLDER COPY` copies 32 objects at a time, and puts object 3 before
 * each time. */
#include <redo.h>
#include <stdio.h>

static int32_t save(redo_t *db, const char *copy) {
    redo_params_t numbers;
    uint64_t copied = 0, commands;
    int32_t rc = redo_params(db, &numbers);
    if (rc == REDO_OK) rc = redo_backup_start(db, copy);
    while (rc == REDO_OK && copied < numbers.objects) {
        rc = redo_put(db, 3, "while", 5);
        if (rc == REDO_OK) rc = redo_backup_copy(db, 32, &copied);
        if (rc == REDO_OK) printf("copied %d\n", (int)copied);
    }
    if (rc == REDO_OK) rc = redo_backup_finish(db, &commands);
    if (rc == REDO_OK) printf("saved %d\n", (int)commands);
    return rc;
}

int main(int argc, char **argv) {
    redo_t db = REDO_CLOSED;
    if (argc != 3) return 2;
    int32_t rc = redo_open(&db, argv[1]);
    if (rc == REDO_OK) rc = save(&db, argv[2]);
    if (rc != REDO_OK) fprintf(stderr, "%s\n", redo_strerror(rc));
    redo_close(&db);
    return rc != REDO_OK;
}
