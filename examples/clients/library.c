/* A client that has the store in itself: `library FOLDER` appends object 0 to object 2, forces, and prints objects 0 to 2. */
#include <redo.h>
#include <stdio.h>

static int failed(const char *what, int32_t answer) {
    fprintf(stderr, "%s: %s\n", what, redo_strerror(answer));
    return 1;
}

int main(int argc, char **argv) {
    redo_t db = REDO_CLOSED;
    uint64_t n = 0;
    uint8_t value[1024];                                /* as much as an object of this store may hold */
    int32_t rc = redo_open(&db, argc > 1 ? argv[1] : ".");
    if (rc != REDO_OK) return failed("open", rc);
    if ((rc = redo_append(&db, 0, 2)) != REDO_OK) return failed("append", rc);
    if ((rc = redo_force(&db, &n)) != REDO_OK) return failed("force", rc);
    printf("forced %d\n", (int)n);
    for (uint32_t x = 0; x < 3; x++) {
        if ((rc = redo_get(&db, x, value, sizeof value, &n)) != REDO_OK) return failed("get", rc);
        printf("%d: %.*s\n", (int)x, (int)n, (const char *)value);
    }
    return redo_close(&db) != REDO_OK;
}
