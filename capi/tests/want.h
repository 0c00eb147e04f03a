/* What the tests in C share. */
#ifndef WANT_H
#define WANT_H
#include "../redo.h"
#include <errno.h>
#include <stdarg.h>
#include <stdbool.h>
#include <stdio.h>
#include <stdlib.h>
#include <string.h>
#include <unistd.h>

/* An expression, so that `WANT(..), WANT(..)` is one line. */
#define WANT(wanted, call) want(wanted, call, __FILE__, __LINE__, #call)
static inline void want(int32_t wanted, int32_t rc, const char *file, int line, const char *call) {
    if (rc == wanted) return;
    fprintf(stderr, "%s:%d: %s: %d (%s)\n", file, line, call, rc, redo_strerror(rc));
    exit(1);
}
#define B(text) (text), strlen(text)
static inline redo_range_t range(uint32_t low, uint32_t high) { return (redo_range_t){low, high}; }

__attribute__((format(printf, 1, 2), noreturn)) static inline void fail(const char *text, ...) {
    va_list args;
    va_start(args, text);
    vfprintf(stderr, text, args), fputc('\n', stderr);
    exit(1);
}
static inline bool access_in(const char *folder, const char *name) {
    char path[4096];
    snprintf(path, sizeof path, "%s/%s", folder, name);
    return access(path, F_OK) == 0;
}
static inline void detail_is_full(const redo_t *db, uint64_t limit) {
    redo_detail_t d;
    redo_last_detail(db, &d);
    if (d.third != limit || d.first > limit || d.second == 0) fail("the numbers of a full log");
}
#endif
