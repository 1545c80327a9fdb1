/* What the tests share: a check that says its place, and texts with their lengths. */
#ifndef CHECK_H
#define CHECK_H
#include "rematch.h"
#include <stdio.h>
#include <stdlib.h>
#include <string.h>

#define CHECK(what) \
    do { \
        if (!(what)) { \
            fprintf(stderr, "%s:%d: %s\n", __FILE__, __LINE__, #what); \
            exit(1); \
        } \
    } while (0)
#define TEXT(text) (text), strlen(text)

/* Compiles a query that is no fault. */
static inline void compiled(rematch_query *query, const char *text) {
    rematch_text note;
    CHECK(rematch_compile(TEXT(text), query, &note) == REMATCH_DONE);
    CHECK(query->held && note.length == 0 && note.bytes[0] == 0);
}

/* How many rows remain, which are taken a few at a time. */
static inline size_t rest_of(rematch_rows *rows) {
    uint32_t out[64];
    size_t all = 0, given;
    do {
        CHECK(rematch_fill(rows, out, 64, 8, &given) == REMATCH_DONE && given <= 8);
        all += given;
    } while (given == 8);
    return all;
}
#endif
