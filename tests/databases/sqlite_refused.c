/* The extension of SQLite where the n-th allocation is refused, for each n until none is: each statement ends with its rows, or with
 * want of memory, and nothing is left. The allocations are those of SQLite and of the library. With a word, as with AddressSanitizer,
 * ever fewer of the later ones are refused. */
#include <sqlite3.h>
#include <stdbool.h>
#include <stdio.h>
#include <stdlib.h>
#include <string.h>

#define CHECK(what) \
    do { \
        if (!(what)) { \
            fprintf(stderr, "%s:%d: %s\n", __FILE__, __LINE__, #what); \
            exit(1); \
        } \
    } while (0)

int sqlite3_rematch_init(sqlite3 *db, char **text, const void *api);

void *__real_malloc(size_t size);
void *__real_realloc(void *block, size_t size);
void __real_free(void *block);

static long live, made, refused_at;
static bool counts;

static bool refuses(void) {
    return counts && ++made == refused_at;
}

void *__wrap_malloc(size_t size) {
    void *block = refuses() ? NULL : __real_malloc(size);
    live += counts && block != NULL;
    return block;
}

void *__wrap_realloc(void *block, size_t size) {
    void *moved = refuses() ? NULL : __real_realloc(block, size);
    live += counts && block == NULL && moved != NULL;
    return moved;
}

void __wrap_free(void *block) {
    live -= counts && block != NULL;
    __real_free(block);
}

/* ---- the memory of SQLite, whose blocks say their sizes ---- */

enum { HEAD = 16 };

static void *take(int size) {
    char *block = __wrap_malloc((size_t)size + HEAD);
    if (block == NULL)
        return NULL;
    memcpy(block, &size, sizeof size);
    return block + HEAD;
}

static void give_back(void *at) {
    __wrap_free((char *)at - HEAD);
}

static int size_of(void *at) {
    int size = 0;
    if (at != NULL)
        memcpy(&size, (char *)at - HEAD, sizeof size);
    return size;
}

static void *move(void *at, int size) {
    char *block = __wrap_realloc((char *)at - HEAD, (size_t)size + HEAD);
    if (block == NULL)
        return NULL;
    memcpy(block, &size, sizeof size);
    return block + HEAD;
}

static int rounded(int size) {
    return (size + 7) & ~7;
}

static int begin(void *unused) {
    (void)unused;
    return SQLITE_OK;
}

static void end(void *unused) {
    (void)unused;
}

/* ---- the statements ---- */

static const struct {
    const char *text;
    int rows;
} statements[] = {
    {"create virtual table temp.ab using rematch('/!x{a}(!y{b})?/', max_table=1000, filter=1)", 0},
    {"select *, cursor, document, after from ab('abaab', 'c2:5;x:0-1;y:1-2')", 4},
    {"select x from ab(x'61ff62')", 1},
    {"select texts, spans, cursor from rematch('/!x{a+}!y{b+}/', 'aabbab', 'max_table=1000')", 5},
    {"select texts, query, options from json_each('[\"/!x{a}/\", \"/!x{b}/\", \"/!x{a}/\"]'), rematch(value, 'ab')", 3},
    {"select 1 where rematch_any('/!x{\\p{L}+}/u', 'a', 'filter=0')", 1},
    {"select texts from rematch('/!x{.*}.*!y{.*}/', 'twenty and more rows') limit 30", 30},
    {"drop table temp.ab", 0},
};
static const char *const faults[] = { /* which are refused, and leave nothing */
    "select * from rematch('/!x{a/', 'a')",
    "select * from rematch('/!x{a}/', 'a', 'odd')",
    "select * from rematch('/!x{a}/', 'a', null, 'odd')",
    "create virtual table temp.wrong using rematch('/!x{a}!X{a}/')",
    "select rematch_any('/a', 'a')",
};

/* The status that a statement ends with; its rows, with each of their columns read, are counted. */
static int run(sqlite3 *db, const char *text, int *rows) {
    sqlite3_stmt *statement;
    int status = sqlite3_prepare_v2(db, text, -1, &statement, NULL);
    *rows = 0;
    while (status == SQLITE_OK || status == SQLITE_ROW) {
        status = sqlite3_step(statement);
        for (int k = 0; status == SQLITE_ROW && k < sqlite3_column_count(statement); k++)
            (void)sqlite3_column_blob(statement, k);
        *rows += status == SQLITE_ROW;
    }
    sqlite3_finalize(statement);
    return status;
}

/* Whether all statements had their rows; otherwise one ended for want of memory. */
static bool run_all(void) {
    sqlite3 *db = NULL;
    int rows, status = sqlite3_open_v2(":memory:", &db, SQLITE_OPEN_READWRITE, NULL);
    if (status == SQLITE_OK)
        status = sqlite3_rematch_init(db, NULL, NULL);
    CHECK(status == SQLITE_OK || status == SQLITE_NOMEM);
    for (size_t k = 0; status == SQLITE_OK && k < sizeof statements / sizeof *statements; k++) {
        int ended = run(db, statements[k].text, &rows);
        if (ended != SQLITE_DONE && ended != SQLITE_NOMEM)
            fprintf(stderr, "%s: %d %s\n", statements[k].text, ended, sqlite3_errmsg(db));
        CHECK(ended == SQLITE_DONE || ended == SQLITE_NOMEM);
        CHECK(ended == SQLITE_NOMEM || rows == statements[k].rows);
        status = ended == SQLITE_DONE ? SQLITE_OK : ended;
    }
    for (size_t k = 0; status == SQLITE_OK && k < sizeof faults / sizeof *faults; k++) {
        int ended = run(db, faults[k], &rows);
        CHECK(ended == SQLITE_ERROR || ended == SQLITE_NOMEM);
        status = ended == SQLITE_ERROR ? SQLITE_OK : ended;
    }
    CHECK(sqlite3_close(db) == SQLITE_OK);
    return status == SQLITE_OK;
}

int main(int words, char **word) {
    static const sqlite3_mem_methods methods = {take, give_back, move, size_of, rounded, begin, end, NULL};
    (void)word;
    long refused = 0;
    CHECK(sqlite3_config(SQLITE_CONFIG_MALLOC, &methods) == SQLITE_OK);
    CHECK(sqlite3_config(SQLITE_CONFIG_LOOKASIDE, 0, 0) == SQLITE_OK);
    counts = true;
    CHECK(sqlite3_initialize() == SQLITE_OK);
    CHECK(run_all());
    long before = live;
    bool ended;
    do {
        made = 0;
        refused_at += words == 1 ? 1 : 1 + refused_at / 40;
        ended = run_all();
        CHECK(live == before);
        refused += !ended;
    } while (made >= refused_at);
    CHECK(ended && refused > 100);
    printf("%ld statements were refused of %ld allocations\n", refused, made);
    return 0;
}
