/* The n-th allocation of a run is refused, for each n until none is left: each call ends with its answer or with want of memory, and
 * nothing is left of it. Linked with --wrap for malloc, realloc and free, of which the library alone is counted. */
#include "check.h"

void *__real_malloc(size_t size);
void *__real_realloc(void *block, size_t size);
void __real_free(void *block);

static long live, made, refused_at;
static bool counts;

static bool refuses(void) {
    return counts && ++made == refused_at;
}

void *__wrap_malloc(size_t size) {
    void *block = refuses() ? NULL : __real_malloc(size);
    live += counts && block != NULL;
    return block;
}

void *__wrap_realloc(void *block, size_t size) {
    void *moved = refuses() ? NULL : __real_realloc(block, size);
    live += counts && block == NULL && moved != NULL;
    return moved;
}

void __wrap_free(void *block) {
    live -= counts && block != NULL;
    __real_free(block);
}

/* Whether a call was refused for want of memory; otherwise it was done. */
static bool wants(uint32_t status, const bool *held, const rematch_text *note) {
    CHECK(status == REMATCH_DONE || status == REMATCH_MEMORY);
    CHECK(*held == (status == REMATCH_DONE));
    if (note != NULL)
        CHECK(strcmp(note->bytes, status == REMATCH_DONE ? "" : "out of memory") == 0);
    return status == REMATCH_MEMORY;
}

/* The cursor of the first row, and the rows behind it; whether no call was refused. */
static bool went_on(rematch_query *query, const char *document, const rematch_options *options, rematch_rows *rows) {
    uint32_t row[2 * 4];
    char cursor[REMATCH_MOST_CURSOR];
    size_t variables, given, length;
    rematch_text note;
    CHECK(rematch_variables(query, &variables) == REMATCH_DONE && variables <= 4);
    if (wants(rematch_open(query, TEXT(document), options, rows, &note), &rows->held, &note))
        return false;
    CHECK(rematch_fill(rows, row, 2 * variables, 1, &given) == REMATCH_DONE && given == 1);
    uint32_t status = rematch_cursor(rows, row, 2 * variables, cursor, sizeof cursor, &length);
    CHECK(rows->held && (status == REMATCH_DONE || (status == REMATCH_MEMORY && length == 0)));
    if (status != REMATCH_DONE)
        return false;
    size_t rest = rest_of(rows);
    if (wants(rematch_open_after(query, TEXT(document), options, cursor, length, rows, &note), &rows->held, &note))
        return false;
    CHECK(rest_of(rows) == rest);
    /* a document of another length, whose note takes memory */
    status = rematch_open_after(query, TEXT("another document"), options, cursor, length, rows, &note);
    CHECK(!rows->held && (status == REMATCH_CURSOR || status == REMATCH_MEMORY));
    return status == REMATCH_CURSOR;
}

/* One run, to its end or to the call that is refused; whether none was. */
static bool run(const char *text, const char *document, bool filter, size_t expected) {
    rematch_query query = REMATCH_NONE, other = REMATCH_NONE;
    rematch_rows rows = REMATCH_NONE;
    rematch_text note;
    rematch_options options = {1000000, filter};
    bool ended = !wants(rematch_compile(TEXT(text), &query, &note), &query.held, &note)
        && !wants(rematch_share(&query, &other), &other.held, NULL)
        && !wants(rematch_open(&other, TEXT(document), &options, &rows, &note), &rows.held, &note);
    if (rows.held) {
        long before = made;
        CHECK(rest_of(&rows) == expected && made == before); /* rows take no memory */
    }
    ended = ended && went_on(&query, document, &options, &rows);
    CHECK(query.held || !ended);
    rematch_close(&query);
    rematch_close(&rows);
    rematch_close(&other);
    return ended;
}

/* One run of the program, over a query and a document in memory; whether no allocation was refused. */
static bool ran(const char *text, const char *document) {
    const char *words[] = {"-t", "-q", "query", "-"};
    const rematch_document query = {"query", text, strlen(text)};
    const rematch_command command = {words, 4, &query, 1, document, strlen(document)};
    static char row_bytes[4096], note_bytes[REMATCH_MOST_NOTE];
    rematch_output rows = {row_bytes, sizeof row_bytes, 0}, notes = {note_bytes, sizeof note_bytes, 0};
    uint32_t status = rematch_run(&command, &rows, &notes);
    CHECK(status == REMATCH_DONE || status == REMATCH_MEMORY);
    if (status == REMATCH_DONE)
        CHECK(notes.length == 4 && memcmp(note_bytes, "end\n", 4) == 0 && rows.length > 0);
    else
        CHECK(notes.length == 0 || memcmp(note_bytes, "out of memory\n", notes.length) == 0);
    return status == REMATCH_DONE;
}

/* With a word, as under valgrind, ever fewer of the later ones are refused. */
int main(int words, char **word) {
    (void)word;
    static const struct {
        const char *text, *document;
        bool filter;
        size_t expected;
    } runs[] = {
        {"/!x{a+}!y{b+}/", "aabbab", false, 5},
        {"/!x{[0-9]+}/ where luhn(x)", "79927398713", true, 0},
        {"/!x{\\p{L}+}/u", "\xc3\xa9t\xc3\xa9", false, 6},
        {"let w = /[^a-z]!x{[a-z]+}[^a-z]/; w join /!x{.*}/ minus /!x{the}/", " the tide ", false, 1},
    };
    long wanted = 0;
    counts = true;
    for (size_t k = 0; k < sizeof runs / sizeof *runs; k++) {
        size_t expected = runs[k].expected;
        refused_at = 0;
        made = 0;
        if (expected == 0) { /* those that pass are counted by the first run */
            rematch_query query = REMATCH_NONE;
            rematch_rows rows = REMATCH_NONE;
            CHECK(rematch_compile(TEXT(runs[k].text), &query, NULL) == REMATCH_DONE);
            CHECK(rematch_open(&query, TEXT(runs[k].document), NULL, &rows, NULL) == REMATCH_DONE);
            expected = rest_of(&rows);
            rematch_close(&rows);
            rematch_close(&query);
        }
        bool ended;
        do {
            made = 0;
            refused_at += words == 1 ? 1 : 1 + refused_at / 8;
            ended = run(runs[k].text, runs[k].document, runs[k].filter, expected);
            CHECK(live == 0);
            ended = ended && ran(runs[k].text, runs[k].document);
            CHECK(live == 0);
            CHECK(ended || made >= refused_at);
            wanted += !ended;
        } while (made >= refused_at);
        CHECK(refused_at > 10);
    }
    counts = false;
    CHECK(wanted > 100); /* a block that is not made smaller, for want of memory, ends no call */
    printf("%ld calls were refused\n", wanted);
    return 0;
}
