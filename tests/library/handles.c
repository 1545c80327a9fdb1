/* Each call with what it does and what it refuses, and handles that are opened and closed in all orders. */
#include "check.h"

static const rematch_options usual = REMATCH_OPTIONS;

static void refuses_texts(void) {
    rematch_query query = REMATCH_NONE;
    rematch_text note;
    CHECK(rematch_compile(TEXT("/!x{aba"), &query, &note) == REMATCH_QUERY);
    CHECK(!query.held && strcmp(note.bytes, "query: not closed at 1") == 0 && note.length == strlen(note.bytes));
    CHECK(rematch_compile(TEXT("/!x{a}/ where iban(x)"), &query, &note) == REMATCH_QUERY);
    CHECK(strcmp(note.bytes, "query: unknown test at 14") == 0);
    CHECK(rematch_compile(TEXT("/(a{1000}){1000}/"), &query, &note) == REMATCH_SIZE && !query.held);
    CHECK(strncmp(note.bytes, "size: ", 6) == 0);
    CHECK(rematch_compile(NULL, 0, &query, &note) == REMATCH_QUERY);
    CHECK(rematch_compile(TEXT("/(/"), &query, NULL) == REMATCH_QUERY);
    /* a refused text closes what the slot held */
    compiled(&query, "/a/");
    CHECK(rematch_compile(TEXT("/(/"), &query, &note) == REMATCH_QUERY && !query.held);
}

static void names_variables(void) {
    rematch_query query = REMATCH_NONE;
    rematch_text name;
    size_t count = 7;
    compiled(&query, "/!second{b}!first{a}/");
    CHECK(rematch_variables(&query, &count) == REMATCH_DONE && count == 2);
    CHECK(rematch_variable(&query, 0, &name) == REMATCH_DONE && strcmp(name.bytes, "first") == 0 && name.length == 5);
    CHECK(rematch_variable(&query, 1, &name) == REMATCH_DONE && strcmp(name.bytes, "second") == 0);
    CHECK(rematch_variable(&query, 2, &name) == REMATCH_CALL && name.length == 0 && name.bytes[0] == 0);
    rematch_close(&query);
    CHECK(rematch_variables(&query, &count) == REMATCH_CALL && count == 0);
    CHECK(rematch_variable(&query, 0, &name) == REMATCH_CALL);
}

static void gives_rows(void) {
    rematch_query query = REMATCH_NONE;
    rematch_rows rows = REMATCH_NONE;
    rematch_text note;
    uint32_t out[9];
    size_t given = 9;
    compiled(&query, "/(a!x{b}|c)!y{}/");
    CHECK(rematch_open(&query, TEXT("abc"), &usual, &rows, &note) == REMATCH_DONE && note.length == 0);
    memset(out, 0x11, sizeof out);
    CHECK(rematch_fill(&rows, out, 3, 9, &given) == REMATCH_ROOM && given == 0 && out[0] == 0x11111111);
    CHECK(rematch_fill(&rows, out, 9, 0, &given) == REMATCH_DONE && given == 0);
    CHECK(rematch_fill(&rows, NULL, 0, 0, &given) == REMATCH_DONE && given == 0);
    CHECK(rematch_fill(&rows, out, 9, 1, &given) == REMATCH_DONE && given == 1);
    CHECK(out[0] == 1 && out[1] == 2 && out[2] == 2 && out[3] == 2 && out[4] == 0x11111111);
    CHECK(rematch_fill(&rows, out, 9, 9, &given) == REMATCH_DONE && given == 1);
    CHECK(out[0] == REMATCH_ABSENT && out[1] == REMATCH_ABSENT && out[2] == 3 && out[3] == 3 && out[4] == 0x11111111);
    CHECK(rematch_fill(&rows, out, 9, 9, &given) == REMATCH_DONE && given == 0);
    /* rows without variables are counted, and take no room */
    compiled(&query, "/a/");
    CHECK(rematch_open(&query, TEXT("aaa"), NULL, &rows, NULL) == REMATCH_DONE);
    CHECK(rematch_fill(&rows, NULL, 0, 9, &given) == REMATCH_DONE && given == 1);
    rematch_close(&rows);
    rematch_close(&query);
}

static void runs_tests_of_spans(void) {
    rematch_query query = REMATCH_NONE;
    rematch_rows rows = REMATCH_NONE;
    char document[] = " 79927398713 79927398710 ";
    compiled(&query, "/ !x{\\d+} / where luhn(x)");
    CHECK(rematch_open(&query, TEXT(document), NULL, &rows, NULL) == REMATCH_DONE);
    memset(document, '0', strlen(document)); /* the rows have a copy of their own */
    uint32_t out[4];
    size_t given;
    CHECK(rematch_fill(&rows, out, 4, 2, &given) == REMATCH_DONE && given == 1 && out[0] == 1 && out[1] == 12);
    rematch_close(&rows);
    rematch_close(&query);
}

static void refuses_documents(void) {
    rematch_query query = REMATCH_NONE;
    rematch_rows rows = REMATCH_NONE;
    rematch_options small = {1, false};
    rematch_text note;
    compiled(&query, "/!x{(a|b)*}/");
    CHECK(rematch_open(&query, TEXT("aba"), &small, &rows, &note) == REMATCH_SIZE && !rows.held);
    CHECK(strcmp(note.bytes, "size: table past 1") == 0);
    size_t length = 268435457;
    char *document = calloc(length, 1);
    CHECK(document != NULL);
    CHECK(rematch_open(&query, document, length, NULL, &rows, &note) == REMATCH_LONG && !rows.held);
    CHECK(strcmp(note.bytes, "document longer than 268435456 bytes") == 0);
    free(document);
    CHECK(rematch_open(&query, NULL, 0, NULL, &rows, &note) == REMATCH_DONE && rest_of(&rows) == 1);
    rematch_close(&rows);
    rematch_close(&query);
}

static bool is_told(const rematch_text *note, const char *text) {
    return note->length == strlen(text) && memcmp(note->bytes, text, note->length + 1) == 0;
}

/* A call that is refused for its words leaves the slot empty that it would have filled, and the numbers that it gives are 0. */
static void leaves_empty_slots(void) {
    rematch_query query = REMATCH_NONE, other = REMATCH_NONE;
    rematch_rows rows = REMATCH_NONE;
    rematch_text note;
    char cursor[REMATCH_MOST_CURSOR];
    uint32_t out[2];
    size_t number;
    compiled(&query, "/!x{a}/");
    for (int turn = 0; turn < 8; turn++) {
        const bool is_later = turn >= 4;
        CHECK(rematch_open(&query, TEXT("aa"), NULL, &rows, NULL) == REMATCH_DONE && rows.held);
        rematch_query *given = turn % 4 == 1 ? NULL : turn % 4 == 3 ? &other : &query;
        const char *document = turn % 4 == 0 ? NULL : "aa";
        const size_t length = turn % 4 == 2 ? (size_t)-1 : 5;
        if (is_later)
            CHECK(rematch_open_after(given, document, length, NULL, TEXT("c2:5;x:0-1"), &rows, &note) == REMATCH_CALL);
        else
            CHECK(rematch_open(given, document, length, NULL, &rows, &note) == REMATCH_CALL);
        CHECK(!rows.held && query.held && !other.held && note.length > 0);
        number = 7;
        CHECK(rematch_fill(&rows, out, 2, 1, &number) == REMATCH_CALL && number == 0);
    }
    CHECK(rematch_open(&query, TEXT("aa"), NULL, &rows, NULL) == REMATCH_DONE);
    CHECK(rematch_open_after(&query, TEXT("aa"), NULL, NULL, 3, &rows, &note) == REMATCH_CALL && !rows.held);
    CHECK(rematch_share(&query, &other) == REMATCH_DONE && other.held);
    CHECK(rematch_share(NULL, &other) == REMATCH_CALL && !other.held);
    CHECK(rematch_share(&query, &query) == REMATCH_CALL && query.held);
    CHECK(rematch_open(&query, TEXT("aa"), NULL, &rows, NULL) == REMATCH_DONE);
    number = 7;
    CHECK(rematch_fill(&rows, NULL, 2, 1, &number) == REMATCH_CALL && number == 0);
    number = 7;
    CHECK(rematch_cursor(&rows, NULL, 2, cursor, sizeof cursor, &number) == REMATCH_CALL && number == 0);
    number = 7;
    CHECK(rematch_variables(NULL, &number) == REMATCH_CALL && number == 0);
    CHECK(rematch_compile(NULL, 5, &query, &note) == REMATCH_CALL && !query.held);
    compiled(&query, "/a/");
    CHECK(rematch_compile("/a/", (size_t)-1, &query, NULL) == REMATCH_CALL && !query.held);
    rematch_close(&rows);
}

static void refuses_calls(void) {
    rematch_query query = REMATCH_NONE, other = REMATCH_NONE;
    rematch_rows rows = REMATCH_NONE;
    rematch_text note;
    uint32_t out[4];
    size_t count;
    CHECK(rematch_compile(NULL, 1, &query, &note) == REMATCH_CALL && is_told(&note, "call: a null pointer"));
    CHECK(rematch_compile(TEXT("/a/"), NULL, &note) == REMATCH_CALL && is_told(&note, "call: a null pointer"));
    CHECK(rematch_compile("/a/", (size_t)-1, &query, &note) == REMATCH_CALL && is_told(&note, "call: a length past any memory"));
    CHECK(rematch_open(&query, TEXT("a"), NULL, &rows, &note) == REMATCH_CALL && is_told(&note, "call: the query's slot is empty"));
    CHECK(rematch_open(&query, TEXT("a"), NULL, &rows, NULL) == REMATCH_CALL);
    CHECK(rematch_fill(&rows, out, 4, 1, &count) == REMATCH_CALL && count == 0);
    CHECK(rematch_share(&query, &other) == REMATCH_CALL);
    compiled(&query, "/!x{a}/");
    CHECK(rematch_open(&query, NULL, 1, NULL, &rows, &note) == REMATCH_CALL && is_told(&note, "call: a null pointer"));
    CHECK(rematch_open(&query, TEXT("a"), NULL, NULL, &note) == REMATCH_CALL && is_told(&note, "call: a null pointer"));
    CHECK(rematch_open(NULL, TEXT("a"), NULL, &rows, &note) == REMATCH_CALL && is_told(&note, "call: a null pointer"));
    CHECK(rematch_open(&query, TEXT("a"), NULL, (rematch_rows *)&query, &note) == REMATCH_CALL && query.held);
    CHECK(is_told(&note, "call: the slots are one"));
    CHECK(rematch_share(&query, &query) == REMATCH_CALL && rematch_share(NULL, &other) == REMATCH_CALL);
    CHECK(rematch_variables(&query, NULL) == REMATCH_CALL && rematch_variable(&query, 0, NULL) == REMATCH_CALL);
    /* a slot of the other kind */
    rematch_query *wrong_query = (rematch_query *)&rows;
    CHECK(rematch_fill((rematch_rows *)&query, out, 4, 1, &count) == REMATCH_CALL && count == 0);
    CHECK(rematch_open(&query, TEXT("aa"), NULL, &rows, &note) == REMATCH_DONE && is_told(&note, ""));
    CHECK(rematch_variables(wrong_query, &count) == REMATCH_CALL && rematch_share(wrong_query, &other) == REMATCH_CALL);
    CHECK(rematch_open(wrong_query, TEXT("a"), NULL, (rematch_rows *)&other, &note) == REMATCH_CALL && rows.held);
    CHECK(is_told(&note, "call: the query's slot has rows"));
    CHECK(rematch_fill(&rows, NULL, 4, 1, &count) == REMATCH_CALL && rematch_fill(&rows, out, 4, 1, NULL) == REMATCH_CALL);
    CHECK(rematch_fill(&rows, out, (size_t)-1, 1, &count) == REMATCH_CALL);
    CHECK(rest_of(&rows) == 2);
    rematch_close(NULL);
    rematch_close(&rows);
    rematch_close(&rows);
    rematch_close(&query);
}

static void goes_on_behind_a_cursor(void) {
    rematch_query query = REMATCH_NONE;
    rematch_rows rows = REMATCH_NONE;
    rematch_text note;
    uint32_t out[4];
    char cursor[REMATCH_MOST_CURSOR];
    size_t given, length, other;
    compiled(&query, "/!first{a}(!second{b})?/");
    CHECK(rematch_open(&query, TEXT("abab"), NULL, &rows, NULL) == REMATCH_DONE);
    CHECK(rematch_fill(&rows, out, 4, 1, &given) == REMATCH_DONE && given == 1);
    memset(cursor, '#', sizeof cursor);
    CHECK(rematch_cursor(&rows, out, 4, cursor, sizeof cursor, &length) == REMATCH_DONE && cursor[length] == '#');
    CHECK(length == strlen("c2:4;first:0-1;second:1-2") && memcmp(cursor, "c2:4;first:0-1;second:1-2", length) == 0);
    size_t rest = rest_of(&rows);
    CHECK(rematch_open_after(&query, TEXT("abab"), NULL, cursor, length, &rows, &note) == REMATCH_DONE && note.length == 0);
    CHECK(rest_of(&rows) == rest && rest == 3);
    CHECK(rematch_open_after(&query, TEXT("abab"), NULL, NULL, 0, &rows, &note) == REMATCH_DONE && rest_of(&rows) == rest + 1);
    CHECK(rematch_open_after(&query, TEXT("abab"), NULL, TEXT("start"), &rows, &note) == REMATCH_DONE && rest_of(&rows) == rest + 1);
    /* too little room, and numbers of no row */
    CHECK(rematch_cursor(&rows, out, 4, cursor, length - 1, &other) == REMATCH_ROOM && other == length);
    CHECK(rematch_cursor(&rows, out, 4, NULL, 0, &other) == REMATCH_ROOM && other == length);
    const uint32_t past[4] = {0, 5, 5, 5}, turned[4] = {1, 0, 1, 2}, half[4] = {0, 1, 1, REMATCH_ABSENT};
    CHECK(rematch_cursor(&rows, past, 4, cursor, 99, &other) == REMATCH_CALL && other == 0);
    CHECK(rematch_cursor(&rows, turned, 4, cursor, 99, &other) == REMATCH_CALL);
    CHECK(rematch_cursor(&rows, half, 4, cursor, 99, &other) == REMATCH_CALL);
    CHECK(rematch_cursor(&rows, out, 3, cursor, 99, &other) == REMATCH_CALL);
    CHECK(rematch_cursor(&rows, NULL, 4, cursor, 99, &other) == REMATCH_CALL);
    CHECK(rematch_cursor(&rows, out, 4, cursor, 99, NULL) == REMATCH_CALL);
    CHECK(rematch_cursor((rematch_rows *)&query, out, 4, cursor, 99, &other) == REMATCH_CALL && other == 0);
    /* an absent span */
    const uint32_t alone[4] = {0, 1, REMATCH_ABSENT, REMATCH_ABSENT};
    CHECK(rematch_cursor(&rows, alone, 4, cursor, 99, &length) == REMATCH_DONE);
    CHECK(length == strlen("c2:4;first:0-1;second:-") && memcmp(cursor, "c2:4;first:0-1;second:-", length) == 0);
    /* what is refused, with the program's notes */
    static const struct {
        const char *cursor, *note;
    } faults[] = {
        {"", "cursor: not a cursor"},
        {"started", "cursor: not a cursor"},
        {"c2:4;first:0-5;second:-", "cursor: not a cursor"},
        {"c2:4;first:0-1", "cursor: other variables"},
        {"c2:5;first:0-1;second:-", "cursor: document of 5 bytes, not 4"},
        {"c1;first:0-5;second:5-6", "cursor: past the document"},
    };
    for (size_t k = 0; k < sizeof faults / sizeof *faults; k++) {
        CHECK(rematch_open_after(&query, TEXT("abab"), NULL, TEXT(faults[k].cursor), &rows, &note) == REMATCH_CURSOR);
        CHECK(!rows.held && strcmp(note.bytes, faults[k].note) == 0);
    }
    CHECK(rematch_open_after(&query, TEXT("abab"), NULL, NULL, 1, &rows, &note) == REMATCH_CALL && is_told(&note, "call: a null pointer"));
    CHECK(rematch_cursor(&rows, out, 4, cursor, 99, &other) == REMATCH_CALL && other == 0);
    /* a cursor of no variable */
    compiled(&query, "/a/");
    CHECK(rematch_open(&query, TEXT("aa"), NULL, &rows, NULL) == REMATCH_DONE);
    CHECK(rematch_cursor(&rows, NULL, 0, cursor, 99, &length) == REMATCH_DONE && length == 4 && memcmp(cursor, "c2:2", 4) == 0);
    CHECK(rematch_open_after(&query, TEXT("aa"), NULL, cursor, length, &rows, &note) == REMATCH_DONE && rest_of(&rows) == 0);
    rematch_close(&rows);
    rematch_close(&query);
}

/* A query, another slot of it and two rows are closed in each of the 24 orders, and used until then. */
static void closes_in_all_orders(void) {
    for (int order = 0; order < 24; order++) {
        rematch_query queries[2] = {REMATCH_NONE, REMATCH_NONE};
        rematch_rows rows[2] = {REMATCH_NONE, REMATCH_NONE};
        compiled(&queries[0], "/!x{A+}/ union /!x{A}B/ where upper(x)");
        CHECK(rematch_share(&queries[0], &queries[1]) == REMATCH_DONE);
        CHECK(rematch_open(&queries[0], TEXT("AB"), NULL, &rows[0], NULL) == REMATCH_DONE);
        CHECK(rematch_open(&queries[1], TEXT("ABAB"), NULL, &rows[1], NULL) == REMATCH_DONE);
        int left[4] = {0, 1, 2, 3};
        for (int size = 4, rest = order; size > 0; size--) {
            int at = rest % size;
            rest /= size;
            if (left[at] < 2)
                rematch_close(&queries[left[at]]);
            else
                rematch_close(&rows[left[at] - 2]);
            CHECK(left[at] < 2 ? !queries[left[at]].held : !rows[left[at] - 2].held);
            left[at] = left[size - 1];
            for (int k = 0; k < size - 1; k++) {
                uint32_t out[2];
                size_t count;
                if (left[k] < 2)
                    CHECK(rematch_variables(&queries[left[k]], &count) == REMATCH_DONE && count == 1);
                else
                    CHECK(rematch_fill(&rows[left[k] - 2], out, 2, 1, &count) == REMATCH_DONE);
            }
        }
    }
}

static void asks_a_thousand_documents(void) {
    rematch_query query = REMATCH_NONE;
    rematch_rows rows = REMATCH_NONE;
    rematch_options filter = {1000000, true};
    compiled(&query, "/from !address{[0-9.]+} port/");
    for (int k = 0; k < 1000; k++) {
        char document[64];
        int length = snprintf(document, sizeof document, "%d from 192.0.2.%d port 22; from 1 port", k, k % 256);
        CHECK(rematch_open(&query, document, (size_t)length, k % 2 ? &filter : NULL, &rows, NULL) == REMATCH_DONE);
        CHECK(rest_of(&rows) == 2);
    }
    rematch_close(&rows);
    rematch_close(&query);
}

int main(void) {
    CHECK(strcmp(rematch_version(), EXPECTED_VERSION) == 0);
    CHECK(rematch_usual_table() == ((rematch_options)REMATCH_OPTIONS).max_table);
    refuses_texts();
    names_variables();
    gives_rows();
    runs_tests_of_spans();
    refuses_documents();
    refuses_calls();
    leaves_empty_slots();
    goes_on_behind_a_cursor();
    closes_in_all_orders();
    asks_a_thousand_documents();
    return 0;
}
