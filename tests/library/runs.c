/* Runs of the whole program: its output, note and status, over documents in memory. */
#include "check.h"

enum { ROOM = 4096 };

static const rematch_document documents[] = {
    {"log", "aab", 3},
    {"query", "/!x{a+}b/", 9},
    {"none", NULL, 0},
};

/* What a run wrote, behind which a byte stands that it must leave alone. */
static char row_bytes[ROOM + 1], note_bytes[ROOM + 1];
static rematch_output rows, notes;

static uint32_t ran(const char *const *words, const void *input, size_t length, size_t room) {
    size_t count = 0;
    while (words[count] != NULL)
        count++;
    rematch_command command = {words, count, documents, sizeof documents / sizeof *documents, input, length};
    memset(row_bytes, '#', sizeof row_bytes);
    memset(note_bytes, '#', sizeof note_bytes);
    rows = (rematch_output){row_bytes, room, 7};
    notes = (rematch_output){note_bytes, REMATCH_MOST_NOTE, 7};
    uint32_t status = rematch_run(&command, &rows, &notes);
    CHECK(rows.length <= room && row_bytes[rows.length] == '#' && notes.length < ROOM && note_bytes[notes.length] == '#');
    return status;
}

static bool wrote(const char *output, const char *note) {
    return rows.length == strlen(output) && memcmp(row_bytes, output, rows.length) == 0 && notes.length == strlen(note)
        && memcmp(note_bytes, note, notes.length) == 0;
}

#define WORDS(...) (const char *const[]){__VA_ARGS__, NULL}

static void runs_over_documents(void) {
    CHECK(ran(WORDS("-t", "-q", "query", "log"), NULL, 0, ROOM) == REMATCH_DONE);
    CHECK(wrote("x=0-2\"aa\"\nx=1-2\"a\"\n", "end\n"));
    CHECK(ran(WORDS("-e", "/!x{a}/", "-n", "1", "log"), NULL, 0, ROOM) == REMATCH_DONE);
    CHECK(wrote("x=0-1\n", "more c2:3;x:0-1\n"));
    CHECK(ran(WORDS("-e", "/!x{a}/", "-a", "c2:3;x:0-1", "log"), NULL, 0, ROOM) == REMATCH_DONE && wrote("x=1-2\n", "end\n"));
    CHECK(ran(WORDS("-e", "/!x{}/", "none"), NULL, 0, ROOM) == REMATCH_DONE && wrote("x=0-0\n", "end\n"));
    /* the standard input, as the document and as the query */
    CHECK(ran(WORDS("-e/!x{b}/"), TEXT("ab"), ROOM) == REMATCH_DONE && wrote("x=1-2\n", "end\n"));
    CHECK(ran(WORDS("-q-", "log"), TEXT("/!x{b}/"), ROOM) == REMATCH_DONE && wrote("x=2-3\n", "end\n"));
    CHECK(ran(WORDS("-e/!x{}/"), NULL, 0, ROOM) == REMATCH_DONE && wrote("x=0-0\n", "end\n"));
    CHECK(ran(WORDS("-e", "/a/", "--explain"), NULL, 0, ROOM) == REMATCH_DONE);
    CHECK(wrote("query /a/\nvariables none\natom 1 states 3 ways 4\n", "end\n"));
    CHECK(ran(WORDS("--serve"), TEXT("{\"op\":\"open\",\"id\":1,\"query\":\"/!x{a}/\",\"doc\":\"a\"}\n"), ROOM) == REMATCH_DONE);
    CHECK(wrote("{\"id\":1,\"variables\":[\"x\"]}\n", "end\n"));
}

static void ends_as_the_program(void) {
    CHECK(ran(WORDS("--help"), NULL, 0, ROOM) == REMATCH_CALL && wrote("", "bad command line\n"));
    CHECK(ran(WORDS("-e", "/(/", "log"), NULL, 0, ROOM) == REMATCH_QUERY && wrote("", "query: not closed at 1\n"));
    CHECK(ran(WORDS("-e", "/!x{(a|b)*}/", "--max-table=1", "log"), NULL, 0, ROOM) == REMATCH_SIZE);
    CHECK(wrote("", "size: table past 1\n"));
    CHECK(ran(WORDS("-e", "/a/", "/log"), NULL, 0, ROOM) == REMATCH_READ && wrote("", "read failed: document\n"));
    CHECK(ran(WORDS("-q", "other", "log"), NULL, 0, ROOM) == REMATCH_READ && wrote("", "read failed: query\n"));
    CHECK(ran(WORDS("-e", "/!x{a}/", "-a", "nowhere", "log"), NULL, 0, ROOM) == REMATCH_CURSOR);
    CHECK(wrote("", "cursor: not a cursor\n"));
    /* output without room: as much as has some may be there */
    CHECK(ran(WORDS("-e", "/!x{a}/", "log"), NULL, 0, 7) == REMATCH_ROOM && notes.length == strlen("write failed\n"));
    CHECK(rows.length <= 7 && memcmp(row_bytes, "x=0-1\nx=1-2\n", rows.length) == 0);
    CHECK(ran(WORDS("-e", "/!x{a}/", "log"), NULL, 0, 12) == REMATCH_DONE && rows.length == 12);
    CHECK(ran(WORDS("-e", "/c/", "log"), NULL, 0, 0) == REMATCH_DONE && wrote("", "end\n"));
}

static void refuses_calls(void) {
    const char *const words[] = {"-e/a/", "log"};
    const char *const no_text[] = {"-e/\xff/"};
    const rematch_document twice[] = {{"log", "a", 1}, {"log", "b", 1}}, input[] = {{"-", "a", 1}}, other[] = {{"\xff", "a", 1}};
    const rematch_document null_name[] = {{NULL, "a", 1}}, null_bytes[] = {{"log", NULL, 1}};
    const struct {
        rematch_command command;
        uint32_t status;
    } calls[] = {
        {{NULL, 1, documents, 1, NULL, 0}, REMATCH_CALL},
        {{words, 2, NULL, 1, NULL, 0}, REMATCH_CALL},
        {{words, 2, documents, 1, NULL, 1}, REMATCH_CALL},
        {{words, 2, null_name, 1, NULL, 0}, REMATCH_CALL},
        {{words, 2, null_bytes, 1, NULL, 0}, REMATCH_CALL},
        {{words, 2, twice, 2, NULL, 0}, REMATCH_CALL},
        {{words, 2, input, 1, NULL, 0}, REMATCH_CALL},
        {{words, 2, other, 1, NULL, 0}, REMATCH_TEXT},
        {{no_text, 1, documents, 1, NULL, 0}, REMATCH_TEXT},
    };
    for (size_t k = 0; k < sizeof calls / sizeof *calls; k++) {
        rows = (rematch_output){row_bytes, ROOM, 7};
        notes = (rematch_output){note_bytes, ROOM, 7};
        CHECK(rematch_run(&calls[k].command, &rows, &notes) == calls[k].status && rows.length == 0 && notes.length == 0);
    }
    rematch_command command = {words, 2, documents, 1, NULL, 0};
    rematch_output none = {NULL, 1, 7};
    CHECK(rematch_run(NULL, &rows, &notes) == REMATCH_CALL && rematch_run(&command, NULL, &notes) == REMATCH_CALL);
    CHECK(rematch_run(&command, &rows, NULL) == REMATCH_CALL && rematch_run(&command, &rows, &rows) == REMATCH_CALL);
    CHECK(rematch_run(&command, &none, &notes) == REMATCH_CALL && none.length == 0);
    /* no words at all are the program's to refuse */
    rematch_command empty = {NULL, 0, NULL, 0, NULL, 0};
    CHECK(rematch_run(&empty, &rows, &notes) == REMATCH_CALL && notes.length == strlen("bad command line\n"));
}

int main(void) {
    runs_over_documents();
    ends_as_the_program();
    refuses_calls();
    return 0;
}
