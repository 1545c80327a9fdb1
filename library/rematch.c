/* What stands between C and the proved library: memory for it, and refusals of null pointers. */
#include "rematch.h"
#include <stdlib.h>
#include <string.h>

/* ---- memory, which the library asks for by these three ---- */

struct tried {
    bool is_there;
    void *at;
};

static unsigned char nowhere;

static struct tried tried(void *at) {
    return (struct tried){at != NULL, at != NULL ? at : &nowhere};
}

/* New memory of so many bytes; of none it is a block of its own. malloc aligns to 16, and no more is asked for. */
struct tried rattle_alloc(size_t size, size_t align) {
    return tried(malloc(size != 0 ? size : align));
}

/* A block as another of so many bytes, with its first bytes. Where it fails the block is as it was. */
struct tried rattle_realloc(void *block, size_t kept, size_t size, size_t align) {
    (void)kept;
    return tried(realloc(block, size != 0 ? size : align));
}

void rattle_dealloc(void *block) {
    free(block);
}

/* ---- the proved calls ---- */

uint32_t rematch_c_compile(const void *text, size_t length, rematch_query *query, rematch_text *note);
uint32_t rematch_c_variables(rematch_query *query, size_t *count);
uint32_t rematch_c_variable(rematch_query *query, size_t place, rematch_text *name);
uint32_t rematch_c_share(rematch_query *query, rematch_query *other);
uint32_t rematch_c_open(rematch_query *query, const void *document, size_t length, const rematch_options *options,
                        rematch_rows *rows, rematch_text *note);
uint32_t rematch_c_resume(rematch_query *query, const void *document, size_t length, const rematch_options *options,
                          const void *cursor, size_t cursor_length, rematch_rows *rows, rematch_text *note);
uint32_t rematch_c_cursor(rematch_rows *rows, const uint32_t *row, size_t numbers, char *text, size_t room, size_t *length);
struct written {
    size_t rows, notes;
};
struct run { /* a slot too */
    void *at;
    bool held;
};
uint32_t rematch_c_begin_run(struct run *run);
uint32_t rematch_c_add_word(struct run *run, const void *word, size_t length);
uint32_t rematch_c_add_document(struct run *run, const void *name, size_t name_length, const void *bytes, size_t length);
uint32_t rematch_c_run(struct run *run, const void *input, size_t length, char *rows, size_t row_room, char *notes,
                       size_t note_room, struct written *written);
uint32_t rematch_c_fill(rematch_rows *rows, uint32_t *out, size_t room, size_t most, size_t *given);
void rematch_c_close(void *slot);

/* Whether so many bytes may stand there. Where there are none, `*at` becomes a pointer that is not null. */
static bool stands(const void **at, size_t length) {
    if (*at == NULL && length == 0)
        *at = &nowhere;
    return *at != NULL && length <= PTRDIFF_MAX;
}

/* Refuses a call, and says why where there is room for a note. */
static uint32_t refused(rematch_text *note, const char *why) {
    if (note != NULL) {
        note->length = strlen(why);
        memcpy(note->bytes, why, note->length + 1);
    }
    return REMATCH_CALL;
}

static const char *const null = "call: a null pointer";

/* Why no text or document may stand there; null where one may. */
static const char *fault_at(const void **at, size_t length) {
    if (stands(at, length))
        return NULL;
    return *at == NULL ? null : "call: a length past any memory";
}

/* The status of a proved call over a query's slot, whose refusal of the slot has no note of its own. */
static uint32_t told(uint32_t status, const rematch_query *query, rematch_text *note) {
    if (status != REMATCH_CALL)
        return status;
    return refused(note, query->held ? "call: the query's slot has rows" : "call: the query's slot is empty");
}

uint32_t rematch_compile(const void *text, size_t length, rematch_query *query, rematch_text *note) {
    rematch_text own;
    const char *why = query == NULL ? null : fault_at(&text, length);
    if (why != NULL) {
        rematch_close(query);
        return refused(note, why);
    }
    return rematch_c_compile(text, length, query, note != NULL ? note : &own);
}

uint32_t rematch_variables(rematch_query *query, size_t *count) {
    if (count != NULL)
        *count = 0;
    return query == NULL || count == NULL ? REMATCH_CALL : rematch_c_variables(query, count);
}

uint32_t rematch_variable(rematch_query *query, size_t place, rematch_text *name) {
    return query == NULL || name == NULL ? refused(name, "") : rematch_c_variable(query, place, name);
}

uint32_t rematch_share(rematch_query *query, rematch_query *other) {
    if (query == other)
        return REMATCH_CALL;
    if (query == NULL)
        rematch_close(other);
    return query == NULL || other == NULL ? REMATCH_CALL : rematch_c_share(query, other);
}

/* Why a document is not read: of its slots and of where it is. */
static const char *fault_of_open(const rematch_query *query, const rematch_rows *rows, const void **document, size_t length) {
    if (query == NULL || rows == NULL)
        return null;
    return (const void *)query == rows ? "call: the slots are one" : fault_at(document, length);
}

/* Refuses to read a document: the rows are gone, unless their slot is the query's. */
static uint32_t refused_open(const rematch_query *query, rematch_rows *rows, rematch_text *note, const char *why) {
    if ((const void *)query != rows)
        rematch_close(rows);
    return refused(note, why);
}

static const rematch_options usual = REMATCH_OPTIONS;

uint64_t rematch_usual_table(void) {
    return usual.max_table;
}

uint32_t rematch_open(rematch_query *query, const void *document, size_t length, const rematch_options *options,
                      rematch_rows *rows, rematch_text *note) {
    rematch_text own, *told_to = note != NULL ? note : &own;
    const char *why = fault_of_open(query, rows, &document, length);
    if (why != NULL)
        return refused_open(query, rows, note, why);
    return told(rematch_c_open(query, document, length, options != NULL ? options : &usual, rows, told_to), query, told_to);
}

/* Whether all rows are asked for. */
static bool is_start(const char *cursor, size_t length) {
    return cursor == NULL ? length == 0 : length == 5 && memcmp(cursor, "start", 5) == 0;
}

uint32_t rematch_open_after(rematch_query *query, const void *document, size_t length, const rematch_options *options,
                            const char *cursor, size_t cursor_length, rematch_rows *rows, rematch_text *note) {
    rematch_text own, *told_to = note != NULL ? note : &own;
    if (is_start(cursor, cursor_length))
        return rematch_open(query, document, length, options, rows, note);
    const void *at = cursor;
    const char *why = fault_of_open(query, rows, &document, length);
    why = why != NULL ? why : fault_at(&at, cursor_length);
    if (why != NULL)
        return refused_open(query, rows, note, why);
    return told(rematch_c_resume(query, document, length, options != NULL ? options : &usual, at, cursor_length, rows, told_to), query,
                told_to);
}

uint32_t rematch_cursor(rematch_rows *rows, const uint32_t *row, size_t numbers, char *text, size_t room, size_t *length) {
    static const uint32_t none;
    static char nothing;
    if (length != NULL)
        *length = 0;
    if (rows == NULL || length == NULL || (row == NULL && numbers != 0) || (text == NULL && room != 0)
        || numbers > PTRDIFF_MAX / sizeof *row || room > PTRDIFF_MAX)
        return REMATCH_CALL;
    return rematch_c_cursor(rows, row != NULL ? row : &none, numbers, text != NULL ? text : &nothing, room, length);
}

uint32_t rematch_fill(rematch_rows *rows, uint32_t *out, size_t room, size_t most, size_t *given) {
    static uint32_t none;
    if (given != NULL)
        *given = 0;
    if (rows == NULL || given == NULL || (out == NULL && room != 0) || room > PTRDIFF_MAX / sizeof *out)
        return REMATCH_CALL;
    return rematch_c_fill(rows, out != NULL ? out : &none, room, most, given);
}

/* ---- a run of the program ---- */

/* Whether there is a pointer to each thing that a run is given. */
static bool is_whole(const rematch_command *command) {
    const void *input = command->input;
    if ((command->words == NULL && command->word_count != 0) || (command->documents == NULL && command->document_count != 0)
        || !stands(&input, command->input_length))
        return false;
    for (size_t k = 0; k < command->word_count; k++)
        if (command->words[k] == NULL)
            return false;
    for (size_t k = 0; k < command->document_count; k++) {
        const void *bytes = command->documents[k].bytes;
        if (command->documents[k].name == NULL || !stands(&bytes, command->documents[k].length))
            return false;
    }
    return true;
}

/* Whether there is memory for an output, of which nothing is written yet. */
static bool is_ready(rematch_output *output) {
    if (output == NULL)
        return false;
    output->length = 0;
    return (output->bytes != NULL || output->room == 0) && output->room <= PTRDIFF_MAX;
}

static char *memory_of(const rematch_output *output) {
    static char none;
    return output->bytes != NULL ? output->bytes : &none;
}

/* Gives a run its words and documents. */
static uint32_t given(struct run *run, const rematch_command *command) {
    uint32_t status = rematch_c_begin_run(run);
    for (size_t k = 0; status == REMATCH_DONE && k < command->word_count; k++)
        status = rematch_c_add_word(run, command->words[k], strlen(command->words[k]));
    for (size_t k = 0; status == REMATCH_DONE && k < command->document_count; k++) {
        const rematch_document *document = &command->documents[k];
        const void *bytes = document->bytes;
        if (!stands(&bytes, document->length))
            return REMATCH_CALL;
        status = rematch_c_add_document(run, document->name, strlen(document->name), bytes, document->length);
    }
    return status;
}

uint32_t rematch_run(const rematch_command *command, rematch_output *rows, rematch_output *notes) {
    struct run run = REMATCH_NONE;
    struct written written = {0, 0};
    bool are_ready = is_ready(rows) & is_ready(notes);
    if (command == NULL || !are_ready || rows == notes || !is_whole(command))
        return REMATCH_CALL;
    const void *input = command->input != NULL ? command->input : &nowhere;
    uint32_t status = given(&run, command);
    if (status == REMATCH_DONE) {
        status = rematch_c_run(&run, input, command->input_length, memory_of(rows), rows->room, memory_of(notes), notes->room, &written);
        rows->length = written.rows;
        notes->length = written.notes;
    }
    rematch_c_close(&run);
    return status;
}

void rematch_close(void *slot) {
    if (slot != NULL)
        rematch_c_close(slot);
}

const char *rematch_version(void) {
    return REMATCH_VERSION;
}
