/* Queries of rematch as tables of SQLite, over the library for C.
 *
 *     cc -O2 -fPIC -shared rematch_sqlite.c $(pkg-config --cflags --libs rematch) -o rematch.so
 *
 *     .load ./rematch
 *     create virtual table temp.failed using rematch('/Failed password for !user{[^ \n]+} from !address{[^ \n]+} /');
 *     select user, count(*) from logs, failed(logs.text) group by user;
 *     select texts ->> 'x' from rematch('/!x{a+}/', 'aab');
 *
 * README.md has the tables, their columns and their options. It needs SQLite 3.26.
 */
#include <sqlite3ext.h>
#include <stdbool.h>
#include <stdlib.h>
#include <string.h>
#include "rematch.h"
SQLITE_EXTENSION_INIT1

enum {
    KEPT_QUERIES = 16,    /* of a connection, for rows of rules and for rematch_any */
    FIRST_ROWS = 10,      /* that are read at once, then four times as many */
    MOST_ROWS = 256,
    MOST_NUMBERS = 2048,  /* of the rows that are read at once; 32 rows of 32 variables */
    MOST_TABLE = 100000000
};

/* ---- compiled queries ---- */

struct query {
    int users;
    rematch_query slot;
    size_t variables, length;
    char *text;
    rematch_text names[]; /* one for each variable */
};

/* What a connection keeps: its last queries, the latest first. */
struct kept {
    int users;
    struct query *queries[KEPT_QUERIES];
};

/* Why something is refused: SQLITE_OK where nothing is, and a text that sqlite3_free frees, or none. */
struct fault {
    int status;
    char *text;
};

static const struct fault none = {SQLITE_OK, NULL};
static const struct fault no_memory = {SQLITE_NOMEM, NULL};

static struct fault refused(char *text) {
    return text != NULL ? (struct fault){SQLITE_ERROR, text} : no_memory;
}

/* What a call of the library says, where it has refused something. */
static struct fault refused_by(uint32_t status, const rematch_text *note) {
    if (status == REMATCH_MEMORY)
        return no_memory;
    struct fault fault = refused(sqlite3_mprintf("rematch: %s", note->length != 0 ? note->bytes : "the call is refused"));
    if (status == REMATCH_LONG && fault.status == SQLITE_ERROR)
        fault.status = SQLITE_TOOBIG;
    return fault;
}

static void leave(struct query *query) {
    if (query == NULL || --query->users > 0)
        return;
    rematch_close(&query->slot);
    sqlite3_free(query->text);
    sqlite3_free(query);
}

static struct query *entered(struct query *query) {
    query->users++;
    return query;
}

/* Compiles a query for one user. */
static struct fault compile(const char *text, size_t length, struct query **made) {
    rematch_query slot = REMATCH_NONE;
    rematch_text note;
    size_t variables;
    uint32_t status = rematch_compile(text, length, &slot, &note);
    if (status != REMATCH_DONE)
        return refused_by(status, &note);
    rematch_variables(&slot, &variables);
    struct query *query = sqlite3_malloc64(sizeof *query + variables * sizeof *query->names);
    char *copy = sqlite3_malloc64(length + 1);
    if (query == NULL || copy == NULL || rematch_share(&slot, memset(&query->slot, 0, sizeof slot)) != REMATCH_DONE) {
        rematch_close(&slot);
        sqlite3_free(query);
        sqlite3_free(copy);
        return no_memory;
    }
    rematch_close(&slot);
    memcpy(copy, text, length);
    query->users = 1;
    query->variables = variables;
    query->length = length;
    query->text = copy;
    for (size_t k = 0; k < variables; k++)
        rematch_variable(&query->slot, k, &query->names[k]);
    *made = query;
    return none;
}

/* The compiled query of a text for one more user, which is kept for the next row. */
static struct fault find(struct kept *kept, const char *text, size_t length, struct query **found) {
    struct query **queries = kept->queries;
    size_t at = 0;
    while (at < KEPT_QUERIES && queries[at] != NULL
           && (queries[at]->length != length || memcmp(queries[at]->text, text, length) != 0))
        at++;
    struct query *query = NULL;
    if (at < KEPT_QUERIES && queries[at] != NULL) {
        query = queries[at];
    } else {
        struct fault fault = compile(text, length, &query);
        if (fault.status != SQLITE_OK)
            return fault;
        at = at < KEPT_QUERIES ? at : KEPT_QUERIES - 1;
        leave(queries[at]);
    }
    memmove(queries + 1, queries, at * sizeof *queries);
    queries[0] = query;
    *found = entered(query);
    return none;
}

static void leave_kept(void *at) {
    struct kept *kept = at;
    if (--kept->users > 0)
        return;
    for (size_t k = 0; k < KEPT_QUERIES; k++)
        leave(kept->queries[k]);
    sqlite3_free(kept);
}

/* ---- what SQLite gives ---- */

/* The bytes of a value: a text as UTF-8, a blob as it is. */
struct bytes {
    const char *at;
    size_t length;
};

/* Whether the bytes could be had; memory is wanting otherwise. */
static bool read_value(sqlite3_value *value, struct bytes *bytes) {
    bool is_blob = sqlite3_value_type(value) == SQLITE_BLOB;
    bytes->at = is_blob ? sqlite3_value_blob(value) : (const char *)sqlite3_value_text(value);
    bytes->length = (size_t)sqlite3_value_bytes(value);
    if (bytes->at == NULL && is_blob && bytes->length == 0)
        bytes->at = ""; /* a null pointer would give a null */
    return bytes->at != NULL;
}

static bool is_null(sqlite3_value *value) {
    return value == NULL || sqlite3_value_type(value) == SQLITE_NULL;
}

/* The number behind `name=` where a word is one of it. */
static bool number_of(const char *word, size_t length, const char *name, uint64_t *number) {
    size_t at = strlen(name);
    if (length <= at || length > at + 9 || memcmp(word, name, at) != 0)
        return false;
    for (*number = 0; at < length && word[at] >= '0' && word[at] <= '9'; at++)
        *number = *number * 10 + (uint64_t)(word[at] - '0');
    return at == length;
}

/* Reads options, as 'max_table=1000000 filter=1', separated by blanks or commas. */
static struct fault read_options(struct bytes text, rematch_options *options) {
    for (size_t at = 0; at < text.length;) {
        size_t end = at;
        uint64_t number;
        while (end < text.length && text.at[end] != ' ' && text.at[end] != ',' && text.at[end] != '\n' && text.at[end] != '\t')
            end++;
        if (end > at) {
            const char *word = text.at + at;
            if (number_of(word, end - at, "max_table=", &number) && number >= 1 && number <= MOST_TABLE)
                options->max_table = number;
            else if (number_of(word, end - at, "filter=", &number) && number <= 1)
                options->filter = number == 1;
            else
                return refused(sqlite3_mprintf("rematch: no option %.*s: write max_table=N, N from 1 to %d, or filter=1",
                                               (int)(end - at < 100 ? end - at : 100), word, MOST_TABLE));
        }
        at = end + 1;
    }
    return none;
}

static const rematch_options usual_options = REMATCH_OPTIONS;

/* ---- texts ---- */

static bool continues(unsigned char byte) {
    return (byte & 0xc0) == 0x80;
}

/* How many bytes the character of UTF-8 has that begins here, or 0 where none does. */
static size_t character(const char *text, size_t left) {
    const unsigned char *at = (const unsigned char *)text;
    if (at[0] < 0x80)
        return 1;
    size_t length = at[0] >= 0xf0 ? 4 : at[0] >= 0xe0 ? 3 : 2;
    if (at[0] < 0xc2 || at[0] > 0xf4 || left < length || !continues(at[1]))
        return 0;
    if ((at[0] == 0xe0 && at[1] < 0xa0) || (at[0] == 0xed && at[1] > 0x9f) || (at[0] == 0xf0 && at[1] < 0x90)
        || (at[0] == 0xf4 && at[1] > 0x8f))
        return 0;
    for (size_t k = 2; k < length; k++)
        if (!continues(at[k]))
            return 0;
    return length;
}

static bool is_utf8(const char *text, size_t length) {
    for (size_t at = 0, step; at < length; at += step)
        if ((step = character(text + at, length - at)) == 0)
            return false;
    return true;
}

/* A text where it is UTF-8, else a blob. */
static void give_text(sqlite3_context *context, const char *text, size_t length) {
    if (is_utf8(text, length))
        sqlite3_result_text64(context, text, length, SQLITE_TRANSIENT, SQLITE_UTF8);
    else
        sqlite3_result_blob64(context, text, length, SQLITE_TRANSIENT);
}

/* A string of JSON; what is no UTF-8 becomes U+FFFD. */
static void put_string(sqlite3_str *out, const char *text, size_t length) {
    sqlite3_str_appendchar(out, 1, '"');
    for (size_t at = 0, step; at < length; at += step) {
        unsigned char byte = (unsigned char)text[at];
        step = character(text + at, length - at);
        if (step == 0) {
            sqlite3_str_appendall(out, "\xef\xbf\xbd");
            step = 1;
        } else if (byte < 0x20) {
            sqlite3_str_appendf(out, "\\u%04x", byte);
        } else {
            if (byte == '"' || byte == '\\')
                sqlite3_str_appendchar(out, 1, '\\');
            sqlite3_str_append(out, text + at, (int)step);
        }
    }
    sqlite3_str_appendchar(out, 1, '"');
}

/* ---- tables ---- */

/* What a table is given; each is a hidden column, in this order. The table of a query has no QUERY and no OPTIONS. */
enum { QUERY, DOCUMENT, OPTIONS, AFTER, INPUTS, CURSOR = INPUTS };
static const char *const hidden_names[] = {"query", "document", "options", "after", "cursor"};
static const int of_any[] = {QUERY, DOCUMENT, OPTIONS, AFTER, CURSOR}, of_one[] = {DOCUMENT, AFTER, CURSOR};
enum { TEXTS, SPANS, ANY_COLUMNS };   /* the columns of the table of any query */
enum { TEXT, START, END, OF_VARIABLE }; /* the columns of a variable */

struct table {
    sqlite3_vtab base;
    struct kept *kept;
    struct query *query; /* null in the table of any query */
    rematch_options options;
    int columns;         /* before the hidden ones */
};

struct cursor {
    sqlite3_vtab_cursor base;
    struct query *query;
    rematch_rows rows;
    sqlite3_value *inputs[INPUTS]; /* copies of those that a column shows */
    struct bytes document;         /* within its copy */
    sqlite3_int64 number;          /* of the row, from 1 */
    size_t at, given, next_rows;
    bool is_last;
    uint32_t numbers[MOST_NUMBERS];
};

static int told(sqlite3_vtab *base, struct fault fault) {
    if (fault.status != SQLITE_OK) {
        sqlite3_free(base->zErrMsg);
        base->zErrMsg = fault.text;
    }
    return fault.status;
}

/* Which of the hidden columns one is: an input or CURSOR; -1 where the column is not hidden. */
static int hidden(const struct table *table, int column) {
    if (column < table->columns)
        return -1;
    return (table->query != NULL ? of_one : of_any)[column - table->columns];
}

/* The text of a word as in SQL, 'it''s' or "it's". */
static char *unquoted(const char *word) {
    size_t length = strlen(word);
    char *text = sqlite3_malloc64(length + 1), *to = text;
    if (text == NULL)
        return NULL;
    char quote = length > 1 && (word[0] == '\'' || word[0] == '"') && word[length - 1] == word[0] ? word[0] : 0;
    for (size_t at = quote != 0, end = length - (quote != 0); at < end; at++) {
        *to++ = word[at];
        if (quote != 0 && word[at] == quote && word[at + 1] == quote)
            at++;
    }
    *to = 0;
    return text;
}

/* Whether a column's name is that of one before it, as SQLite compares names. */
static bool is_taken(const char *columns, size_t length, const char *name) {
    for (const char *at = columns; at < columns + length; at += strlen(at) + 1)
        if (sqlite3_stricmp(at, name) == 0)
            return true;
    return false;
}

/* What declares the columns of a query's table. */
static struct fault declaration(const struct query *query, char **made) {
    static const char *const endings[] = {"", "_start", "_end"}, *const types[] = {"", " integer", " integer"};
    char taken[32 * OF_VARIABLE * 48], *free_at = taken; /* a name has at most 32 bytes */
    sqlite3_str *text = sqlite3_str_new(NULL);
    sqlite3_str_appendall(text, "create table rows(");
    for (size_t k = 0; k < OF_VARIABLE * query->variables + 3; k++) {
        char name[48];
        bool is_hidden = k >= OF_VARIABLE * query->variables;
        if (is_hidden)
            sqlite3_snprintf(sizeof name, name, "%s", hidden_names[of_one[k - OF_VARIABLE * query->variables]]);
        else
            sqlite3_snprintf(sizeof name, name, "%s%s", query->names[k / OF_VARIABLE].bytes, endings[k % OF_VARIABLE]);
        if (is_taken(taken, (size_t)(free_at - taken), name)) {
            sqlite3_free(sqlite3_str_finish(text));
            return refused(sqlite3_mprintf("rematch: two columns have the name %s: rename a variable of the query", name));
        }
        sqlite3_str_appendf(text, "%s\"%w\"%s", k == 0 ? "" : ", ", name, is_hidden ? " hidden" : types[k % OF_VARIABLE]);
        if (!is_hidden) {
            strcpy(free_at, name);
            free_at += strlen(name) + 1;
        }
    }
    sqlite3_str_appendchar(text, 1, ')');
    *made = sqlite3_str_finish(text);
    return *made != NULL ? none : no_memory;
}

/* Reads the words of `using rematch('QUERY', max_table=N, filter=1)` into a table. */
static struct fault read_words(struct table *table, int count, const char *const *words) {
    char *text = unquoted(words[0]);
    if (text == NULL)
        return no_memory;
    struct fault fault = compile(text, strlen(text), &table->query);
    sqlite3_free(text);
    for (int k = 1; k < count && fault.status == SQLITE_OK; k++)
        fault = read_options((struct bytes){words[k], strlen(words[k])}, &table->options);
    return fault;
}

static int drop(sqlite3_vtab *base) {
    struct table *table = (struct table *)base;
    leave(table->query);
    sqlite3_free(table);
    return SQLITE_OK;
}

/* Makes the table of a query, or where there are no words that of any query. */
static int make(sqlite3 *db, void *kept, int count, const char *const *words, sqlite3_vtab **made, char **text) {
    enum { BEFORE = 3 }; /* the names of the module, the database and the table */
    struct table *table = sqlite3_malloc64(sizeof *table);
    char *own = NULL;
    if (table == NULL)
        return SQLITE_NOMEM;
    *table = (struct table){.kept = kept, .options = usual_options, .columns = ANY_COLUMNS};
    struct fault fault = none;
    if (count > BEFORE) {
        fault = read_words(table, count - BEFORE, words + BEFORE);
        if (fault.status == SQLITE_OK) {
            table->columns = OF_VARIABLE * (int)table->query->variables;
            fault = declaration(table->query, &own);
        }
    }
    if (fault.status == SQLITE_OK)
        fault.status = sqlite3_declare_vtab(db, own != NULL ? own : "create table rows(texts text, spans text, query hidden, "
                                                                    "document hidden, options hidden, after hidden, cursor hidden)");
    sqlite3_free(own);
    if (fault.status == SQLITE_OK) {
        sqlite3_vtab_config(db, SQLITE_VTAB_INNOCUOUS);
        *made = &table->base;
    } else {
        *text = fault.text;
        drop(&table->base);
    }
    return fault.status;
}

/* Whether a column shows a part of the document. */
static bool shows_text(const struct table *table, int column) {
    if (column >= table->columns)
        return hidden(table, column) == DOCUMENT;
    return table->query != NULL ? column % OF_VARIABLE == TEXT : column == TEXTS;
}

/* The inputs that some column of a statement shows, a bit each: SQLite has one bit for all columns from 63 on. */
static int shown_inputs(const struct table *table, sqlite3_uint64 used) {
    int shown = 0;
    for (int column = 0; column < table->columns + (table->query != NULL ? 3 : 5); column++) {
        if ((used >> (column < 63 ? column : 63) & 1) == 0)
            continue;
        int input = hidden(table, column);
        if (shows_text(table, column))
            shown |= 1 << DOCUMENT;
        else if (input >= 0 && input < INPUTS)
            shown |= 1 << input;
    }
    return shown;
}

/* The plan's number: a bit for each input that is given, and above them one for each that is shown. */
static int plan(sqlite3_vtab *base, sqlite3_index_info *info) {
    const struct table *table = (const struct table *)base;
    int places[INPUTS], given = 0, count = 0;
    for (int k = 0; k < info->nConstraint; k++) {
        int input = info->aConstraint[k].iColumn < 0 ? -1 : hidden(table, info->aConstraint[k].iColumn);
        if (input < 0 || input >= INPUTS || info->aConstraint[k].op != SQLITE_INDEX_CONSTRAINT_EQ)
            continue;
        if (!info->aConstraint[k].usable)
            return SQLITE_CONSTRAINT;
        if ((given >> input & 1) == 0)
            places[input] = k;
        given |= 1 << input;
    }
    for (int input = 0; input < INPUTS; input++) {
        if ((given >> input & 1) == 0)
            continue;
        info->aConstraintUsage[places[input]].argvIndex = ++count;
        info->aConstraintUsage[places[input]].omit = 1;
    }
    info->idxNum = given | shown_inputs(table, info->colUsed) << INPUTS;
    info->estimatedCost = given >> DOCUMENT & 1 ? 1000 : 1e12;
    info->estimatedRows = 100;
    return SQLITE_OK;
}

/* ---- rows ---- */

static int open_cursor(sqlite3_vtab *base, sqlite3_vtab_cursor **made) {
    (void)base;
    struct cursor *cursor = sqlite3_malloc64(sizeof *cursor);
    if (cursor == NULL)
        return SQLITE_NOMEM;
    memset(cursor, 0, sizeof *cursor);
    *made = &cursor->base;
    return SQLITE_OK;
}

/* Frees what a cursor has of a document. */
static void empty(struct cursor *cursor) {
    rematch_close(&cursor->rows);
    leave(cursor->query);
    cursor->query = NULL;
    for (int input = 0; input < INPUTS; input++) {
        sqlite3_value_free(cursor->inputs[input]);
        cursor->inputs[input] = NULL;
    }
    cursor->document = (struct bytes){"", 0};
    cursor->at = cursor->given = 0;
    cursor->number = 1;
    cursor->next_rows = FIRST_ROWS;
    cursor->is_last = true;
}

static int close_cursor(sqlite3_vtab_cursor *base) {
    empty((struct cursor *)base);
    sqlite3_free(base);
    return SQLITE_OK;
}

/* Reads the next rows: few at first. SQLite looks for an interrupt between them. */
static int fill(struct cursor *cursor) {
    cursor->at = cursor->given = 0;
    if (cursor->is_last)
        return SQLITE_OK;
    size_t width = 2 * cursor->query->variables, most = cursor->next_rows;
    if (width != 0 && most > MOST_NUMBERS / width)
        most = MOST_NUMBERS / width;
    if (rematch_fill(&cursor->rows, cursor->numbers, MOST_NUMBERS, most, &cursor->given) != REMATCH_DONE)
        return SQLITE_INTERNAL;
    cursor->is_last = cursor->given < most;
    cursor->next_rows = cursor->next_rows * 4 < MOST_ROWS ? cursor->next_rows * 4 : MOST_ROWS;
    return SQLITE_OK;
}

/* Reads a document, behind the cursor that is given. */
static struct fault read_document(struct cursor *cursor, const rematch_options *options, sqlite3_value *const *inputs) {
    struct bytes document, after = {"start", 5};
    rematch_text note;
    if (!read_value(inputs[DOCUMENT], &document) || (!is_null(inputs[AFTER]) && !read_value(inputs[AFTER], &after)))
        return no_memory;
    uint32_t status = rematch_open_after(&cursor->query->slot, document.at, document.length, options, after.at, after.length,
                                         &cursor->rows, &note);
    cursor->is_last = status != REMATCH_DONE;
    return status == REMATCH_DONE ? none : refused_by(status, &note);
}

/* The query that is asked, and how a document is read. */
static struct fault take_query(struct cursor *cursor, sqlite3_value *const *inputs, rematch_options *options) {
    struct table *table = (struct table *)cursor->base.pVtab;
    struct bytes text;
    *options = table->options;
    if (table->query != NULL) {
        cursor->query = entered(table->query);
        return none;
    }
    if (!is_null(inputs[OPTIONS])) {
        if (!read_value(inputs[OPTIONS], &text))
            return no_memory;
        struct fault fault = read_options(text, options);
        if (fault.status != SQLITE_OK)
            return fault;
    }
    return read_value(inputs[QUERY], &text) ? find(table->kept, text.at, text.length, &cursor->query) : no_memory;
}

/* Copies the inputs that a column shows. */
static bool keep_shown(struct cursor *cursor, int shown, sqlite3_value *const *inputs) {
    for (int input = 0; input < INPUTS; input++)
        if ((shown >> input & 1) != 0 && inputs[input] != NULL && (cursor->inputs[input] = sqlite3_value_dup(inputs[input])) == NULL)
            return false;
    return cursor->inputs[DOCUMENT] == NULL || read_value(cursor->inputs[DOCUMENT], &cursor->document);
}

static int filter(sqlite3_vtab_cursor *base, int plan, const char *name, int count, sqlite3_value **values) {
    (void)name;
    (void)count;
    struct cursor *cursor = (struct cursor *)base;
    const struct table *table = (const struct table *)base->pVtab;
    sqlite3_value *inputs[INPUTS] = {NULL};
    rematch_options options;
    empty(cursor);
    for (int input = 0; input < INPUTS; input++)
        if ((plan >> input & 1) != 0)
            inputs[input] = *values++;
    if (inputs[DOCUMENT] == NULL || (table->query == NULL && inputs[QUERY] == NULL))
        return told(base->pVtab, refused(sqlite3_mprintf(table->query != NULL ? "rematch: no document: write the table's name and (TEXT) after it"
                                                                              : "rematch: no document: write rematch(QUERY, TEXT)")));
    if (is_null(inputs[DOCUMENT]) || (table->query == NULL && is_null(inputs[QUERY])))
        return SQLITE_OK;
    struct fault fault = take_query(cursor, inputs, &options);
    if (fault.status == SQLITE_OK)
        fault = read_document(cursor, &options, inputs);
    if (fault.status == SQLITE_OK && !keep_shown(cursor, plan >> INPUTS, inputs))
        fault = no_memory;
    return fault.status == SQLITE_OK ? fill(cursor) : told(base->pVtab, fault);
}

static int advance(sqlite3_vtab_cursor *base) {
    struct cursor *cursor = (struct cursor *)base;
    cursor->number++;
    return ++cursor->at < cursor->given ? SQLITE_OK : fill(cursor);
}

static int is_over(sqlite3_vtab_cursor *base) {
    const struct cursor *cursor = (const struct cursor *)base;
    return cursor->at >= cursor->given;
}

static int number(sqlite3_vtab_cursor *base, sqlite3_int64 *given) {
    *given = ((struct cursor *)base)->number;
    return SQLITE_OK;
}

/* ---- columns ---- */

/* The numbers of the row, two for each variable. */
static const uint32_t *row(const struct cursor *cursor) {
    return cursor->numbers + cursor->at * 2 * cursor->query->variables;
}

static void give_cursor(sqlite3_context *context, struct cursor *cursor) {
    char text[REMATCH_MOST_CURSOR];
    size_t length;
    if (rematch_cursor(&cursor->rows, row(cursor), 2 * cursor->query->variables, text, sizeof text, &length) == REMATCH_DONE)
        sqlite3_result_text(context, text, (int)length, SQLITE_TRANSIENT);
    else
        sqlite3_result_error_nomem(context);
}

/* A row as an object of JSON, of its texts or its spans. */
static void give_object(sqlite3_context *context, const struct cursor *cursor, bool is_texts) {
    sqlite3_str *out = sqlite3_str_new(sqlite3_context_db_handle(context));
    const uint32_t *span = row(cursor);
    sqlite3_str_appendchar(out, 1, '{');
    for (size_t k = 0; k < cursor->query->variables; k++, span += 2) {
        sqlite3_str_appendf(out, "%s\"%s\":", k == 0 ? "" : ",", cursor->query->names[k].bytes);
        if (span[0] == REMATCH_ABSENT)
            sqlite3_str_appendall(out, "null");
        else if (is_texts)
            put_string(out, cursor->document.at + span[0], span[1] - span[0]);
        else
            sqlite3_str_appendf(out, "[%u,%u]", span[0], span[1]);
    }
    sqlite3_str_appendchar(out, 1, '}');
    int status = sqlite3_str_errcode(out);
    int length = sqlite3_str_length(out);
    char *text = sqlite3_str_finish(out);
    if (status == SQLITE_OK)
        sqlite3_result_text(context, text, length, sqlite3_free);
    else
        sqlite3_result_error_code(context, status);
}

static void give_of_variable(sqlite3_context *context, const struct cursor *cursor, int column) {
    const uint32_t *span = row(cursor) + 2 * (column / OF_VARIABLE);
    if (span[0] == REMATCH_ABSENT)
        sqlite3_result_null(context);
    else if (column % OF_VARIABLE == TEXT)
        give_text(context, cursor->document.at + span[0], span[1] - span[0]);
    else
        sqlite3_result_int64(context, span[column % OF_VARIABLE == END]);
}

static int give_column(sqlite3_vtab_cursor *base, sqlite3_context *context, int column) {
    struct cursor *cursor = (struct cursor *)base;
    const struct table *table = (const struct table *)base->pVtab;
    int input = hidden(table, column);
    if (input == CURSOR)
        give_cursor(context, cursor);
    else if (input >= 0 && cursor->inputs[input] != NULL)
        sqlite3_result_value(context, cursor->inputs[input]);
    else if (input < 0 && table->query != NULL)
        give_of_variable(context, cursor, column);
    else if (input < 0)
        give_object(context, cursor, column == TEXTS);
    return SQLITE_OK;
}

/* ---- functions ---- */

/* Whether a query has a row on a document. */
static struct fault has_row(struct kept *kept, int count, sqlite3_value **values, bool *has) {
    struct bytes text, document, words = {"", 0};
    rematch_options options = usual_options;
    rematch_rows rows = REMATCH_NONE;
    rematch_text note;
    struct query *query = NULL;
    uint32_t out[MOST_NUMBERS];
    size_t given = 0;
    if (!read_value(values[0], &text) || !read_value(values[1], &document) || (count > 2 && !read_value(values[2], &words)))
        return no_memory;
    struct fault fault = read_options(words, &options);
    if (fault.status == SQLITE_OK)
        fault = find(kept, text.at, text.length, &query);
    if (fault.status != SQLITE_OK)
        return fault;
    uint32_t status = rematch_open(&query->slot, document.at, document.length, &options, &rows, &note);
    if (status == REMATCH_DONE)
        rematch_fill(&rows, out, MOST_NUMBERS, 1, &given);
    rematch_close(&rows);
    leave(query);
    *has = given > 0;
    return status == REMATCH_DONE ? none : refused_by(status, &note);
}

/* rematch_any(QUERY, DOCUMENT [, OPTIONS]). */
static void any(sqlite3_context *context, int count, sqlite3_value **values) {
    bool has = false;
    for (int k = 0; k < count; k++)
        if (is_null(values[k]))
            return;
    struct fault fault = has_row(sqlite3_user_data(context), count, values, &has);
    if (fault.status == SQLITE_OK) {
        sqlite3_result_int(context, has);
    } else if (fault.text != NULL) {
        sqlite3_result_error(context, fault.text, -1);
        sqlite3_result_error_code(context, fault.status);
    } else {
        sqlite3_result_error_code(context, fault.status);
    }
    sqlite3_free(fault.text);
}

static void version(sqlite3_context *context, int count, sqlite3_value **values) {
    (void)count;
    (void)values;
    sqlite3_result_text(context, rematch_version(), -1, SQLITE_STATIC);
}

static const sqlite3_module module = {
    .xCreate = make, .xConnect = make, .xBestIndex = plan, .xDisconnect = drop, .xDestroy = drop,
    .xOpen = open_cursor, .xClose = close_cursor, .xFilter = filter, .xNext = advance, .xEof = is_over,
    .xColumn = give_column, .xRowid = number,
};

#ifdef _WIN32
__declspec(dllexport)
#elif defined __GNUC__
__attribute__((visibility("default")))
#endif
int sqlite3_rematch_init(sqlite3 *db, char **text, const sqlite3_api_routines *api) {
    enum { FLAGS = SQLITE_UTF8 | SQLITE_DETERMINISTIC | SQLITE_INNOCUOUS };
    (void)text;
    SQLITE_EXTENSION_INIT2(api);
    struct kept *kept = sqlite3_malloc64(sizeof *kept);
    if (kept == NULL)
        return SQLITE_NOMEM;
    *kept = (struct kept){.users = 1};
    int status = sqlite3_create_function_v2(db, "rematch_version", 0, FLAGS, NULL, version, NULL, NULL, NULL);
    for (int count = 2; count <= 3 && status == SQLITE_OK; count++) {
        kept->users++; /* SQLite leaves it, also where the call fails */
        status = sqlite3_create_function_v2(db, "rematch_any", count, FLAGS, kept, any, NULL, NULL, leave_kept);
    }
    if (status == SQLITE_OK) {
        kept->users++;
        status = sqlite3_create_module_v2(db, "rematch", &module, kept, leave_kept);
    }
    leave_kept(kept);
    return status;
}
