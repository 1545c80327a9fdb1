/* rematch in the caller's process: a query is compiled once and asked of many documents, and rows come as numbers.
 *
 * Results are those of the program `rematch`: every row of the query's meaning, each once, in block order, with the
 * program's notes. The statuses are the program's exit statuses. docs/LANGUAGE.md has the language, docs/FORMATS.md
 * the notes and limits, library/README.md examples.
 *
 * Slots. A slot is memory of the caller's that holds a handle: a compiled query, or the rows of one on a document. It
 * begins as zeros (REMATCH_NONE). While it holds a handle it is not copied, and the caller does not write to it. A call
 * that puts a handle into a slot closes what the slot held before, also where the call is refused: the slot is empty
 * then. What a handle owns is freed by rematch_close, and by nothing else.
 *
 * Pointers. No call keeps a pointer that it is given. A null pointer is refused with REMATCH_CALL, where nothing else is
 * said; a text or a document of length 0 may be null. Two pointers of one call do not overlap, but `query` and `other`
 * may be the same: that call is refused, and the slot is as it was.
 *
 * While a call runs. Nobody else writes to what its pointers point to, frees it, or moves it: not to the text, the
 * document, the cursor, the options, the slots, the room for rows and notes. That is the caller's to keep, as it is that a
 * pointer points to as many bytes as the call is told. After the call the caller may do so.
 *
 * Threads. A handle is used by one call at a time. For several threads at once, rematch_share gives each its own slot
 * of the same compiled query. That a handle may go from one thread to another, as under a lock, is tested and not proved.
 * A call may take 2.5 MB of stack: queries at both limits of nesting take the most, and a usual query a few kB. Threads of
 * some C libraries have 128 kB, and want more room. That it is so is tested and not proved.
 * No call is made from a signal handler, nor in the forked child of a process with threads.
 *
 * Memory. It is that of malloc, realloc and free. Where it is wanting, the call is refused with REMATCH_MEMORY, and
 * nothing of it is left. What a call takes of the stack grows as the query's text is nested: 512 kB were enough for each
 * text that was tried.
 */
#ifndef REMATCH_H
#define REMATCH_H
#include <stdbool.h>
#include <stddef.h>
#include <stdint.h>
#ifdef __cplusplus
extern "C" {
#endif

#if defined __GNUC__
#define REMATCH_API __attribute__((visibility("default")))
#else
#define REMATCH_API
#endif

/* What both numbers of an absent variable are. */
#define REMATCH_ABSENT UINT32_MAX

/* How a call ended. */
enum {
    REMATCH_DONE = 0,   /* all is done */
    REMATCH_CALL = 2,   /* the call is refused, and each call says for what. A note says which: `call: a null pointer`, `call: a
                           length past any memory`, `call: the slots are one`, `call: the query's slot is empty`, `call: the query's slot has
                           rows`. Of a call without a note, `held` of the slot says whether it is empty */
    REMATCH_QUERY = 3,  /* the query's text has a fault, which the note says with its place in bytes from 0 */
    REMATCH_SIZE = 4,   /* the query, or reading the document, takes more than a limit allows, as the note says */
    REMATCH_READ = 5,   /* rematch_run: a name holds no document */
    REMATCH_LONG = 6,   /* the document has more than 268,435,456 bytes */
    REMATCH_CURSOR = 7, /* the cursor is that of no row of this query and this document, as the note says */
    REMATCH_ROOM = 8,   /* there is room for no row, or not for the whole cursor or output */
    REMATCH_MEMORY = 9, /* memory is wanting */
    REMATCH_TEXT = 10   /* rematch_run: a word or a name is no UTF-8 */
};

/* The two kinds of slot. Their members are the library's; `held` may be read, and is false where the slot is empty. */
typedef struct rematch_query {
    void *at;
    bool held;
} rematch_query;
typedef struct rematch_rows {
    void *at;
    bool held;
} rematch_rows;
#define REMATCH_NONE { NULL, false }

/* A note, as the program writes it without the line's end, or of a call that is refused; or a name. A byte 0 is behind its
 * bytes. */
typedef struct {
    size_t length; /* 0 where there is none */
    char bytes[248];
} rematch_text;

/* How a document is read. */
typedef struct {
    uint64_t max_table; /* the greatest weight of a table, as --max-table; more than 100,000,000 is taken as that */
    bool filter;        /* as --filter */
} rematch_options;
#define REMATCH_OPTIONS { 8000000, false } /* as the program without these options */

/* Compiles the text of a query. Where it is refused, the slot is empty. `note` may be null. */
REMATCH_API uint32_t rematch_compile(const void *text, size_t length, rematch_query *query, rematch_text *note);

/* How many variables the rows of a query have; 0 where the call is refused. */
REMATCH_API uint32_t rematch_variables(rematch_query *query, size_t *count);

/* The name of variable `place`, from 0; names are in the order of the spans of a row. A place past the last is refused
 * with REMATCH_CALL too. Where the call is refused, the name has no bytes. */
REMATCH_API uint32_t rematch_variable(rematch_query *query, size_t place, rematch_text *name);

/* Puts the same compiled query into another slot. It is kept until the last slot of it, and of rows of it, is closed. Where
 * the call is refused, the other slot is empty. */
REMATCH_API uint32_t rematch_share(rematch_query *query, rematch_query *other);

/* Reads a document. All work that grows with it is done here; the rows keep a copy of it and share the query, so both
 * may go. Where it is refused, `rows` is empty. `options` may be null, for REMATCH_OPTIONS, and `note` too. */
REMATCH_API uint32_t rematch_open(rematch_query *query, const void *document, size_t length,
                                  const rematch_options *options, rematch_rows *rows, rematch_text *note);

/* Reads a document as rematch_open does, for the rows behind the one whose cursor this is, as -a of the program: of
 * rows that were given in another process, say. A null `cursor` is none, and so is the text `start`: all rows are given then. A
 * text that is no cursor, or one over other variables, is refused with REMATCH_CURSOR before the document is read, and
 * so is one of a document of another length. `cursor` is not kept. */
REMATCH_API uint32_t rematch_open_after(rematch_query *query, const void *document, size_t length,
                                        const rematch_options *options, const char *cursor, size_t cursor_length,
                                        rematch_rows *rows, rematch_text *note);

/* The cursor of a row of a document, by the numbers that rematch_fill gave for it: `numbers` of them, two for each
 * variable. It is written to `text`, which has `room` bytes; no byte 0 stands behind it. `*length` is how many bytes it
 * has, also with REMATCH_ROOM, where nothing is written; REMATCH_MOST_CURSOR bytes are always enough. Numbers that are
 * those of no row within the document are refused with REMATCH_CALL too. */
REMATCH_API uint32_t rematch_cursor(rematch_rows *rows, const uint32_t *row, size_t numbers, char *text, size_t room,
                                    size_t *length);
#define REMATCH_MOST_CURSOR 2048

/* Gives the next rows: of each, for each variable, where its span starts and where it ends, or twice REMATCH_ABSENT.
 * They are `most` at most, and as many as have room in `out`, which has `room` numbers. `*given` is how many they are;
 * where it is less than both, no row remains. What stands in `out` behind them is as it was. It takes no memory. */
REMATCH_API uint32_t rematch_fill(rematch_rows *rows, uint32_t *out, size_t room, size_t most, size_t *given);

/* A document under its name, which is a text with a byte 0 behind it. */
typedef struct {
    const char *name;
    const void *bytes; /* null where there are none */
    size_t length;
} rematch_document;

/* What a run of the program is given. */
typedef struct {
    const char *const *words; /* the words after the program's name, as on a command line; each has a byte 0 behind it */
    size_t word_count;
    const rematch_document *documents; /* what the names hold; a name that none has cannot be read, and no file is */
    size_t document_count;
    const void *input; /* the standard input: what - names, or the requests of --serve */
    size_t input_length;
} rematch_command;

/* Memory for what a run writes. */
typedef struct {
    char *bytes;
    size_t room;   /* how many bytes it has */
    size_t length; /* how many of them the run wrote, from the front on */
} rematch_output;
#define REMATCH_MOST_NOTE 4096

/* Runs the whole program: `rows` is its standard output, `notes` its standard error, and the answer its exit status.
 * Both outputs have memory of their own, and the call takes as much again. Output that has no room ends the run with
 * REMATCH_ROOM, as a full disk does, and so does a note without room where all else is done; REMATCH_MOST_NOTE bytes
 * are always enough for the note. Words and names are UTF-8, or the call is refused with REMATCH_TEXT. A name that
 * two documents have is refused with REMATCH_CALL, and so is the name -. Where the call is refused, or memory is wanting
 * for what it is given, nothing is written: with REMATCH_CALL and a note, the program has refused the words. It keeps nothing, and calls on several threads at once are no matter. */
REMATCH_API uint32_t rematch_run(const rematch_command *command, rematch_output *rows, rematch_output *notes);

/* Frees what a slot of either kind holds, which is empty then. An empty slot and a null pointer are left as they are. */
REMATCH_API void rematch_close(void *slot);

/* The max_table of REMATCH_OPTIONS, for callers that do not read this header. */
REMATCH_API uint64_t rematch_usual_table(void);

/* The version of the library, as "1.0.0". It is never freed. */
REMATCH_API const char *rematch_version(void);

#ifdef __cplusplus
}
#endif
#endif
