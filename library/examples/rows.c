/* Writes the rows of a query on a document, as the program does.
 *
 *     cc rows.c $(pkg-config --cflags --libs rematch) -o rows
 *     ./rows failed.query auth.log
 */
#include <rematch.h>
#include <stdio.h>
#include <stdlib.h>

enum { MOST_ROWS = 512, MOST_VARIABLES = 32 };

/* All bytes of a file. */
static char *file_at(const char *path, size_t *length) {
    FILE *file = fopen(path, "rb");
    size_t room = 0;
    char *bytes = NULL;
    *length = 0;
    if (file == NULL)
        return NULL;
    do {
        room = room * 2 + 65536;
        bytes = realloc(bytes, room);
        if (bytes == NULL)
            break;
        *length += fread(bytes + *length, 1, room - *length, file);
    } while (*length == room);
    fclose(file);
    return bytes;
}

static void write_row(const uint32_t *row, size_t variables, rematch_text *names) {
    if (variables == 0)
        printf("()");
    for (size_t k = 0; k < variables; k++) {
        printf(k == 0 ? "%s=" : " %s=", names[k].bytes);
        if (row[2 * k] == REMATCH_ABSENT)
            printf("-");
        else
            printf("%u-%u", (unsigned)row[2 * k], (unsigned)row[2 * k + 1]);
    }
    printf("\n");
}

int main(int count, char **words) {
    static uint32_t out[MOST_ROWS * 2 * MOST_VARIABLES];
    static rematch_text names[MOST_VARIABLES];
    rematch_query query = REMATCH_NONE;
    rematch_rows rows = REMATCH_NONE;
    rematch_text note = {0, ""};
    size_t text_length, length, variables = 0, given;
    char *text = count == 3 ? file_at(words[1], &text_length) : NULL;
    char *document = text != NULL ? file_at(words[2], &length) : NULL;
    if (document == NULL)
        return 5;
    uint32_t status = rematch_compile(text, text_length, &query, &note);
    if (status == REMATCH_DONE)
        status = rematch_open(&query, document, length, NULL, &rows, &note);
    if (status == REMATCH_DONE) {
        rematch_variables(&query, &variables);
        for (size_t k = 0; k < variables; k++)
            rematch_variable(&query, k, &names[k]);
        do {
            rematch_fill(&rows, out, sizeof out / sizeof *out, MOST_ROWS, &given);
            for (size_t k = 0; k < given; k++)
                write_row(out + 2 * variables * k, variables, names);
        } while (given == MOST_ROWS);
    } else {
        fprintf(stderr, "%s\n", note.bytes);
    }
    rematch_close(&rows);
    rematch_close(&query);
    free(document);
    free(text);
    return (int)status;
}
