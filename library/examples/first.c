/* Writes where a query fits in a text: the first program with the library.
 *
 *     cc first.c $(pkg-config --cflags --libs rematch) -o first && ./first
 */
#include <rematch.h>
#include <stdio.h>
#include <string.h>

int main(void) {
    const char *text = "/^(.* )?!key{\\w+}=!value{\\d+}( .*)?$/", *document = "width=640 height=480";
    rematch_query query = REMATCH_NONE;
    rematch_rows rows = REMATCH_NONE;
    rematch_text note;
    uint32_t row[2 * 2]; /* of each of the two variables where it starts and where it ends */
    size_t given = 1;
    uint32_t status = rematch_compile(text, strlen(text), &query, &note);
    if (status == REMATCH_DONE)
        status = rematch_open(&query, document, strlen(document), NULL, &rows, &note);
    if (status != REMATCH_DONE)
        fprintf(stderr, "%s\n", note.bytes);
    while (status == REMATCH_DONE && given == 1) {
        status = rematch_fill(&rows, row, 4, 1, &given);
        if (given == 1)
            printf("%.*s is %.*s\n", (int)(row[1] - row[0]), document + row[0], (int)(row[3] - row[2]), document + row[2]);
    }
    rematch_close(&rows);
    rematch_close(&query);
    return (int)status;
}
