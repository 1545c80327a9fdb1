/* Runs rematch in this process, as the program does, on the files that its words name.
 *
 *     cc program.c $(pkg-config --cflags --libs rematch) -o program
 *     ./program -q failed.query auth.log
 */
#include <rematch.h>
#include <stdio.h>
#include <stdlib.h>
#include <string.h>

enum { MOST_FILES = 8, ROOM = 1 << 20 };

/* All bytes of a file; null where it cannot be read. */
static char *file_at(const char *path, size_t *length) {
    FILE *file = fopen(path, "rb");
    size_t room = 0;
    char *bytes = NULL;
    *length = 0;
    if (file == NULL)
        return NULL;
    do {
        room = room * 2 + 65536;
        char *more = realloc(bytes, room);
        if (more == NULL) {
            free(bytes);
            bytes = NULL;
            break;
        }
        bytes = more;
        *length += fread(bytes + *length, 1, room - *length, file);
    } while (*length == room);
    fclose(file);
    return bytes;
}

/* Each word that names a file becomes a document of that name; the first of two alike is enough. */
static size_t documents_of(const char *const *words, size_t count, rematch_document *documents) {
    size_t held = 0;
    for (size_t k = 0; k < count && held < MOST_FILES; k++) {
        size_t length, other = 0;
        while (other < k && strcmp(words[other], words[k]) != 0)
            other++;
        char *bytes = other < k ? NULL : file_at(words[k], &length);
        if (bytes != NULL)
            documents[held++] = (rematch_document){words[k], bytes, length};
    }
    return held;
}

int main(int count, char **words) {
    static char row_bytes[ROOM], note_bytes[REMATCH_MOST_NOTE];
    rematch_document documents[MOST_FILES];
    rematch_output rows = {row_bytes, sizeof row_bytes, 0}, notes = {note_bytes, sizeof note_bytes, 0};
    const char *const *given = (const char *const *)words + 1;
    size_t word_count = count > 0 ? (size_t)count - 1 : 0;
    size_t held = documents_of(given, word_count, documents);
    const rematch_command command = {given, word_count, documents, held, NULL, 0};
    uint32_t status = rematch_run(&command, &rows, &notes);
    fwrite(rows.bytes, 1, rows.length, stdout);
    fwrite(notes.bytes, 1, notes.length, stderr);
    for (size_t k = 0; k < held; k++)
        free((void *)documents[k].bytes);
    return (int)status;
}
