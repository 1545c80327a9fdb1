/* A compiler refuses a slot of one kind where the other belongs: this compiles as it is, and with none of the WRONG calls. */
#include "rematch.h"

int main(void) {
    rematch_query query = REMATCH_NONE, other = REMATCH_NONE;
    rematch_rows rows = REMATCH_NONE;
    size_t number = 0;
    uint32_t row[2] = {0, 0};
    uint32_t status = rematch_open(&query, "a", 1, NULL, &rows, NULL);
#if WRONG == 1
    status = rematch_open(&query, "a", 1, NULL, &other, NULL);
#elif WRONG == 2
    status = rematch_open(&rows, "a", 1, NULL, &rows, NULL);
#elif WRONG == 3
    status = rematch_fill(&query, row, 2, 1, &number);
#elif WRONG == 4
    status = rematch_share(&query, &rows);
#elif WRONG == 5
    status = rematch_variables(&rows, &number);
#elif WRONG == 6
    status = rematch_compile("/a/", 3, &rows, NULL);
#elif WRONG == 7
    status = rematch_cursor(&query, row, 2, NULL, 0, &number);
#elif WRONG == 8
    rematch_close(rows);
#endif
    rematch_close(&rows);
    rematch_close(&query);
    rematch_close(&other);
    return status == REMATCH_CALL && number == 0 && row[0] == 0 ? 0 : 1;
}
