/* Threads that ask one compiled query at once, each by a slot of its own, which goes from the thread that made it to another. */
#include "check.h"
#include <pthread.h>

#define THREADS 4

struct work {
    rematch_query query;
    size_t rows;
};

static void *ask(void *given) {
    struct work *work = given;
    rematch_rows rows = REMATCH_NONE;
    for (int k = 0; k < 200; k++) {
        CHECK(rematch_open(&work->query, TEXT("aabbab and abab"), NULL, &rows, NULL) == REMATCH_DONE);
        work->rows += rest_of(&rows);
    }
    rematch_close(&rows);
    rematch_close(&work->query);
    return NULL;
}

int main(void) {
    pthread_t threads[THREADS];
    struct work works[THREADS] = {{REMATCH_NONE, 0}};
    rematch_query query = REMATCH_NONE;
    compiled(&query, "/!x{a+}!y{b+}/");
    for (int k = 0; k < THREADS; k++) {
        CHECK(rematch_share(&query, &works[k].query) == REMATCH_DONE);
        CHECK(pthread_create(&threads[k], NULL, ask, &works[k]) == 0);
    }
    rematch_close(&query);
    for (int k = 0; k < THREADS; k++) {
        CHECK(pthread_join(threads[k], NULL) == 0);
        CHECK(works[k].rows == works[0].rows && works[k].rows % 200 == 0 && works[k].rows > 0);
    }
    return 0;
}
