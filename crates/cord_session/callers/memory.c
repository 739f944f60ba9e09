/* memory: runs of a session, of which each refuses one call of malloc or realloc more: every earlier text is then as before, and the session
 * goes on. Link it with -Wl,--wrap=malloc,--wrap=realloc. */
#include "../cord_session.h"
#include <stdio.h>
#include <stdlib.h>
#include <string.h>

enum { INSERTS = 40, RUNS = 400 };

static long left = -1, asked;

void *__real_malloc(size_t size);
void *__real_realloc(void *at, size_t size);

static bool is_refused(void) {
    asked++;
    return left == 0 || (left > 0 && left-- == 0);
}

void *__wrap_malloc(size_t size);
void *__wrap_realloc(void *at, size_t size);

void *__wrap_malloc(size_t size) { return is_refused() ? NULL : __real_malloc(size); }
void *__wrap_realloc(void *at, size_t size) { return is_refused() ? NULL : __real_realloc(at, size); }

#define CHECK(x)                                             \
    do {                                                     \
        if (!(x)) {                                          \
            printf("memory.c:%d: %s\n", __LINE__, #x);       \
            exit(1);                                         \
        }                                                    \
    } while (0)

static long refusals;

/* Whether a call was refused memory; then no later one is. */
static bool refused(uint32_t answer) {
    if (answer == CORD_DONE) return false;
    CHECK(answer == CORD_MEMORY);
    refusals++;
    left = -1;
    return true;
}

static void same_text(struct cord_session *session, uint32_t k, const char *text, size_t len) {
    uint8_t back[4 * INSERTS];
    size_t all = 0, got = 1;
    for (; got > 0; all += got) CHECK(cord_session_read(session, cord_no_sources, 0, k, all, back + all, sizeof back - all, &got) == CORD_DONE);
    CHECK(all == len && memcmp(back, text, len) == 0);
}

/* A session, of whose calls of malloc and realloc one is refused. */
static void run(void) {
    struct cord_session session = CORD_SESSION_NONE;
    struct cord_command fresh = {.code = CORD_COMMAND_NEW, .bytes = cord_nothing, .changes = cord_no_changes};
    struct cord_verdict verdict;
    char text[4 * INSERTS] = "";
    size_t len = 0, got = 0;
    uint64_t size = 0, found = 0;
    uint32_t last = 9;
    while (refused(cord_session_begin(&session))) CHECK(cord_session_len(&session, 0, &found) == CORD_CLOSED);
    while (refused(cord_session_apply(&session, &fresh, &last))) CHECK(last == 9);
    for (uint32_t k = 0; k < INSERTS; k++) {
        uint8_t bytes[3] = {(uint8_t)('a' + k % 26), 'b', 'c'};
        size_t at = k * 7 % (len + 1);
        struct cord_command c = {.code = CORD_COMMAND_INSERT, .r = k, .p = at, .bytes = bytes, .bytes_len = 3, .changes = cord_no_changes};
        while (refused(cord_session_apply(&session, &c, &last))) {
            CHECK(last == k && cord_session_len(&session, k + 1, &found) == CORD_NO_REVISION);
            same_text(&session, k, text, len);
        }
        CHECK(last == k + 1);
        memmove(text + at + 3, text + at, len - at);
        memcpy(text + at, bytes, 3);
        len += 3;
    }
    while (refused(cord_session_save(&session, &size))) CHECK(size == 0);
    uint8_t *image = __real_malloc(size);
    CHECK(cord_session_saved(&session, 0, image, size, &got) == CORD_DONE && got == size);
    while (refused(cord_session_resume(&session, image, size, cord_no_sources, 0, &verdict))) same_text(&session, last, text, len);
    left = -1;
    same_text(&session, last, text, len);
    free(image);
    cord_session_end(&session);
}

int main(void) {
    long runs = 0;
    for (; runs < RUNS; runs++) {
        long before = refusals;
        left = runs;
        asked = 0;
        run();
        if (refusals == before) break;
    }
    CHECK(runs > 0 && runs < RUNS);
    printf("%ld runs, %ld refusals\n", runs + 1, refusals);
    return 0;
}
