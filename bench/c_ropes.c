/* The work of crates/cord_bench by the C library: the same texts, the same places, as many times. With the word `store` it times the operations of a
 * store alone, and else what an editor does by a session, of which every state stays. */
#include "cord_session.h"
#include <stdio.h>
#include <stdlib.h>
#include <string.h>
#include <time.h>

enum { COUNT = 1000000, MEGABYTE = 1 << 20, PART = 1000, BURST = 20, WINDOW = 4096 };

static uint64_t nanoseconds(void) {
    struct timespec now;
    clock_gettime(CLOCK_MONOTONIC, &now);
    return (uint64_t)now.tv_sec * 1000000000 + (uint64_t)now.tv_nsec;
}

static void report(const char *work, uint64_t start, uint64_t times) {
    printf("  %-34s %6llu ns\n", work, (unsigned long long)((nanoseconds() - start) / times));
}

static void must(uint32_t answer) {
    if (answer != CORD_DONE) {
        fprintf(stderr, "a call answers %u\n", (unsigned)answer);
        exit(1);
    }
}

/* A place below the end, one after the other as if at random. */
static uint64_t place(uint64_t k, uint64_t end) { return k * 2654435761 % end; }

static const uint8_t *line(void) {
    static uint8_t bytes[64];
    memset(bytes, 'x', sizeof bytes);
    return bytes;
}

/* ---- The operations of a store */

static struct cord_store begun_store(void) {
    struct cord_store store = CORD_STORE_NONE;
    must(cord_store_begin(&store));
    return store;
}

static void time_appends(void) {
    struct cord_store store = begun_store();
    cord_rope text = 0;
    uint64_t start = nanoseconds();
    for (uint64_t k = 0; k < COUNT; k++) must(cord_store_append(&store, text, (const uint8_t *)"x", 1, &text));
    report("an append of one byte", start, COUNT);
    cord_store_end(&store);
}

static void time_joins(void) {
    struct cord_store store = begun_store();
    cord_rope leaf, joined;
    must(cord_store_bytes(&store, line(), 64, &leaf));
    uint64_t start = nanoseconds();
    for (uint64_t k = 0; k < COUNT; k++) must(cord_store_cat(&store, leaf, leaf, &joined));
    report("a join of two texts of 64 bytes", start, COUNT);
    cord_store_end(&store);
}

/* A text of a megabyte: a line, doubled fourteen times. */
static cord_rope megabyte(struct cord_store *store) {
    cord_rope text;
    must(cord_store_bytes(store, line(), 64, &text));
    for (int k = 0; k < 14; k++) must(cord_store_cat(store, text, text, &text));
    return text;
}

static void time_parts(void) {
    struct cord_store store = begun_store();
    cord_rope text = megabyte(&store), part;
    uint64_t start = nanoseconds();
    for (uint64_t k = 0; k < COUNT; k++) must(cord_store_substr(&store, text, place(k, MEGABYTE - PART), PART, &part));
    report("a substring of a megabyte", start, COUNT);
    cord_store_end(&store);
}

static uint8_t time_fetches(void) {
    struct cord_store store = begun_store();
    cord_rope text = megabyte(&store);
    uint8_t byte, all = 0;
    uint64_t start = nanoseconds();
    for (uint64_t k = 0; k < COUNT; k++, all ^= byte) must(cord_store_fetch(&store, cord_no_sources, 0, text, place(k, MEGABYTE), &byte));
    report("a fetch in a megabyte", start, COUNT);
    cord_store_end(&store);
    return all;
}

static uint8_t time_walk(void) {
    struct cord_store store = begun_store();
    cord_rope text = megabyte(&store);
    static uint8_t window[WINDOW];
    uint8_t all = 0;
    uint64_t start = nanoseconds();
    for (uint64_t at = 0, got = 1; at < COUNT && got > 0; at += got) {
        size_t count;
        must(cord_store_read(&store, cord_no_sources, 0, text, at, window, WINDOW, &count));
        for (size_t k = 0; k < count; k++) all ^= window[k];
        got = count;
    }
    report("the next byte, by windows", start, COUNT);
    cord_store_end(&store);
    return all;
}

/* ---- What an editor does */

/* A session of one source of a megabyte, and its text. */
static struct cord_session begun_session(uint32_t *last) {
    struct cord_session session = CORD_SESSION_NONE;
    struct cord_command open = {.code = CORD_COMMAND_OPEN, .bytes = cord_nothing, .changes = cord_no_changes};
    must(cord_session_begin(&session));
    must(cord_session_add_source(&session, MEGABYTE, &open.q));
    must(cord_session_apply(&session, &open, last));
    return session;
}

static uint32_t insert(struct cord_session *session, uint32_t *last, uint64_t p, const char *bytes, size_t count) {
    struct cord_command command = {.code = CORD_COMMAND_INSERT, .r = *last, .p = p, .changes = cord_no_changes};
    command.bytes = (const uint8_t *)bytes;
    command.bytes_len = count;
    return cord_session_apply(session, &command, last);
}

static void time_keys(const char *work, uint64_t from) {
    uint32_t last;
    struct cord_session session = begun_session(&last);
    uint64_t start = nanoseconds();
    for (uint64_t k = 0; k < COUNT; k++) must(insert(&session, &last, from + k, "x", 1));
    report(work, start, COUNT);
    cord_session_end(&session);
}

static void time_bursts(void) {
    uint32_t last;
    struct cord_session session = begun_session(&last);
    uint64_t start = nanoseconds();
    for (uint64_t k = 0; k < COUNT / BURST; k++) {
        uint64_t from = place(k, MEGABYTE);
        for (uint64_t j = 0; j < BURST; j++) must(insert(&session, &last, from + j, "x", 1));
    }
    report("a key in bursts of 20", start, COUNT);
    cord_session_end(&session);
}

/* Until the session takes no row more. */
static void time_ten(void) {
    uint32_t last;
    struct cord_session session = begun_session(&last);
    uint64_t start = nanoseconds(), k = 0;
    while (insert(&session, &last, place(k, MEGABYTE + 10 * k), "0123456789", 10) == CORD_DONE) k++;
    report("ten bytes at a random place", start, k);
    cord_session_end(&session);
}

int main(int words, char **word) {
    if (words > 1 && strcmp(word[1], "store") == 0) {
        time_appends();
        time_joins();
        time_parts();
        return (time_fetches() ^ time_walk()) == 1;
    }
    time_keys("a key at the end", MEGABYTE);
    time_keys("a key in the middle", MEGABYTE / 2);
    time_bursts();
    time_ten();
    return 0;
}
