/* ropes SEED CALLS: makes ropes by random calls on a store, and compares each with its bytes in a plain array: its length, all its bytes by
 * read, one by fetch and locate, a pattern and a byte that are sought, and its order beside another. Wrong calls are made between. */
#include "../cord_session.h"
#include <stdio.h>
#include <stdlib.h>
#include <string.h>

enum { MOST = 2000, LONGEST = 6000, SOURCE = 3000 };

static struct {
    cord_rope rope;
    uint8_t *bytes;
    size_t len;
} made[MOST];
static size_t count;
static uint64_t state;

static uint32_t below(size_t n) {
    state = state * 6364136223846793005u + 1442695040888963407u;
    return n ? (uint32_t)((state >> 33) % n) : 0;
}

#define CHECK(x)                                                                  \
    do {                                                                          \
        if (!(x)) {                                                               \
            printf("ropes.c:%d: %s, rope %zu\n", __LINE__, #x, count);            \
            exit(1);                                                              \
        }                                                                         \
    } while (0)

/* Notes a rope with its bytes: those of a, then those of b. */
static void note(cord_rope rope, const uint8_t *a, size_t m, const uint8_t *b, size_t n) {
    made[count].rope = rope;
    made[count].len = m + n;
    made[count].bytes = malloc(m + n + 1);
    memcpy(made[count].bytes, a, m);
    memcpy(made[count].bytes + m, b, n);
    count++;
}

static void make(struct cord_store *store, const uint8_t *text) {
    uint8_t some[40], pattern[17];
    cord_rope rope = 77;
    size_t x = below(count), y = below(count), i = below(made[x].len + 3), n = below(made[x].len + 3);
    size_t there = i < made[x].len ? made[x].len - i : 0, taken = n < there ? n : there;
    for (size_t k = 0; k < sizeof some; k++) some[k] = (uint8_t)below(256);
    for (size_t k = 0; k < sizeof pattern; k++) pattern[k] = (uint8_t)below(256);
    size_t few = below(sizeof some + 1);
    switch (below(8)) {
    case 0:
        CHECK(cord_store_bytes(store, some, few, &rope) == CORD_DONE);
        note(rope, some, few, some, 0);
        break;
    case 1:
        i = below(SOURCE + 1);
        n = below(200 < SOURCE - i ? 200 : SOURCE - i + 1);
        CHECK(cord_store_source(store, 0, i, n, &rope) == CORD_DONE);
        note(rope, text + i, n, text, 0);
        break;
    case 2: {
        uint8_t out[300];
        uint32_t function = 1 + below(3);
        size_t len = 1 + below(16);
        n = below(sizeof out);
        for (size_t k = 0; k < n; k++) out[k] = function == CORD_FILL ? pattern[0] : function == CORD_RAMP ? (uint8_t)(pattern[0] + k) : pattern[k % len];
        CHECK(cord_store_function(store, function, pattern, len, n, &rope) == CORD_DONE);
        note(rope, out, n, out, 0);
        break;
    }
    case 3:
    case 4:
        if (made[x].len + made[y].len > LONGEST) return;
        CHECK(cord_store_cat(store, made[x].rope, made[y].rope, &rope) == CORD_DONE);
        note(rope, made[x].bytes, made[x].len, made[y].bytes, made[y].len);
        break;
    case 5:
        if (made[x].len + few > LONGEST) return;
        CHECK(cord_store_append(store, made[x].rope, some, few, &rope) == CORD_DONE);
        note(rope, made[x].bytes, made[x].len, some, few);
        break;
    case 6:
        CHECK(cord_store_substr(store, made[x].rope, i, n, &rope) == CORD_DONE);
        note(rope, made[x].bytes + (taken ? i : 0), taken, some, 0);
        break;
    default:
        CHECK(cord_store_balance(store, made[x].rope, &rope) == CORD_DONE);
        note(rope, made[x].bytes, made[x].len, some, 0);
    }
}

/* What a run says that its byte k is. */
static uint8_t told(const struct cord_run *run, const uint8_t *text, uint64_t k) {
    if (run->kind == CORD_SOURCE) return text[run->start + k];
    if (run->function == CORD_FILL) return run->pattern[0];
    if (run->function == CORD_RAMP) return (uint8_t)(run->pattern[0] + run->start + k);
    return run->pattern[(run->start + k) % run->pattern_len];
}

static void ask(struct cord_store *store, const struct cord_source *source, size_t x) {
    static uint8_t back[LONGEST];
    const uint8_t *bytes = made[x].bytes;
    size_t len = made[x].len, got = 1, all = 0, i = below(len + 2), m = 1 + below(3), y = below(count);
    uint64_t found = 5;
    uint32_t order = 5, depth = 99;
    uint8_t byte = 5;
    struct cord_run run;
    CHECK(cord_store_len(store, made[x].rope, &found) == CORD_DONE && found == len);
    CHECK(cord_store_depth(store, made[x].rope, &depth) == CORD_DONE && depth <= 64);
    for (; got > 0; all += got) CHECK(cord_store_read(store, source, 1, made[x].rope, all, back + all, 1 + below(500), &got) == CORD_DONE);
    CHECK(all == len && memcmp(back, bytes, len) == 0);
    CHECK(cord_store_fetch(store, source, 1, made[x].rope, i, &byte) == (i < len ? CORD_DONE : CORD_RANGE));
    CHECK(byte == (i < len ? bytes[i] : 5));
    CHECK(cord_store_locate(store, made[x].rope, i, &run) == (i < len ? CORD_DONE : CORD_RANGE));
    if (i < len) CHECK(run.len >= 1 && i + run.len <= len);
    if (i < len && run.kind != CORD_POOL) CHECK(told(&run, source->bytes, run.len - 1) == bytes[i + run.len - 1]);

    size_t at = i, last = i < len ? i : len - 1;
    const uint8_t *wanted = made[y].len >= m ? made[y].bytes : bytes;
    if (len >= m || wanted != bytes) {
        while (at + m <= len && memcmp(bytes + at, wanted, m) != 0) at++;
        CHECK(cord_store_find(store, source, 1, made[x].rope, i, wanted, m, &found) == CORD_DONE);
        CHECK(found == (i <= len && at + m <= len ? at : UINT64_MAX));
    }
    for (at = i, byte = (uint8_t)below(256); at < len && bytes[at] != byte;) at++;
    CHECK(cord_store_chr(store, source, 1, made[x].rope, i, byte, &found) == CORD_DONE && found == (at < len ? at : UINT64_MAX));
    while (last < len && bytes[last] != byte) last--;
    CHECK(cord_store_rchr(store, source, 1, made[x].rope, i, byte, &found) == CORD_DONE && found == (last < len ? last : UINT64_MAX));

    size_t j = below(made[y].len + 1), n = below(40), left = i < len ? len - i : 0, right = made[y].len - j;
    left = left < n ? left : n;
    right = right < n ? right : n;
    int less = memcmp(bytes + (left ? i : 0), made[y].bytes + j, left < right ? left : right);
    uint32_t wants = less < 0 ? 0 : less > 0 ? 2 : left < right ? 0 : left > right ? 2 : 1;
    CHECK(cord_store_compare(store, source, 1, made[x].rope, i, made[y].rope, j, n, &order) == CORD_DONE && order == wants);
}

/* Calls that are refused, and write nothing. */
static void refused(struct cord_store *store, const struct cord_source *source) {
    struct cord_source none = {cord_nothing, 0, SOURCE}, many[256], long_one = {cord_nothing, 0, (uint64_t)1 << 40};
    uint64_t far = ((uint64_t)1 << 32) + below(1000), rope = 77, place = 77;
    uint8_t byte = 77, long_pattern[17] = {0};
    size_t got = 77;
    for (size_t k = 0; k < 256; k++) many[k] = none;
    CHECK(cord_store_cat(store, far, 0, &rope) == CORD_NO_ROPE && cord_store_cat(store, 0, far, &rope) == CORD_NO_ROPE);
    CHECK(cord_store_substr(store, far, 0, 1, &rope) == CORD_NO_ROPE && cord_store_balance(store, far, &rope) == CORD_NO_ROPE);
    CHECK(cord_store_append(store, far, cord_nothing, 1, &rope) == CORD_NO_ROPE && cord_store_len(store, far, &place) == CORD_NO_ROPE);
    CHECK(cord_store_source(store, 1, 0, 1, &rope) == CORD_BAD_SPAN && cord_store_source(store, 0, SOURCE, 1, &rope) == CORD_BAD_SPAN);
    CHECK(cord_store_function(store, 4, cord_nothing, 1, 5, &rope) == CORD_NO_COMMAND);
    CHECK(cord_store_function(store, CORD_FILL, cord_nothing, 0, 5, &rope) == CORD_NO_COMMAND);
    CHECK(cord_store_function(store, CORD_CYCLE, long_pattern, 17, 5, &rope) == CORD_NO_COMMAND);
    CHECK(cord_store_function(store, CORD_FILL, cord_nothing, 1, (uint64_t)1 << 40, &rope) == CORD_TOO_LONG);
    CHECK(cord_store_find(store, many, 256, 0, 0, cord_nothing, 1, &place) == CORD_BAD_SOURCES);
    CHECK(cord_store_find(store, &long_one, 1, 0, 0, cord_nothing, 1, &place) == CORD_BAD_SOURCES);
    CHECK(rope == 77 && place == 77);
    CHECK(cord_store_source(store, 0, 0, 5, &rope) == CORD_DONE);
    CHECK(cord_store_read(store, &none, 1, rope, 0, &byte, 1, &got) == CORD_UNHELD && got == 0);
    CHECK(cord_store_fetch(store, &none, 1, rope, 0, &byte) == CORD_UNHELD);
    CHECK(cord_store_chr(store, cord_no_sources, 0, rope, 0, 'x', &place) == CORD_UNHELD && place == 77);
    CHECK(cord_store_fetch(store, source, 1, rope, 0, &byte) == CORD_DONE && byte == source->bytes[0]);
}

int main(int argc, char **argv) {
    if (argc != 3) return puts("ropes SEED CALLS"), 2;
    state = strtoull(argv[1], 0, 10) * 977 + 5;
    static uint8_t text[SOURCE];
    for (size_t k = 0; k < SOURCE; k++) text[k] = (uint8_t)below(256);
    struct cord_source source = {text, SOURCE, SOURCE};
    struct cord_store store = CORD_STORE_NONE;
    uint32_t number = 9;
    cord_rope rope = 9;
    CHECK(cord_store_cat(&store, 0, 0, &rope) == CORD_CLOSED && rope == 9);
    CHECK(cord_store_begin(&store) == CORD_DONE && cord_store_add_source(&store, SOURCE, &number) == CORD_DONE && number == 0);
    note(0, cord_nothing, 0, cord_nothing, 0);
    for (long calls = strtol(argv[2], 0, 10); calls > 0 && count < MOST - 1; calls--) {
        make(&store, text);
        ask(&store, &source, below(count));
        if (calls % 50 == 0) refused(&store, &source);
    }
    for (size_t x = 0; x < count; x++) ask(&store, &source, x);
    for (size_t x = 0; x < count; x++) free(made[x].bytes);
    cord_store_end(&store);
    cord_store_end(&store);
    CHECK(cord_store_len(&store, 0, &rope) == CORD_CLOSED);
    printf("%zu ropes\n", count);
    return 0;
}
