/* times: nanoseconds of the processor for each call, over whichever library of cord.h it is linked with; the least of three runs. `pieces` is a
 * megabyte that was made by insertions of ten bytes anywhere, 100,000 of them, and `whole` one that was read from a file. */
#include <gc/cord.h>
#include <stdint.h>
#include <stdio.h>
#include <stdlib.h>
#include <string.h>
#include <time.h>

enum { MANY = 100000, FEW = 20000, RUNS = 3 };
static CORD pieces, whole;
static uint64_t state = 7, sum;

static size_t below(size_t n) {
    state = state * 6364136223846793005u + 1442695040888963407u;
    return (size_t)(state >> 33) % n;
}

static CORD inserted(CORD x, size_t at, CORD y) { return CORD_cat(CORD_substr(x, 0, at), CORD_cat(y, CORD_substr(x, at, CORD_len(x)))); }

static void append_char(void) {
    CORD x = CORD_EMPTY;
    for (int k = 0; k < MANY; k++) x = CORD_cat_char(x, (char)('a' + k % 26));
    sum += CORD_len(x);
}

static void append_ten(void) {
    CORD x = CORD_EMPTY;
    for (int k = 0; k < MANY; k++) x = CORD_cat_char_star(x, "ten bytes.", 10);
    sum += CORD_len(x);
}

static void prepend_ten(void) {
    CORD x = CORD_EMPTY;
    for (int k = 0; k < MANY; k++) x = CORD_cat("ten bytes.", x);
    sum += CORD_len(x);
}

static void cat(void) {
    for (int k = 0; k < MANY; k++) sum += CORD_cat(pieces, whole) != CORD_EMPTY;
}

static void substr(void) {
    size_t len = CORD_len(pieces);
    for (int k = 0; k < MANY; k++) sum += CORD_substr(pieces, below(len / 2), len / 2) != CORD_EMPTY;
}

static void substr_short(void) {
    size_t len = CORD_len(pieces);
    for (int k = 0; k < MANY; k++) sum += (unsigned char)*CORD_substr(pieces, below(len - 10), 10);
}

static void insert_ten(void) {
    CORD x = whole;
    for (int k = 0; k < FEW; k++) x = inserted(x, below(CORD_len(x)), "ten bytes.");
    sum += CORD_len(x);
}

static void fetch(CORD x) {
    for (int k = 0; k < MANY; k++) sum += (unsigned char)CORD_fetch(x, below(CORD_len(x)));
}

static void next(CORD x) {
    CORD_pos p;
    CORD_FOR(p, x) sum += (unsigned char)CORD_pos_fetch(p);
}

static void prev(CORD x) {
    CORD_pos p;
    for (CORD_set_pos(p, x, CORD_len(x) - 1); CORD_pos_valid(p); CORD_prev(p)) sum += (unsigned char)CORD_pos_fetch(p);
}

static int add(char c, void *to) {
    *(uint64_t *)to += (unsigned char)c;
    return 0;
}

static void fetch_pieces(void) { fetch(pieces); }
static void fetch_whole(void) { fetch(whole); }
static void next_pieces(void) { next(pieces); }
static void next_whole(void) { next(whole); }
static void prev_pieces(void) { prev(pieces); }
static void iter_pieces(void) { CORD_iter(pieces, add, &sum); }
static void balance(void) { sum += CORD_balance(pieces) != CORD_EMPTY; }

static void told(const char *name, void (*job)(void), size_t calls) {
    double least = 1e18;
    for (int run = 0; run < RUNS; run++) {
        struct timespec from, to;
        clock_gettime(CLOCK_PROCESS_CPUTIME_ID, &from);
        job();
        clock_gettime(CLOCK_PROCESS_CPUTIME_ID, &to);
        double now = (double)(to.tv_sec - from.tv_sec) * 1e9 + (double)(to.tv_nsec - from.tv_nsec);
        least = now < least ? now : least;
    }
    printf("%-44s %10.1f\n", name, least / (double)calls);
    fflush(stdout);
}

int main(void) {
    FILE *file = tmpfile();
    if (!file) return 3;
    for (int k = 0; k < 1000000; k++) putc('a' + k % 26, file);
    if (fflush(file) != 0) return 3;
    rewind(file);
    whole = CORD_from_file_eager(file);
    for (int k = 0; k < MANY; k++) pieces = inserted(pieces, below(CORD_len(pieces) + 1), "ten bytes.");
    told("append a character (CORD_cat_char)", append_char, MANY);
    told("append ten (CORD_cat_char_star)", append_ten, MANY);
    told("put ten in front (CORD_cat)", prepend_ten, MANY);
    told("cat of two megabytes (CORD_cat)", cat, MANY);
    told("half a megabyte (CORD_substr)", substr, MANY);
    told("ten characters anywhere (CORD_substr)", substr_short, MANY);
    told("insert ten anywhere in a megabyte", insert_ten, FEW);
    told("fetch anywhere, whole (CORD_fetch)", fetch_whole, MANY);
    told("fetch anywhere, pieces (CORD_fetch)", fetch_pieces, MANY);
    told("next, whole (CORD_FOR)", next_whole, CORD_len(whole));
    told("next, pieces (CORD_FOR)", next_pieces, CORD_len(pieces));
    told("prev, pieces (CORD_prev)", prev_pieces, CORD_len(pieces));
    told("each character, pieces (CORD_iter)", iter_pieces, CORD_len(pieces));
    told("balance a megabyte of pieces (CORD_balance)", balance, 1);
    return sum == 0;
}
