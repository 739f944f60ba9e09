/* plain SEED CALLS: makes cords by random calls of cord.h, and compares each with its bytes in a plain array: its length, its characters by walks in
 * both directions and by positions that are moved, its order beside another, and the places of a character and of a string. */
#include "check.h"

enum { MOST = 3000, LONGEST = 9000 };

static struct {
    CORD cord;
    char *bytes;
    size_t len;
} made[MOST];
static size_t count;
static uint64_t state;

static size_t below(size_t n) {
    state = state * 6364136223846793005u + 1442695040888963407u;
    return n ? (size_t)(state >> 33) % n : 0;
}

static size_t least(size_t a, size_t b) { return a < b ? a : b; }

/* Notes a cord with its bytes: those of a, then those of b. A short one without NUL has to be a C string, an empty one 0. */
static void note(CORD cord, const char *a, size_t m, const char *b, size_t n) {
    char *bytes = malloc(m + n + 1);
    memcpy(bytes, a, m);
    memcpy(bytes + m, b, n);
    bytes[m + n] = 0;
    CHECK((cord == CORD_EMPTY) == (m + n == 0));
    if (0 < m + n && m + n <= 15 && !memchr(bytes, 0, m + n)) CHECK(CORD_IS_STRING(cord) && strcmp(cord, bytes) == 0);
    made[count].cord = cord;
    made[count].bytes = bytes;
    made[count].len = m + n;
    count++;
}

/* Random bytes, few of them different, with NULs or without. */
static char *some_bytes(size_t n, bool with_nul) {
    char *bytes = malloc(n + 1);
    for (size_t k = 0; k < n; k++) bytes[k] = (char)(below(20) == 0 ? 128 + below(128) : 'a' + below(3));
    if (with_nul)
        for (size_t k = 0; k < n; k++)
            if (below(4) == 0) bytes[k] = 0;
    bytes[n] = 0;
    return bytes;
}

static size_t some_length(void) { return below(10) == 0 ? 200 + below(5000) : below(40); }

static void make_of_bytes(void) {
    size_t n = some_length();
    bool with_nul = below(2);
    char *bytes = some_bytes(n, with_nul);
    struct array array = {bytes, 0};
    if (with_nul || n == 0 || below(2)) {
        note(CORD_from_fn(array_byte, &array, n), bytes, n, "", 0);
        CHECK(array.asked == n);
        free(bytes);
    } else {
        note(bytes, bytes, n, "", 0);
    }
}

static void make_longer(void) {
    size_t x = below(count), y = below(count), n = some_length();
    char c = (char)below(3);
    const char *a = made[x].bytes;
    if (made[x].len + made[y].len + n > LONGEST) return;
    char *bytes = some_bytes(n, false);
    CORD_ec ec;
    switch (below(5)) {
    case 0: note(CORD_cat_char_star(made[x].cord, bytes, n), a, made[x].len, bytes, n); break;
    case 1: note(CORD_cat_char(made[x].cord, c), a, made[x].len, &c, 1); break;
    case 2:
        CORD_ec_init(ec);
        CORD_ec_append_cord(ec, made[x].cord);
        for (size_t k = 0; k < n; k++) CORD_ec_append(ec, bytes[k]);
        note(CORD_ec_to_cord(ec), a, made[x].len, bytes, n);
        break;
    default: note(CORD_cat(made[x].cord, made[y].cord), a, made[x].len, made[y].bytes, made[y].len);
    }
    free(bytes);
}

static void make(void) {
    size_t x = below(count), i = below(made[x].len + 3), n = below(made[x].len + 3);
    size_t there = i < made[x].len ? least(n, made[x].len - i) : 0;
    switch (below(6)) {
    case 0: make_of_bytes(); break;
    case 1: note(CORD_substr(made[x].cord, i, n), made[x].bytes + (there ? i : 0), there, "", 0); break;
    case 2: note(CORD_balance(made[x].cord), made[x].bytes, made[x].len, "", 0); break;
    default: make_longer();
    }
}

/* ---- Walks */

struct walk {
    char *bytes;
    size_t len, most;
};

static int take_char(char c, void *walk) {
    struct walk *w = walk;
    w->bytes[w->len++] = c;
    return w->len == w->most ? 7 : 0;
}

static int take_string(const char *s, void *walk) {
    struct walk *w = walk;
    size_t n = strlen(s);
    if (n == 0) return 9;
    memcpy(w->bytes + w->len, s, n);
    w->len += n;
    return w->len == w->most ? 7 : 0;
}

static void check_walks(CORD cord, const char *bytes, size_t len) {
    static char back[LONGEST];
    size_t i = below(len), most = 1 + below(len - i);
    struct walk walk = {back, 0, most};
    CHECK(CORD_iter5(cord, i, take_char, CORD_NO_FN, &walk) == 7 && walk.len == most && memcmp(back, bytes + i, most) == 0);
    walk = (struct walk){back, 0, 0};
    CHECK(CORD_iter5(cord, i, take_char, take_string, &walk) == 0 && walk.len == len - i && memcmp(back, bytes + i, len - i) == 0);
    most = 1 + below(i + 1);
    walk = (struct walk){back, 0, most};
    CHECK(CORD_riter4(cord, i, take_char, &walk) == 7 && walk.len == most);
    for (size_t k = 0; k < most; k++) CHECK(back[k] == bytes[i - k]);
}

/* What the macros for friends say at a position: a C string, or one NUL, of the cord's bytes there. */
static void check_cache(CORD_pos p, const char *bytes, size_t len, size_t at) {
    long left = CORD_pos_chars_left(p);
    const char *address = CORD_pos_cur_char_addr(p);
    CHECK(left > 0 && (size_t)left <= len - at && memcmp(address, bytes + at, (size_t)left) == 0);
    CHECK(left == 1 || !memchr(address, 0, (size_t)left));
    CHECK(!*address || strlen(address) == (size_t)left);
}

static void check_positions(CORD cord, const char *bytes, size_t len) {
    CORD_pos p;
    size_t at = below(len);
    bool forward = true;
    CORD_set_pos(p, cord, at);
    for (int step = 0; step < 200; step++) {
        CHECK(CORD_pos_valid(p) && CORD_pos_to_index(p) == at && CORD_pos_to_cord(p) == cord && CORD_pos_fetch(p) == bytes[at]);
        check_cache(p, bytes, len, at);
        long left = CORD_pos_chars_left(p);
        if (below(20) == 0) forward = !forward;
        if (below(5) == 0 && left > 1) {
            long n = 1 + (long)below((size_t)left - 1);
            CORD_pos_advance(p, n);
            at += (size_t)n;
        } else if (forward) {
            if (below(2)) CORD_next(p);
            else (CORD_next)(p);
            if (++at == len) break;
        } else {
            if (below(2)) CORD_prev(p);
            else (CORD_prev)(p);
            if (at-- == 0) break;
        }
    }
    if (at == len || at == (size_t)-1) CHECK(!CORD_pos_valid(p));
}

/* All characters from the first on, and from the last back. */
static void check_for(CORD cord, const char *bytes, size_t len) {
    CORD_pos p;
    size_t at = 0;
    CORD_FOR(p, cord) {
        CHECK(at < len && CORD_pos_fetch(p) == bytes[at]);
        at++;
    }
    CHECK(at == len);
    for (CORD_set_pos(p, cord, len - 1); CORD_pos_valid(p); CORD_prev(p)) CHECK(CORD_pos_fetch(p) == bytes[--at]);
    CHECK(at == 0);
}

/* ---- Order, and places */

static int sign(int order) { return (order > 0) - (order < 0); }

static int order_of(const char *a, size_t m, const char *b, size_t n) {
    int order = memcmp(a, b, least(m, n));
    return order ? sign(order) : (m > n) - (m < n);
}

static void check_order(size_t x, size_t y) {
    size_t i = below(made[x].len + 1), j = below(made[y].len + 1), n = below(50);
    CHECK(sign(CORD_cmp(made[x].cord, made[y].cord)) == order_of(made[x].bytes, made[x].len, made[y].bytes, made[y].len));
    CHECK(CORD_cmp(made[x].cord, made[x].cord) == 0);
    int wanted = order_of(made[x].bytes + i, least(n, made[x].len - i), made[y].bytes + j, least(n, made[y].len - j));
    CHECK(sign(CORD_ncmp(made[x].cord, i, made[y].cord, j, n)) == wanted);
}

static void check_places(size_t x, size_t y) {
    const char *bytes = made[x].bytes;
    size_t len = made[x].len, i = below(len), at = i, m = 1 + below(6), j = below(made[y].len);
    char c = below(3) ? bytes[below(len)] : (char)below(256);
    while (at < len && bytes[at] != c) at++;
    CHECK(CORD_chr(made[x].cord, i, c) == (at < len ? at : CORD_NOT_FOUND));
    for (at = i; at != (size_t)-1 && bytes[at] != c;) at--;
    CHECK(CORD_rchr(made[x].cord, i, c) == at);
    m = least(m, made[y].len - j);
    for (at = i; at + m <= len && memcmp(bytes + at, made[y].bytes + j, m) != 0;) at++;
    CHECK(CORD_str(made[x].cord, i, CORD_substr(made[y].cord, j, m)) == (at + m <= len ? at : CORD_NOT_FOUND));
}

static void ask(size_t x) {
    CORD cord = made[x].cord;
    const char *bytes = made[x].bytes;
    size_t len = made[x].len, y = below(count), i = below(len);
    CHECK(CORD_len(cord) == len);
    check_order(x, y);
    char *back = CORD_to_char_star(cord);
    CHECK(memcmp(back, bytes, len + 1) == 0);
    free(back);
    if (len == 0) return;
    CHECK(CORD_fetch(cord, i) == bytes[i]);
    check_walks(cord, bytes, len);
    check_positions(cord, bytes, len);
    check_for(cord, bytes, len);
    if (made[y].len > 0) check_places(x, y);
}

int main(int argc, char **argv) {
    if (argc != 3) return puts("plain SEED CALLS"), 2;
    state = strtoull(argv[1], NULL, 10) * 977 + 5;
    note(CORD_EMPTY, "", 0, "", 0);
    for (long calls = strtol(argv[2], NULL, 10); calls > 0 && count < MOST; calls--) {
        make();
        ask(count - 1);
        ask(below(count));
    }
    for (size_t x = 0; x < count; x++) ask(x);
    for (size_t x = 0; x < count; x++)
        if (made[x].bytes != made[x].cord) free(made[x].bytes);
    printf("%zu cords, %ld checks\n", count, checks);
    return 0;
}
