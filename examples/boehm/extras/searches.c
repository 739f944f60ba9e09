/* What stands in cords: their characters, their order, and the first and last places of things. */
#include "extras.h"
#include <stdint.h>
#include <stdlib.h>
#include <string.h>

char CORD_fetch(CORD x, size_t i) {
    CORD_pos p;
    CORD_set_pos(p, x, i);
    if (!CORD_pos_valid(p)) stop_extra("CORD_fetch", "the place is not inside the cord");
    return CORD_pos_fetch(p);
}

/* ---- Order: that of unsigned characters; what ends first is less. */

/* How many characters from the position's on stand side by side, and where. */
static size_t side_by_side(CORD_pos p, char *one, const char **at) {
    long left = CORD_pos_chars_left(p);
    *at = left > 0 ? CORD_pos_cur_char_addr(p) : one;
    if (left > 0) return (size_t)left;
    *one = CORD_pos_fetch(p);
    return 1;
}

/* Past n of them. */
static void pass(CORD_pos p, size_t n) {
    if (n > 1) CORD_pos_advance(p, n - 1);
    CORD_next(p);
}

int CORD_ncmp(CORD x, size_t x_start, CORD y, size_t y_start, size_t len) {
    CORD_pos p, q;
    const char *left, *right;
    char one, other;
    CORD_set_pos(p, x, x_start);
    CORD_set_pos(q, y, y_start);
    for (size_t n, m; len > 0; len -= n) {
        if (!CORD_pos_valid(p) || !CORD_pos_valid(q)) return !!CORD_pos_valid(p) - !!CORD_pos_valid(q);
        n = side_by_side(p, &one, &left);
        m = side_by_side(q, &other, &right);
        n = n < m ? n : m;
        n = n < len ? n : len;
        int order = memcmp(left, right, n);
        if (order) return order;
        pass(p, n);
        pass(q, n);
    }
    return 0;
}

int CORD_cmp(CORD x, CORD y) { return CORD_ncmp(x, 0, y, 0, SIZE_MAX); }

/* ---- A character */

struct sought {
    size_t at;
    char c;
};

static int is_char(char c, void *sought) {
    struct sought *s = sought;
    if (c == s->c) return 1;
    s->at++;
    return 0;
}

static int has_char(const char *string, void *sought) {
    struct sought *s = sought;
    const char *found = s->c ? strchr(string, s->c) : NULL;
    s->at += found ? (size_t)(found - string) : strlen(string);
    return found != NULL;
}

static int is_char_back(char c, void *sought) {
    struct sought *s = sought;
    if (c == s->c) return 1;
    s->at--;
    return 0;
}

size_t CORD_chr(CORD x, size_t i, int c) {
    struct sought s = {i, (char)c};
    return CORD_iter5(x, i, is_char, has_char, &s) ? s.at : CORD_NOT_FOUND;
}

size_t CORD_rchr(CORD x, size_t i, int c) {
    struct sought s = {i, (char)c};
    return CORD_riter4(x, i, is_char_back, &s) ? s.at : CORD_NOT_FOUND;
}

/* ---- A string, in one pass: longest[k] is how many characters of the pattern's first k are its first ones and their last ones too. */

struct search {
    const char *pattern;
    size_t *longest, len, met, passed;
};

/* How many of the pattern's first characters end with c, behind `met` of them. */
static size_t met_with(const struct search *s, size_t met, char c) {
    while (met > 0 && s->pattern[met] != c) met = s->longest[met];
    return s->pattern[met] == c ? met + 1 : 0;
}

static int meets(char c, void *search) {
    struct search *s = search;
    s->passed++;
    s->met = met_with(s, s->met, c);
    return s->met == s->len;
}

static int meets_string(const char *string, void *search) {
    int found = 0;
    while (*string && !found) found = meets(*string++, search);
    return found;
}

size_t CORD_str(CORD x, size_t start, CORD s) {
    size_t n = CORD_len(s), len = CORD_len(x);
    if (n == 0) return start <= len ? start : CORD_NOT_FOUND;
    if (start >= len || n > len - start) return CORD_NOT_FOUND;
    if (n > SIZE_MAX / sizeof(size_t) - 1) stop_extra("CORD_str", "the pattern is too long");
    char *pattern = CORD_to_char_star(s);
    struct search search = {pattern, (size_t *)(void *)room_for((n + 1) * sizeof(size_t)), n, 0, 0};
    search.longest[0] = search.longest[1] = 0;
    for (size_t k = 1; k < n; k++) search.longest[k + 1] = met_with(&search, search.longest[k], pattern[k]);
    int found = CORD_iter5(x, start, meets, meets_string, &search);
    free(search.longest);
    free(pattern);
    return found ? start + search.passed - n : CORD_NOT_FOUND;
}
