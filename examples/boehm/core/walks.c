/* Walks over cords: each character by a function, and positions.
 *
 * A position keeps bytes about its place where the collector's library keeps a path: path[1] says the place of the first, path[2] how many they
 * are, and they stand from path[3] on, with a NUL behind. What the macros see, from cur_start to cur_end, is as much of them as has no NUL, or
 * one NUL; so it is a C string, as the header says, and comparing it as one is right. */
#include "core.h"
#include <string.h>

#undef CORD_pos_fetch
#undef CORD_next
#undef CORD_prev
#undef CORD_pos_to_index
#undef CORD_pos_to_cord
#undef CORD_pos_valid
#undef CORD_iter

enum { HELD = sizeof(struct CORD_pe) * (MAX_DEPTH + 1 - 3) - 1, FIRST_BACK = 32 };

static char *held(CORD_pos p) { return (char *)&p[0].path[3]; }

static void invalidate(CORD_pos p) {
    p[0].path_len = CORD_POS_INVALID;
    p[0].cur_leaf = "";
    p[0].cur_start = p[0].cur_end = 0;
}

/* Shows the macros what is held about the place. */
static void show(CORD_pos p) {
    const char *bytes = held(p);
    size_t start = p[0].path[1].pe_start_pos, from = p[0].cur_pos - start, to = from + 1;
    if (bytes[from]) {
        to += strlen(bytes + to);
        while (from > 0 && bytes[from - 1]) from--;
    }
    p[0].path_len = 0;
    p[0].cur_leaf = bytes + from;
    p[0].cur_start = start + from;
    p[0].cur_end = start + to;
}

/* Holds the bytes of the cord from a place on, n or fewer, and shows those about the position's. */
static void hold(CORD_pos p, size_t start, size_t n) {
    p[0].path[1].pe_start_pos = start;
    p[0].path[2].pe_start_pos = n;
    held(p)[n] = '\0';
    show(p);
}

static bool is_held(CORD_pos p) { return p[0].cur_pos - p[0].path[1].pe_start_pos < p[0].path[2].pe_start_pos; }

void CORD_set_pos(CORD_pos p, CORD x, size_t i) {
    p[0].path[0].pe_cord = x;
    p[0].path[0].pe_start_pos = 0;
    p[0].path[1].pe_start_pos = p[0].path[2].pe_start_pos = 0;
    p[0].cur_pos = i;
    size_t len = CORD_len(x);
    if (i >= len) {
        invalidate(p);
    } else if (CORD_IS_STRING(x)) {
        p[0].path_len = 0;
        p[0].cur_leaf = x;
        p[0].cur_start = 0;
        p[0].cur_end = len;
    } else {
        hold(p, i, copy_run(made_of(x)->rope, i, held(p), HELD));
    }
}

static void be_valid(CORD_pos p, const char *call) {
    if (p[0].path_len == CORD_POS_INVALID) stop(call, "the position is not valid");
}

void CORD__next(CORD_pos p) {
    CORD x = p[0].path[0].pe_cord;
    be_valid(p, "CORD_next");
    p[0].cur_pos++;
    if (p[0].cur_pos < p[0].cur_end) return;
    if (is_held(p)) {
        show(p);
    } else if (CORD_IS_STRING(x) || p[0].cur_pos >= made_of(x)->len) {
        invalidate(p);
    } else {
        hold(p, p[0].cur_pos, copy_run(made_of(x)->rope, p[0].cur_pos, held(p), HELD));
    }
}

/* Each time twice as many bytes before the place are taken as were held, for they may stand in as many pieces. */
void CORD__prev(CORD_pos p) {
    be_valid(p, "CORD_prev");
    if (p[0].cur_pos == 0) {
        invalidate(p);
        return;
    }
    p[0].cur_pos--;
    if (p[0].cur_pos >= p[0].cur_start) return;
    if (is_held(p)) {
        show(p);
        return;
    }
    size_t n = 2 * p[0].path[2].pe_start_pos, end = p[0].cur_pos + 1;
    n = n < FIRST_BACK ? FIRST_BACK : n > HELD ? HELD : n;
    n = n < end ? n : end;
    hold(p, end - n, copy_out(p[0].path[0].pe_cord, end - n, held(p), n));
}

char CORD__pos_fetch(CORD_pos p) {
    be_valid(p, "CORD_pos_fetch");
    return p[0].cur_leaf[p[0].cur_pos - p[0].cur_start];
}

char CORD_pos_fetch(CORD_pos p) { return CORD__pos_fetch(p); }
void CORD_next(CORD_pos p) { CORD__next(p); }
void CORD_prev(CORD_pos p) { CORD__prev(p); }
size_t CORD_pos_to_index(CORD_pos p) { return p[0].cur_pos; }
CORD CORD_pos_to_cord(CORD_pos p) { return p[0].path[0].pe_cord; }
int CORD_pos_valid(CORD_pos p) { return p[0].path_len != CORD_POS_INVALID; }

/* ---- Each character by a function */

/* Whether there is a character at the place: an empty cord has none from 0 on. */
static bool begins(CORD x, size_t i, const char *call) {
    size_t len = CORD_len(x);
    if (i >= len && (i > 0 || len > 0)) stop(call, "the place is not inside the cord");
    return len > 0;
}

/* The n bytes of a window, with a NUL behind: those without NUL by f2, where there is one. */
static int iterate(const char *window, size_t n, CORD_iter_fn f1, CORD_batched_iter_fn f2, void *client_data) {
    for (size_t k = 0; k < n; k++) {
        int answer = f2 && window[k] ? f2(window + k, client_data) : f1(window[k], client_data);
        if (answer) return answer;
        if (f2 && window[k]) k += strlen(window + k) - 1;
    }
    return 0;
}

int CORD_iter5(CORD x, size_t i, CORD_iter_fn f1, CORD_batched_iter_fn f2, void *client_data) {
    char window[WINDOW + 1];
    if (!begins(x, i, "CORD_iter5")) return 0;
    if (CORD_IS_STRING(x)) return iterate(x + i, strlen(x + i), f1, f2, client_data);
    const struct made *made = made_of(x);
    for (size_t n; i < made->len; i += n) {
        n = copy_run(made->rope, i, window, WINDOW);
        window[n] = '\0';
        int answer = iterate(window, n, f1, f2, client_data);
        if (answer) return answer;
    }
    return 0;
}

int CORD_iter(CORD x, CORD_iter_fn f1, void *client_data) { return CORD_iter5(x, 0, f1, CORD_NO_FN, client_data); }

static int iterate_back(const char *window, size_t n, CORD_iter_fn f1, void *client_data) {
    int answer = 0;
    while (n > 0 && !answer) answer = f1(window[--n], client_data);
    return answer;
}

/* The windows grow, for each may stand in many pieces, and the walk may end soon. */
int CORD_riter4(CORD x, size_t i, CORD_iter_fn f1, void *client_data) {
    char window[WINDOW];
    if (!begins(x, i, "CORD_riter4")) return 0;
    if (CORD_IS_STRING(x)) return iterate_back(x, i + 1, f1, client_data);
    for (size_t end = i + 1, n, most = FIRST_BACK; end > 0; end -= n) {
        n = end < most ? end : most;
        copy_out(x, end - n, window, n);
        int answer = iterate_back(window, n, f1, client_data);
        if (answer) return answer;
        most = 2 * most < WINDOW ? 2 * most : WINDOW;
    }
    return 0;
}

int CORD_riter(CORD x, CORD_iter_fn f1, void *client_data) {
    size_t len = CORD_len(x);
    return len ? CORD_riter4(x, len - 1, f1, client_data) : 0;
}
