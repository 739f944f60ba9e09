/* refused: what becomes of a refusal. Calls of the store are made to answer each one, and malloc to refuse each call in turn: CORD_oom_fn is called,
 * every earlier cord is as before, and the same call made again gives what it had to. Link it with
 * -Wl,--wrap=malloc,--wrap=cord_store_append,--wrap=cord_store_cat,--wrap=cord_store_substr,--wrap=cord_store_balance. */
#include "check.h"
#include "cord_session.h"
#include <setjmp.h>

static uint32_t answer = CORD_DONE; /* what the next of these calls answers */
static long left = -1;              /* so many calls of malloc are granted; -1: all */
static long refusals;

void *__real_malloc(size_t size);
uint32_t __real_cord_store_append(struct cord_store *store, cord_rope x, const uint8_t *bytes, size_t len, cord_rope *rope);
uint32_t __real_cord_store_cat(struct cord_store *store, cord_rope x, cord_rope y, cord_rope *rope);
uint32_t __real_cord_store_substr(struct cord_store *store, cord_rope x, uint64_t i, uint64_t n, cord_rope *rope);
uint32_t __real_cord_store_balance(struct cord_store *store, cord_rope x, cord_rope *rope);
void *__wrap_malloc(size_t size);
uint32_t __wrap_cord_store_append(struct cord_store *store, cord_rope x, const uint8_t *bytes, size_t len, cord_rope *rope);
uint32_t __wrap_cord_store_cat(struct cord_store *store, cord_rope x, cord_rope y, cord_rope *rope);
uint32_t __wrap_cord_store_substr(struct cord_store *store, cord_rope x, uint64_t i, uint64_t n, cord_rope *rope);
uint32_t __wrap_cord_store_balance(struct cord_store *store, cord_rope x, cord_rope *rope);

static uint32_t taken(void) {
    uint32_t now = answer;
    answer = CORD_DONE;
    return now;
}

static bool is_refused(void) {
    if (left < 0) return false;
    if (left > 0) return left--, false;
    left = -1;
    return true;
}

void *__wrap_malloc(size_t size) { return is_refused() ? NULL : __real_malloc(size); }

uint32_t __wrap_cord_store_append(struct cord_store *store, cord_rope x, const uint8_t *bytes, size_t len, cord_rope *rope) {
    return answer ? taken() : __real_cord_store_append(store, x, bytes, len, rope);
}

uint32_t __wrap_cord_store_cat(struct cord_store *store, cord_rope x, cord_rope y, cord_rope *rope) {
    return answer ? taken() : __real_cord_store_cat(store, x, y, rope);
}

uint32_t __wrap_cord_store_substr(struct cord_store *store, cord_rope x, uint64_t i, uint64_t n, cord_rope *rope) {
    return answer ? taken() : __real_cord_store_substr(store, x, i, n, rope);
}

uint32_t __wrap_cord_store_balance(struct cord_store *store, cord_rope x, cord_rope *rope) {
    return answer ? taken() : __real_cord_store_balance(store, x, rope);
}

/* ---- The calls that are refused, and their texts */

enum { MOST = 200000 };
static char text[MOST + 1], other[MOST + 1];
static CORD long_cord, short_cord;

static CORD append(void) { return CORD_cat_char_star(long_cord, "and forty bytes that are put behind a cord", 42); }
static CORD cat(void) { return CORD_cat(long_cord, short_cord); }
static CORD substr(void) { return CORD_substr(long_cord, 1000, 100000); }
static CORD balance(void) { return CORD_balance(long_cord); }

static CORD from_fn(void) {
    struct array array = {text, 0};
    return CORD_from_fn(array_byte, &array, MOST);
}

static CORD to_string(void) {
    char *string = CORD_to_char_star(long_cord);
    CORD copy = CORD_from_char_star(string);
    free(string);
    return copy;
}

static CORD extended(void) {
    CORD_ec ec;
    CORD_ec_init(ec);
    for (size_t k = 0; k < 1000; k++) CORD_ec_append(ec, text[k]);
    return CORD_ec_to_cord(ec);
}

static const struct {
    CORD (*call)(void);
    size_t from, len; /* the result is text's part, */
    const char *end;  /* and then this */
} calls[] = {
    {append, 0, MOST, "and forty bytes that are put behind a cord"},
    {cat, 0, MOST, "a cord that has more than fifteen bytes"},
    {substr, 1000, 100000, ""},
    {balance, 0, MOST, ""},
    {from_fn, 0, MOST, ""},
    {to_string, 0, MOST, ""},
    {extended, 0, 1000, ""},
};
enum { CALLS = sizeof calls / sizeof *calls, OF_STORE = 4 };

static bool is_right(CORD x, size_t from, size_t len, const char *end) {
    size_t all = len + strlen(end);
    char *string = CORD_to_char_star(x);
    bool is = CORD_len(x) == all && memcmp(string, text + from, len) == 0 && strcmp(string + len, end) == 0;
    free(string);
    return is;
}

static jmp_buf back;

static void handler(void) {
    refusals++;
    longjmp(back, 1);
}

/* Makes the call, which may be refused; then again, and all cords are as they have to be. */
static bool is_granted(size_t k) {
    volatile bool granted = false;
    if (setjmp(back) == 0) {
        calls[k].call();
        granted = true;
    }
    left = -1;
    answer = CORD_DONE;
    CHECK(is_right(calls[k].call(), calls[k].from, calls[k].len, calls[k].end));
    CHECK(is_right(long_cord, 0, MOST, "") && is_right(short_cord, 0, 0, "a cord that has more than fifteen bytes"));
    return granted;
}

int main(void) {
    static const uint32_t answers[] = {CORD_MEMORY, CORD_TABLE_FULL, CORD_POOL_FULL, CORD_TOO_LONG};
    for (size_t k = 0; k < MOST; k++) text[k] = (char)('a' + k * k % 23);
    memcpy(other, text, MOST);
    CORD_oom_fn = handler;
    for (size_t k = 0; k < MOST; k += 1000) long_cord = CORD_cat(long_cord, CORD_substr(other + k, 0, 1000));
    short_cord = CORD_cat("a cord that has more ", "than fifteen bytes");
    for (size_t k = 0; k < OF_STORE; k++)
        for (size_t a = 0; a < sizeof answers / sizeof *answers; a++) {
            answer = answers[a];
            CHECK(!is_granted(k));
        }
    CHECK(refusals == OF_STORE * 4);
    for (size_t k = 0; k < OF_STORE; k++) {
        answer = CORD_MANY_PIECES; /* the bytes are copied, and nothing is refused */
        CHECK(is_granted(k) && refusals == OF_STORE * 4);
    }
    for (size_t k = 0; k < CALLS; k++) {
        long granted = 0;
        for (left = granted; !is_granted(k); left = ++granted) CHECK(granted < 1000);
    }
    CHECK(refusals > OF_STORE * 4 + 3);
    printf("%ld refusals, %ld checks\n", refusals, checks);
    return 0;
}
