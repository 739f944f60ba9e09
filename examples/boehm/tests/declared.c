/* declared [few]: each function and each macro of gc/cord.h, gc/cord_pos.h and gc/ec.h, beside what the headers' words say, and the printf family
 * beside that of the C library. Where a test needs what ends the program, a child does it. `few` leaves out the cord of a million pieces. */
#define _GNU_SOURCE
#include "check.h"
#include <signal.h>
#include <stddef.h>
#include <stdarg.h>
#include <sys/wait.h>
#include <unistd.h>
#include <wchar.h>

static bool is_text(CORD x, const char *text) {
    char *string = CORD_to_char_star(x);
    bool is = CORD_len(x) == strlen(text) && strcmp(string, text) == 0;
    free(string);
    return is;
}

/* A text of 60 characters that is no C string of the caller. */
static const char sixty[] = "the quick brown fox jumps over the lazy dog, and then again.";
static CORD sixty_cord(void) { return CORD_cat(CORD_substr(sixty, 0, 30), CORD_substr(sixty, 30, 30)); }

/* ---- Making */

static void test_making(void) {
    char mutable[40] = "a text that is altered behind the call";
    CORD x = CORD_from_char_star(mutable);
    CORD y = CORD_cat_char_star("say: ", mutable, strlen(mutable));
    CORD z = CORD_cat_char_star(CORD_EMPTY, mutable, strlen(mutable));
    memset(mutable, '!', sizeof mutable - 1);
    CHECK(is_text(x, "a text that is altered behind the call") && is_text(y, "say: a text that is altered behind the call"));
    CHECK(is_text(z, "a text that is altered behind the call"));
    char big[1001] = "";
    x = CORD_cat(memset(big, 'x', 1000), sixty_cord());
    y = CORD_cat(memset(big, 'y', 1000), sixty_cord());
    z = CORD_cat(big, CORD_substr(big, 500, 300));
    memset(big, 'z', 1000);
    CHECK(CORD_len(x) == 1060 && CORD_chr(x, 0, 't') == 1000 && CORD_fetch(x, 999) == 'x' && CORD_fetch(y, 0) == 'y' && CORD_fetch(y, 999) == 'y');
    CHECK(CORD_len(z) == 1300 && CORD_fetch(z, 0) == 'y' && CORD_rchr(z, 1299, 'y') == 1299 && CORD_chr(z, 0, 'z') == CORD_NOT_FOUND);
    CHECK(CORD_from_char_star("") == CORD_EMPTY && CORD_len(CORD_EMPTY) == 0 && CORD_len("abc") == 3);
    CHECK(is_text(CORD_cat("abc", "def"), "abcdef") && is_text(CORD_cat(sixty_cord(), CORD_EMPTY), sixty));
    CHECK(CORD_cat(CORD_EMPTY, CORD_EMPTY) == CORD_EMPTY && is_text(CORD_cat(CORD_EMPTY, "abc"), "abc"));
    CHECK(is_text(CORD_catn(3, "one ", CORD_EMPTY, "two"), "one two") && CORD_catn(0) == CORD_EMPTY);
    CHECK(is_text(CORD_cat_char("ab", 'c'), "abc") && is_text(CORD_cat_char(CORD_EMPTY, 'c'), "c"));
    CHECK(CORD_len(CORD_cat_char("ab", '\0')) == 3 && CORD_fetch(CORD_cat_char("ab", '\0'), 2) == '\0');
    CHECK(is_text(CORD_substr(sixty_cord(), 4, 5), "quick") && is_text(CORD_substr("abcdef", 2, 100), "cdef"));
    CHECK(CORD_substr("abc", 3, 1) == CORD_EMPTY && CORD_substr(sixty_cord(), 60, 1) == CORD_EMPTY && CORD_substr("abc", 1, 0) == CORD_EMPTY);
    CHECK(is_text(CORD_substr(sixty_cord(), 28, (size_t)-1), sixty + 28) && CORD_substr(CORD_EMPTY, 0, 9) == CORD_EMPTY);
    CHECK(is_text(CORD_balance(sixty_cord()), sixty) && CORD_balance(CORD_EMPTY) == CORD_EMPTY && is_text(CORD_balance("abc"), "abc"));
    CHECK(CORD_IS_STRING("abc") && !CORD_IS_STRING(sixty_cord()));
}

static void test_chars(void) {
    struct array array = {sixty, 0};
    CORD x = CORD_from_fn(array_byte, &array, 60), nul = CORD_nul(5), many = CORD_chars('x', 3000000), billion = CORD_chars('y', 1000000007);
    CHECK(is_text(x, sixty) && CORD_from_fn(array_byte, &array, 0) == CORD_EMPTY);
    CHECK(is_text(CORD_from_fn(array_byte, &array, 15), "the quick brown"));
    CHECK(CORD_len(nul) == 5 && !CORD_IS_STRING(nul) && CORD_fetch(nul, 4) == '\0' && CORD_chars('x', 0) == CORD_EMPTY);
    CHECK(CORD_len(many) == 3000000 && CORD_chr(CORD_cat(many, "y"), 0, 'y') == 3000000 && CORD_rchr(CORD_cat("y", many), 3000000, 'y') == 0);
    CHECK(CORD_len(billion) == 1000000007 && CORD_fetch(billion, 1000000006) == 'y' && is_text(CORD_chars('z', 3), "zzz"));
    char *string = CORD_to_char_star(many);
    CHECK(strlen(string) == 3000000 && strspn(string, "x") == 3000000);
    free(string);
    CHECK(strcmp(CORD_to_const_char_star(CORD_EMPTY), "") == 0 && strcmp(CORD_to_const_char_star("abc"), "abc") == 0);
    const char *constant = CORD_to_const_char_star(sixty_cord());
    CHECK(strcmp(constant, sixty) == 0);
    free((void *)constant);
    string = CORD_to_char_star("abc");
    string[0] = 'A';
    CHECK(strcmp(string, "Abc") == 0);
    free(string);
}

/* A comb of 49 characters over 16, and then each cord twice: at the sixteenth time it goes through more than 1,048,576 pieces, none of them balanced,
 * and is too deep. */
static void test_many_pieces(void) {
    enum { COMB = 49, ALL = COMB + 16, TIMES = 18 };
    static const char comb[] = "abcdefghijklmnopqrstuvwxyzabcdefghijklmnopqrstuvwxyzabcdefghijklm";
    char one[2] = "";
    CORD x = CORD_cat(CORD_substr(comb, COMB, 8), comb + COMB + 8), last = x;
    for (int k = COMB; k-- > 0;) {
        one[0] = comb[k];
        x = CORD_cat(one, x);
    }
    for (int k = 0; k < TIMES; k++) x = CORD_cat(last = x, x);
    CHECK(CORD_len(x) == (size_t)ALL << TIMES && CORD_len(last) == CORD_len(x) / 2);
    for (size_t at = 0; at < CORD_len(last); at += 7919) CHECK(CORD_fetch(x, at) == comb[at % ALL] && CORD_fetch(last, at) == comb[at % ALL]);
    CORD cords[] = {CORD_balance(x), CORD_cat(x, "!"), CORD_substr(x, 1, CORD_len(x)), CORD_cat(comb, x)};
    size_t from[] = {0, 0, 1, 0};
    for (int k = 0; k < 4; k++)
        for (size_t at = 0; at < CORD_len(last); at += 7919) CHECK(CORD_fetch(cords[k], at) == comb[(at + from[k]) % ALL]);
}

static void test_extensible(void) {
    CORD_ec ec;
    CORD_ec_init(ec);
    CHECK(CORD_ec_to_cord(ec) == CORD_EMPTY);
    for (int k = 0; k < 1000; k++) CORD_ec_append(ec, (char)('a' + k % 26));
    CORD_ec_append_cord(ec, sixty_cord());
    CORD_ec_append(ec, '\0');
    CORD_ec_flush_buf(ec);
    CORD all = CORD_ec_to_cord(ec);
    CHECK(CORD_len(all) == 1061 && CORD_fetch(all, 1060) == '\0' && is_text(CORD_substr(all, 1000, 60), sixty));
    for (size_t k = 0; k < 1000; k++) CHECK(CORD_fetch(all, k) == (char)('a' + k % 26));
}

/* ---- Walks */

static int count_char(char c, void *counts) {
    ((long *)counts)[(unsigned char)c]++;
    return 0;
}

static int first_char(char c, void *to) {
    *(char *)to = c;
    return 5;
}

static void test_walks(void) {
    long counts[256] = {0};
    char c = 0;
    CORD x = sixty_cord();
    CHECK(CORD_iter(x, count_char, counts) == 0 && counts['t'] == 3 && counts[' '] == 11 && counts['.'] == 1);
    CHECK((CORD_iter)(x, count_char, counts) == 0 && counts['t'] == 6);
    CHECK(CORD_riter(x, count_char, counts) == 0 && counts['t'] == 9);
    CHECK(CORD_riter(x, first_char, &c) != 0 && c == '.');
    CHECK(CORD_iter5(x, 4, first_char, CORD_NO_FN, &c) != 0 && c == 'q');
    CHECK(CORD_riter4(x, 8, first_char, &c) != 0 && c == 'k');
    CHECK(CORD_iter(CORD_EMPTY, first_char, &c) == 0 && CORD_riter(CORD_EMPTY, first_char, &c) == 0);
    CHECK(CORD_iter5("abc", 2, first_char, CORD_NO_FN, &c) != 0 && c == 'c' && CORD_riter4("abc", 0, first_char, &c) != 0 && c == 'a');
}

/* The macros, and each as a function. */
static void test_positions(void) {
    CORD_pos p;
    CORD x = sixty_cord();
    size_t at = 0;
    CORD_FOR(p, x) CHECK(CORD_pos_fetch(p) == sixty[at++]);
    CHECK(at == 60 && !CORD_pos_valid(p) && !(CORD_pos_valid)(p));
    (CORD_set_pos)(p, x, 16);
    CHECK((CORD_pos_valid)(p) && CORD_pos_valid(p) && (CORD_pos_fetch)(p) == 'f' && CORD__pos_fetch(p) == 'f');
    CHECK((CORD_pos_to_index)(p) == 16 && CORD_pos_to_index(p) == 16 && (CORD_pos_to_cord)(p) == x && CORD_pos_to_cord(p) == x);
    (CORD_next)(p);
    CORD__next(p);
    CHECK(CORD_pos_fetch(p) == 'x');
    (CORD_prev)(p);
    CORD__prev(p);
    CORD_prev(p);
    CHECK(CORD_pos_fetch(p) == ' ' && CORD_pos_to_index(p) == 15);
    CORD_set_pos(p, x, 15);
    CHECK(CORD_pos_chars_left(p) > 3 && memcmp(CORD_pos_cur_char_addr(p), " fox", 4) == 0);
    CORD_pos_advance(p, 3);
    CHECK(CORD_pos_fetch(p) == 'x' && CORD_pos_to_index(p) == 18);
    CORD_set_pos(p, x, 60);
    CHECK(!CORD_pos_valid(p));
    CORD_set_pos(p, x, 59);
    CORD_next(p);
    CHECK(!CORD_pos_valid(p));
    CORD_set_pos(p, x, 0);
    CORD_prev(p);
    CHECK(!CORD_pos_valid(p));
    CORD_set_pos(p, CORD_EMPTY, 0);
    CHECK(!CORD_pos_valid(p));
    CHECK(sizeof(CORD_pos) == sizeof(struct CORD_Pos) && CORD_POS_INVALID == 0x55555555);
}

/* ---- What stands in cords */

static void test_searches(void) {
    CORD x = sixty_cord(), high = CORD_cat(x, "\xff"), low = CORD_cat(x, "\x01");
    CHECK(CORD_fetch(x, 0) == 't' && CORD_fetch(x, 59) == '.' && CORD_fetch("abc", 1) == 'b');
    CHECK(CORD_cmp("abc", "abd") < 0 && CORD_cmp("abd", "abc") > 0 && CORD_cmp(x, sixty) == 0 && CORD_cmp(CORD_EMPTY, CORD_EMPTY) == 0);
    CHECK(CORD_cmp(CORD_EMPTY, "a") < 0 && CORD_cmp("a", CORD_EMPTY) > 0 && CORD_cmp(x, low) < 0 && CORD_cmp(high, low) > 0);
    CHECK(CORD_cmp(CORD_cat(x, CORD_nul(1)), x) > 0 && CORD_cmp(CORD_nul(20), CORD_cat(CORD_nul(19), "a")) < 0);
    CHECK(CORD_ncmp(x, 0, x, 31, 4) == 0 && CORD_ncmp(x, 0, x, 31, 5) > 0 && CORD_ncmp(x, 4, "quickly", 0, 5) == 0);
    CHECK(CORD_ncmp(x, 4, "quickly", 0, 6) < 0 && CORD_ncmp(x, 4, "quickly", 0, 0) == 0 && CORD_ncmp("abc", 9, "abc", 9, 5) == 0);
    CHECK(CORD_chr(x, 0, 'q') == 4 && CORD_chr(x, 5, 'q') == CORD_NOT_FOUND && CORD_chr(x, 59, '.') == 59 && CORD_chr(high, 0, 0xff) == 60);
    CHECK(CORD_rchr(x, 59, 'q') == 4 && CORD_rchr(x, 3, 'q') == CORD_NOT_FOUND && CORD_rchr(x, 0, 't') == 0);
    CHECK(CORD_str(x, 0, "the") == 0 && CORD_str(x, 1, "the") == 31 && CORD_str(x, 32, "the") == 49 && CORD_str(x, 50, "the") == CORD_NOT_FOUND);
    CHECK(CORD_str(x, 0, CORD_EMPTY) == 0 && CORD_str("aabaabaaab", 0, "aaab") == 6 && CORD_str("abc", 7, "c") == CORD_NOT_FOUND);
    CHECK(CORD_str(CORD_cat("abc", CORD_nul(3)), 0, CORD_cat("c", CORD_nul(2))) == 2 && CORD_str("abc", 0, "abcd") == CORD_NOT_FOUND);
}

/* ---- Files */

static void test_files(void) {
    enum { SIZE = 300000 };
    static char bytes[SIZE], back[SIZE + 1];
    for (size_t k = 0; k < SIZE; k++) bytes[k] = (char)(k * k / 7 + k);
    CORD (*readers[])(FILE *) = {CORD_from_file, CORD_from_file_eager, CORD_from_file_lazy};
    for (size_t way = 0; way < 3; way++) {
        FILE *file = tmpfile(), *copy = tmpfile(), *empty = tmpfile();
        CHECK(file && copy && empty && fwrite(bytes, 1, SIZE, file) == SIZE && fflush(file) == 0);
        if (way == 1) rewind(file);
        CORD x = readers[way](file);
        CHECK(CORD_len(x) == SIZE && CORD_fetch(x, 12345) == bytes[12345] && readers[way](empty) == CORD_EMPTY);
        CHECK(CORD_put(x, copy) == 1 && ftell(copy) == SIZE);
        rewind(copy);
        CHECK(fread(back, 1, SIZE + 1, copy) == SIZE && memcmp(back, bytes, SIZE) == 0 && fclose(copy) == 0);
    }
    FILE *text = tmpfile();
    CHECK(text && fputs(sixty, text) >= 0 && fflush(text) == 0 && is_text(CORD_from_file(text), sixty));
    text = tmpfile();
    CHECK(text && fputs(sixty, text) >= 0 && fseek(text, 31, SEEK_SET) == 0 && is_text(CORD_from_file_eager(text), sixty + 31));
    FILE *full = fopen("/dev/full", "w");
    CHECK(full && setvbuf(full, NULL, _IONBF, 0) == 0 && CORD_put(sixty_cord(), full) == EOF && CORD_fprintf(full, "%d", 5) == -1);
    fclose(full);
    CHECK(CORD_put(CORD_EMPTY, stdout) == 1);
}

/* ---- The printf family, beside that of the C library */

#define SAME(...)                                                                              \
    do {                                                                                       \
        char wanted_[3000];                                                                    \
        int n_ = snprintf(wanted_, sizeof wanted_, __VA_ARGS__);                               \
        CHECK(CORD_sprintf(&out, __VA_ARGS__) == n_ && CORD_len(out) == (size_t)n_);           \
        char *told_ = CORD_to_char_star(out);                                                  \
        CHECK(memcmp(told_, wanted_, (size_t)n_ + 1) == 0);                                    \
        free(told_);                                                                           \
    } while (0)

static void test_printf(void) {
    CORD out;
    int *where = (int *)&out;
    SAME("plain");
    SAME("%d %i %o %u %x %X", -5, 5, 8u, 9u, 255u, 255u);
    SAME("%hhd %hd %ld %lld %jd %zd %td", (signed char)-1, (short)-2, -3L, -4LL, (intmax_t)-5, (size_t)6, (ptrdiff_t)-7);
    SAME("%hhu %hu %lu %llu %ju %zu", (unsigned char)200, (unsigned short)60000, 3000000000ul, 1ull << 63, (uintmax_t)5, (size_t)6);
    SAME("%f %e %g %a %F %E %G %A", 1.5, 2.5e10, 1e-7, 0.1, 1.0, 2.0, 3.0, 4.0);
    SAME("%Lf %Lg %.3Lf %10.2f|%-10.2f|%+.1f", 1.5L, 2.5L, 1.0L / 3, 3.14159, 3.14159, 2.0);
    SAME("%5d|%-5d|%05d|%+d|% d|%#x|%#o|%'d", 42, 42, 42, 42, 42, 42u, 8u, 1234567);
    SAME("%*d|%-*d|%.*f|%*.*f|%*d", 7, 1, 7, 2, 3, 1.23456, 9, 2, 9.87654, -6, 5);
    SAME("%s|%10s|%-10s|%.2s|%10.2s|%.*s|%.*s", "abc", "abc", "abc", "abc", "abc", 1, "abc", -1, "abc");
    SAME("%c%5c|%-5c|%c", 'x', 'y', 'z', '\0');
    SAME("%p %p|100%%|%m", (void *)where, NULL);
    SAME("%ls|%.2ls|%lc|%S|%C", L"wide", L"wide", (wint_t)L'w', L"Wide", (wint_t)L'W');
    SAME("%2000d|%s", 5, sixty);
}

static void test_counts(void) {
    CORD out;
    int n = 0;
    long l = 0;
    short h = 0;
    signed char c = 0;
    long long q = 0;
    intmax_t j = 0;
    size_t z = 0;
    ptrdiff_t t = 0;
    CHECK(CORD_sprintf(&out, "a%nb%hnc%hhnd%lne%llnf%jng%znh%tn", &n, &h, &c, &l, &q, &j, &z, &t) == 8 && is_text(out, "abcdefgh"));
    CHECK(n == 1 && h == 2 && c == 3 && l == 4 && q == 5 && j == 6 && z == 7 && t == 8);
}

static int printed_to(FILE *f, CORD format, ...) {
    va_list args;
    va_start(args, format);
    int n = f ? CORD_vfprintf(f, format, args) : CORD_vprintf(format, args);
    va_end(args);
    return n;
}

static int formatted(CORD *out, CORD format, ...) {
    va_list args;
    va_start(args, format);
    int n = CORD_vsprintf(out, format, args);
    va_end(args);
    return n;
}

static void test_cords_printed(void) {
    CORD out = "kept", x = sixty_cord(), big = CORD_chars('b', 1000000);
    CHECK(CORD_sprintf(&out, "[%r]", x) == 62 && CORD_ncmp(out, 1, x, 0, 60) == 0 && CORD_len(out) == 62);
    CHECK(CORD_sprintf(&out, "%.3r|%6.3r|%-6.3r|%*.*r|%r", x, x, x, 5, 2, x, CORD_EMPTY) == 3 + 1 + 6 + 1 + 6 + 1 + 5 + 1);
    CHECK(is_text(out, "the|   the|the   |   th|"));
    CHECK(CORD_sprintf(&out, "%r%r", big, big) == 2000000 && CORD_fetch(out, 1999999) == 'b');
    CHECK(CORD_sprintf(&out, CORD_cat("%d ", CORD_cat(x, "%s")), 5, "end") == 65 && CORD_ncmp(out, 62, "end", 0, 9) == 0);
    CHECK(CORD_sprintf(&out, CORD_EMPTY) == 0 && out == CORD_EMPTY && formatted(&out, "%d-%s", 7, "x") == 3 && is_text(out, "7-x"));
    out = "kept";
    CHECK(CORD_sprintf(&out, "%y", 5) == -1 && CORD_sprintf(&out, "50%") == -1 && CORD_sprintf(&out, "%99999999999d", 5) == -1);
    CHECK(CORD_sprintf(&out, "%r%r", CORD_chars('x', 2000000000), CORD_chars('x', 2000000000)) == -1 && strcmp(out, "kept") == 0);
    FILE *file = tmpfile();
    char back[30] = "";
    CHECK(file && CORD_fprintf(file, "%d,%r;", 5, CORD_substr(x, 4, 5)) == 8 && printed_to(file, "%s", "end") == 3);
    rewind(file);
    CHECK(fgets(back, sizeof back, file) && strcmp(back, "5,quick;end") == 0 && fclose(file) == 0);
}

/* ---- What is written on standard output and standard error, and what ends a program, by a child */

static char told[3000];

/* Runs a child, gathers what it writes, and answers the signal that ended it, or 0. */
static int child(void (*run)(void)) {
    FILE *file = tmpfile();
    CHECK(file && fflush(stdout) == 0);
    pid_t pid = fork();
    if (pid == 0) {
        dup2(fileno(file), 1);
        dup2(fileno(file), 2);
        run();
        exit(0);
    }
    int status;
    CHECK(pid > 0 && waitpid(pid, &status, 0) == pid);
    rewind(file);
    told[fread(told, 1, sizeof told - 1, file)] = '\0';
    fclose(file);
    return WIFSIGNALED(status) ? WTERMSIG(status) : 0;
}

static void print_some(void) {
    if (CORD_printf("%d,%r;", 5, "cord") != 7 || printed_to(NULL, "%s\n", "end") != 4) exit(1);
}

static void dump_some(void) {
    CORD_dump(CORD_EMPTY);
    CORD_dump("abc");
    CORD_dump(CORD_cat(CORD_substr(sixty_cord(), 0, 40), CORD_nul(61)));
}

static void fetch_past(void) { CORD_fetch(sixty_cord(), 60); }
static void fetch_empty(void) { CORD_fetch(CORD_EMPTY, 0); }
static void iterate_past(void) { CORD_iter5(sixty_cord(), 60, first_char, CORD_NO_FN, told); }
static void iterate_back_past(void) { CORD_riter4("abc", 3, first_char, told); }
static void empty_string(void) { CORD_cat("abc", ""); }

static void invalid_position(int way) {
    CORD_pos p;
    CORD_set_pos(p, sixty_cord(), 99);
    if (way == 0) CORD_next(p);
    if (way == 1) CORD_prev(p);
    if (way == 2) CORD_pos_fetch(p);
}

static void next_invalid(void) { invalid_position(0); }
static void prev_invalid(void) { invalid_position(1); }
static void fetch_invalid(void) { invalid_position(2); }

static void handler(void) {
    puts("handler");
    fflush(stdout);
}

static void too_long(void) {
    CORD x = sixty_cord();
    CORD_oom_fn = handler;
    for (int k = 0; k < 40; k++) x = CORD_cat(x, x);
}

static void test_children(void) {
    CHECK(child(print_some) == 0 && strcmp(told, "5,cord;end\n") == 0);
    CHECK(child(dump_some) == 0 && strstr(told, "empty cord\n") && strstr(told, "3 bytes: \"abc\"\n") && strstr(told, " 101 bytes"));
    CHECK(child(fetch_past) == SIGABRT && strcmp(told, "cord: CORD_fetch: the place is not inside the cord\n") == 0);
    CHECK(child(fetch_empty) == SIGABRT && strstr(told, "CORD_fetch"));
    CHECK(child(iterate_past) == SIGABRT && strcmp(told, "cord: CORD_iter5: the place is not inside the cord\n") == 0);
    CHECK(child(iterate_back_past) == SIGABRT && strstr(told, "CORD_riter4: the place"));
    CHECK(child(empty_string) == SIGABRT && strstr(told, "an empty C string"));
    CHECK(child(next_invalid) == SIGABRT && strcmp(told, "cord: CORD_next: the position is not valid\n") == 0);
    CHECK(child(prev_invalid) == SIGABRT && strstr(told, "CORD_prev: the position"));
    CHECK(child(fetch_invalid) == SIGABRT && strstr(told, "CORD_pos_fetch: the position"));
    CHECK(child(too_long) == SIGABRT && strcmp(told, "handler\ncord: out of memory: a cord of 2^40 bytes or more\n") == 0);
}

int main(int argc, char **argv) {
    bool few = argc == 2 && strcmp(argv[1], "few") == 0;
    test_making();
    test_chars();
    if (!few) test_many_pieces();
    test_extensible();
    test_walks();
    test_positions();
    test_searches();
    test_files();
    test_printf();
    test_counts();
    test_cords_printed();
    test_children();
    printf("%ld checks\n", checks);
    return 0;
}
