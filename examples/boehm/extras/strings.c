/* Cords from and to characters, strings and files, and cords that are appended to. */
#include "extras.h"
#include <limits.h>
#include <stdint.h>
#include <stdlib.h>
#include <string.h>

void stop_extra(const char *call, const char *why) {
    fprintf(stderr, "cord: %s: %s\n", call, why);
    abort();
}

char *room_for(size_t n) {
    char *room = malloc(n);
    if (room) return room;
    if (CORD_oom_fn) CORD_oom_fn();
    stop_extra("out of memory", "malloc refuses");
}

struct kept {
    struct kept *earlier;
    char bytes[];
};

/* From here all of them can be reached, so that none counts as lost. */
static struct kept *last_kept;

char *kept_room(size_t n) {
    struct kept *kept = (void *)room_for(sizeof *kept + n);
    kept->earlier = last_kept;
    last_kept = kept;
    return kept->bytes;
}

static char kept_byte(size_t i, void *bytes) { return ((const char *)bytes)[i]; }

CORD append_kept(CORD x, char *bytes, size_t n) {
    return memchr(bytes, '\0', n) ? CORD_cat(x, CORD_from_fn(kept_byte, bytes, n)) : CORD_cat_char_star(x, bytes, n);
}

/* ---- Characters */

static char same_char(size_t i, void *c) {
    (void)i;
    return (char)(intptr_t)c;
}

/* 1,024 of them, and then each cord twice: some fifty nodes at most, however many they are. */
CORD CORD_chars(char c, size_t i) {
    size_t few = i < 1024 ? i : 1024;
    if (i == 0) return CORD_EMPTY;
    CORD piece = CORD_from_fn(same_char, (void *)(intptr_t)c, few), all = CORD_substr(piece, 0, i % few);
    for (size_t count = i / few; count > 0; count /= 2) {
        if (count % 2) all = CORD_cat(all, piece);
        if (count > 1) piece = CORD_cat(piece, piece);
    }
    return all;
}

CORD CORD_cat_char(CORD x, char c) {
    static char strings[UCHAR_MAX + 1][2];
    char *string = strings[(unsigned char)c];
    string[0] = c;
    return c ? CORD_cat_char_star(x, string, 1) : CORD_cat(x, CORD_nul(1));
}

CORD CORD_catn(int n, ...) {
    va_list cords;
    CORD all = CORD_EMPTY;
    va_start(cords, n);
    for (int k = 0; k < n; k++) all = CORD_cat(all, va_arg(cords, CORD));
    va_end(cords);
    return all;
}

/* ---- Strings */

static int put_char(char c, void *to) {
    *(*(char **)to)++ = c;
    return 0;
}

static int put_string(const char *s, void *to) {
    size_t n = strlen(s);
    memcpy(*(char **)to, s, n);
    *(char **)to += n;
    return 0;
}

char *CORD_to_char_star(CORD x) {
    char *string = room_for(CORD_len(x) + 1), *to = string;
    if (x) CORD_iter5(x, 0, put_char, put_string, &to);
    *to = '\0';
    return string;
}

const char *CORD_to_const_char_star(CORD x) { return !x ? "" : CORD_IS_STRING(x) ? x : CORD_to_char_star(x); }

CORD CORD_from_char_star(const char *s) {
    size_t n = strlen(s);
    return n == 0 ? CORD_EMPTY : memcpy(kept_room(n + 1), s, n + 1);
}

/* ---- Files: each is read at once, to its end, and closed: by eager from where it stands, by the others from its first byte on. */

CORD CORD_from_file_eager(FILE *f) {
    CORD all = CORD_EMPTY;
    for (size_t piece = 1024; !feof(f) && !ferror(f); piece = piece < 65536 ? 2 * piece : piece) {
        char *bytes = kept_room(piece + 1);
        size_t n = fread(bytes, 1, piece, f);
        bytes[n] = '\0';
        all = append_kept(all, bytes, n);
    }
    if (ferror(f) || fclose(f) != 0) stop_extra("CORD_from_file", "the file cannot be read");
    return all;
}

CORD CORD_from_file_lazy(FILE *f) {
    if (fseek(f, 0, SEEK_SET) != 0) stop_extra("CORD_from_file", "the file cannot be sought in");
    return CORD_from_file_eager(f);
}

CORD CORD_from_file(FILE *f) { return CORD_from_file_lazy(f); }

static int write_char(char c, void *f) { return putc(c, f) == EOF; }
static int write_string(const char *s, void *f) { return fputs(s, f) == EOF; }
int CORD_put(CORD x, FILE *f) { return x && CORD_iter5(x, 0, write_char, write_string, f) ? EOF : 1; }

/* ---- Cords that are appended to */

void CORD_ec_flush_buf(CORD_ec x) {
    size_t n = (size_t)(x[0].ec_bufptr - x[0].ec_buf);
    if (n == 0) return;
    char *bytes = kept_room(n + 1);
    memcpy(bytes, x[0].ec_buf, n);
    bytes[n] = '\0';
    x[0].ec_cord = append_kept(x[0].ec_cord, bytes, n);
    x[0].ec_bufptr = x[0].ec_buf;
}

void CORD_ec_append_cord(CORD_ec x, CORD s) {
    CORD_ec_flush_buf(x);
    x[0].ec_cord = CORD_cat(x[0].ec_cord, s);
}
