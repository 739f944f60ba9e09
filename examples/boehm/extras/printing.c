/* The printf family. A directive is handed to vsnprintf with its argument, but for %r, %n and %%. */
#include "extras.h"
#include <limits.h>
#include <stdarg.h>
#include <stdbool.h>
#include <stddef.h>
#include <stdint.h>
#include <stdlib.h>
#include <string.h>
#include <wchar.h>

struct directive {
    char native[64];      /* as vsnprintf takes it: widths that are arguments are numbers here */
    int width, precision; /* -1 where there is no precision */
    char length;          /* 0, or h l j z t L, H for hh, q for ll */
    char conversion;
};

struct printed {
    CORD_ec text;
    size_t count;
    va_list args;
};

/* ---- Reading a directive */

static char look(CORD_pos p) { return CORD_pos_valid(p) ? CORD_pos_fetch(p) : '\0'; }

/* The character at the position, which is moved past it; 0 at the end. */
static char take(CORD_pos p) {
    char c = look(p);
    if (CORD_pos_valid(p)) CORD_next(p);
    return c;
}

static bool is_one_of(char c, const char *some) { return c && strchr(some, c); }

/* A number, which may be an argument. False: it is over INT_MAX. */
static bool read_number(struct printed *o, CORD_pos p, int *number) {
    *number = 0;
    if (look(p) == '*') {
        take(p);
        *number = va_arg(o->args, int);
        return *number > INT_MIN;
    }
    while (is_one_of(look(p), "0123456789")) {
        int digit = take(p) - '0';
        if (*number > (INT_MAX - digit) / 10) return false;
        *number = 10 * *number + digit;
    }
    return true;
}

static void add_flag(struct directive *d, char c) {
    size_t n = strlen(d->native);
    if (!strchr(d->native, c)) d->native[n] = c;
}

/* What stands behind a %. Each flag is kept once, so native has room for it. False: there is no such directive. */
static bool read_directive(struct printed *o, CORD_pos p, struct directive *d) {
    *d = (struct directive){.native = "%", .precision = -1};
    while (is_one_of(look(p), "-+ #0'I")) add_flag(d, take(p));
    if (!read_number(o, p, &d->width)) return false;
    if (d->width < 0) {
        add_flag(d, '-');
        d->width = -d->width;
    }
    if (look(p) == '.') {
        take(p);
        if (!read_number(o, p, &d->precision)) return false;
    }
    if (is_one_of(look(p), "hljztLq")) d->length = take(p);
    if (is_one_of(d->length, "hl") && look(p) == d->length) d->length = take(p) == 'h' ? 'H' : 'q';
    d->conversion = take(p);
    char *to = d->native + strlen(d->native);
    if (d->width > 0) to += sprintf(to, "%d", d->width);
    if (d->precision >= 0) to += sprintf(to, ".%d", d->precision);
    const char *length = d->length == 'H' ? "hh" : d->length == 'q' ? "ll" : (char[2]){d->length, '\0'};
    sprintf(to, "%s%c", length, d->conversion);
    return true;
}

/* ---- Writing what it gives */

static void add_char(struct printed *o, char c) {
    CORD_ec_append(o->text, c);
    o->count++;
}

static bool add_native(struct printed *o, const char *native, ...) {
    char few[256];
    va_list args, again;
    va_start(args, native);
    va_copy(again, args);
    int n = vsnprintf(few, sizeof few, native, args);
    if (n >= (int)sizeof few) {
        char *bytes = kept_room((size_t)n + 1);
        vsnprintf(bytes, (size_t)n + 1, native, again);
        CORD_ec_append_cord(o->text, append_kept(CORD_EMPTY, bytes, (size_t)n));
        o->count += (size_t)n;
    } else {
        for (int k = 0; k < n; k++) add_char(o, few[k]);
    }
    va_end(again);
    va_end(args);
    return n >= 0;
}

static bool add_integer(struct printed *o, const struct directive *d) {
    switch (d->length) {
    case 'l': return add_native(o, d->native, va_arg(o->args, long));
    case 'L':
    case 'q': return add_native(o, d->native, va_arg(o->args, long long));
    case 'j': return add_native(o, d->native, va_arg(o->args, intmax_t));
    case 'z': return add_native(o, d->native, va_arg(o->args, size_t));
    case 't': return add_native(o, d->native, va_arg(o->args, ptrdiff_t));
    default: return add_native(o, d->native, va_arg(o->args, int));
    }
}

static bool add_cord(struct printed *o, const struct directive *d) {
    CORD x = va_arg(o->args, CORD);
    if (d->precision >= 0) x = CORD_substr(x, 0, (size_t)d->precision);
    size_t len = CORD_len(x), width = (size_t)d->width;
    CORD blanks = CORD_chars(' ', width > len ? width - len : 0);
    CORD_ec_append_cord(o->text, strchr(d->native, '-') ? CORD_cat(x, blanks) : CORD_cat(blanks, x));
    o->count += width > len ? width : len;
    return true;
}

static bool tell_count(struct printed *o, char length) {
    switch (length) {
    case 'H': *va_arg(o->args, signed char *) = (signed char)o->count; break;
    case 'h': *va_arg(o->args, short *) = (short)o->count; break;
    case 'l': *va_arg(o->args, long *) = (long)o->count; break;
    case 'L':
    case 'q': *va_arg(o->args, long long *) = (long long)o->count; break;
    case 'j': *va_arg(o->args, intmax_t *) = (intmax_t)o->count; break;
    case 'z': *va_arg(o->args, size_t *) = o->count; break;
    case 't': *va_arg(o->args, ptrdiff_t *) = (ptrdiff_t)o->count; break;
    default: *va_arg(o->args, int *) = (int)o->count;
    }
    return true;
}

static bool add_directive(struct printed *o, const struct directive *d) {
    switch (d->conversion) {
    case '%': return add_char(o, '%'), true;
    case 'r': return add_cord(o, d);
    case 'n': return tell_count(o, d->length);
    case 'm': return add_native(o, d->native);
    case 'p': return add_native(o, d->native, va_arg(o->args, void *));
    case 'd': case 'i': case 'o': case 'u': case 'x': case 'X': return add_integer(o, d);
    case 'a': case 'A': case 'e': case 'E': case 'f': case 'F': case 'g': case 'G':
        return d->length == 'L' ? add_native(o, d->native, va_arg(o->args, long double)) : add_native(o, d->native, va_arg(o->args, double));
    case 'c': return d->length == 'l' ? add_native(o, d->native, va_arg(o->args, wint_t)) : add_native(o, d->native, va_arg(o->args, int));
    case 'C': return add_native(o, d->native, va_arg(o->args, wint_t));
    case 's': return d->length == 'l' ? add_native(o, d->native, va_arg(o->args, wchar_t *)) : add_native(o, d->native, va_arg(o->args, char *));
    case 'S': return add_native(o, d->native, va_arg(o->args, wchar_t *));
    default: return false;
    }
}

/* ---- The family */

int CORD_vsprintf(CORD *out, CORD format, va_list args) {
    struct printed o;
    struct directive d;
    CORD_pos p;
    bool done = true;
    o.count = 0;
    CORD_ec_init(o.text);
    va_copy(o.args, args);
    CORD_set_pos(p, format, 0);
    while (done && CORD_pos_valid(p)) {
        char c = take(p);
        if (c == '%') done = read_directive(&o, p, &d) && add_directive(&o, &d);
        else add_char(&o, c);
    }
    va_end(o.args);
    if (!done || o.count > INT_MAX) return -1;
    *out = CORD_ec_to_cord(o.text);
    return (int)o.count;
}

int CORD_sprintf(CORD *out, CORD format, ...) {
    va_list args;
    va_start(args, format);
    int count = CORD_vsprintf(out, format, args);
    va_end(args);
    return count;
}

int CORD_vfprintf(FILE *f, CORD format, va_list args) {
    CORD out;
    int count = CORD_vsprintf(&out, format, args);
    return count < 0 || CORD_put(out, f) == EOF ? -1 : count;
}

int CORD_fprintf(FILE *f, CORD format, ...) {
    va_list args;
    va_start(args, format);
    int count = CORD_vfprintf(f, format, args);
    va_end(args);
    return count;
}

int CORD_vprintf(CORD format, va_list args) { return CORD_vfprintf(stdout, format, args); }

int CORD_printf(CORD format, ...) {
    va_list args;
    va_start(args, format);
    int count = CORD_vfprintf(stdout, format, args);
    va_end(args);
    return count;
}
