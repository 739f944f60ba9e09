/* sessions SEED COMMANDS [IMAGE SOURCE]: gives a session random commands of all twelve sorts, a tenth of them wrong, and compares each text with
 * plain arrays; then its image is copied out in pieces, checked by cord_check, taken up again, and gone on with, and a byte of each text is
 * traced back. With two more words the image and its source are written as these files, for `cordkit check`. */
#include "../cord_session.h"
#include <stdio.h>
#include <stdlib.h>
#include <string.h>

enum { MOST = 20000, LONG = 20000, SOURCE = 5000 };

static struct {
    uint8_t *bytes;
    size_t len;
} text[MOST];
static uint32_t count;
static uint8_t source_bytes[SOURCE];
static uint64_t state;

static uint32_t below(uint64_t n) {
    state = state * 6364136223846793005u + 1442695040888963407u;
    return n ? (uint32_t)((state >> 33) % n) : 0;
}

#define CHECK(x)                                                                       \
    do {                                                                               \
        if (!(x)) {                                                                    \
            printf("sessions.c:%d: %s, revision %u\n", __LINE__, #x, (unsigned)count); \
            exit(1);                                                                   \
        }                                                                              \
    } while (0)

struct bytes {
    uint8_t *at;
    size_t len;
};

/* Revision r with n bytes in place of its m bytes from p on. */
static struct bytes spliced(uint32_t r, size_t p, size_t m, const uint8_t *bytes, size_t n) {
    struct bytes out = {malloc(text[r].len - m + n + 1), text[r].len - m + n};
    memcpy(out.at, text[r].bytes, p);
    memcpy(out.at + p, bytes, n);
    memcpy(out.at + p + n, text[r].bytes + p + m, text[r].len - p - m);
    return out;
}

/* Whether the command is right, and its text then. */
static bool model(const struct cord_command *c, struct bytes *out) {
    bool there = c->r < count, other = c->q < count;
    size_t len = there ? text[c->r].len : 0, from = 0, taken = 0;
    bool inside = there && c->p <= len, span = inside && c->n <= len - c->p;
    uint8_t fill[64];
    switch (c->code) {
    case CORD_COMMAND_NEW:
        *out = (struct bytes){malloc(1), 0};
        return true;
    case CORD_COMMAND_OPEN:
        if (c->q != 0) return false;
        *out = (struct bytes){malloc(SOURCE), SOURCE};
        memcpy(out->at, source_bytes, SOURCE);
        return true;
    case CORD_COMMAND_INSERT:
        if (inside && c->bytes_len) *out = spliced(c->r, c->p, 0, c->bytes, c->bytes_len);
        return inside && c->bytes_len;
    case CORD_COMMAND_DELETE:
        if (span) *out = spliced(c->r, c->p, c->n, c->bytes, 0);
        return span;
    case CORD_COMMAND_REPLACE:
        if (span && c->bytes_len) *out = spliced(c->r, c->p, c->n, c->bytes, c->bytes_len);
        return span && c->bytes_len;
    case CORD_COMMAND_PASTE:
        if (!inside || !other || c->i > text[c->q].len || c->n > text[c->q].len - c->i) return false;
        *out = spliced(c->r, c->p, 0, text[c->q].bytes + c->i, c->n);
        return true;
    case CORD_COMMAND_JOIN:
        if (there && other) *out = spliced(c->r, len, 0, text[c->q].bytes, text[c->q].len);
        return there && other;
    case CORD_COMMAND_CUT:
        if (!there || c->i > len || c->n > len - c->i) return false;
        *out = (struct bytes){malloc(c->n + 1), c->n};
        memcpy(out->at, text[c->r].bytes + c->i, c->n);
        return true;
    case CORD_COMMAND_FILL:
        memset(fill, c->byte, sizeof fill);
        if (inside && c->n <= sizeof fill) *out = spliced(c->r, c->p, 0, fill, c->n);
        return inside && c->n <= sizeof fill;
    case CORD_COMMAND_BACK:
    case CORD_COMMAND_BALANCE:
        if (there) *out = spliced(c->r, 0, 0, c->bytes, 0);
        return there;
    case CORD_COMMAND_MANY:
        for (size_t k = 0; k < c->change_count; k++) taken += c->changes[k].n;
        if (!there || c->change_count == 0 || taken != c->bytes_len) return false;
        *out = (struct bytes){malloc(len + taken + 1), 0};
        taken = 0;
        for (size_t k = 0; k < c->change_count; k++) {
            struct cord_change x = c->changes[k];
            memcpy(out->at + out->len, text[c->r].bytes + from, x.p - from);
            memcpy(out->at + out->len + x.p - from, c->bytes + taken, x.n);
            out->len += x.p - from + x.n;
            taken += x.n;
            from = x.p + x.m;
        }
        memcpy(out->at + out->len, text[c->r].bytes + from, len - from);
        out->len += len - from;
        return true;
    default:
        return false;
    }
}

/* Changes of a text of this length, one behind the other; how many bytes they take. */
static size_t choose(struct cord_change *changes, size_t *many, size_t len) {
    size_t place = 0, total = 0;
    for (*many = 0; *many < 8 && below(6);) {
        struct cord_change x = {place + 1 + below(9), below(6), below(5)};
        if (x.p + x.m > len) break;
        if (x.m + x.n == 0) x.n = 1;
        changes[(*many)++] = x;
        place = x.p + x.m;
        total += x.n;
    }
    return total;
}

static struct cord_command random_command(uint8_t *bytes, struct cord_change *changes) {
    uint32_t r = below(count), q = below(count);
    if (count && text[r].len > LONG) r = 0;
    size_t len = count ? text[r].len : 0, other = count ? text[q].len : 0;
    struct cord_command c = {.code = (uint8_t)(1 + below(12)), .byte = (uint8_t)below(256), .r = r, .q = q, .bytes = bytes, .changes = changes};
    for (int k = 0; k < 40; k++) bytes[k] = (uint8_t)below(256);
    c.bytes_len = 1 + below(30);
    c.p = below(len + 1);
    c.i = below(other + 1);
    c.n = below(40);
    if (c.code == CORD_COMMAND_OPEN) c.q = 0;
    if (c.code == CORD_COMMAND_DELETE || c.code == CORD_COMMAND_REPLACE) c.n = below(len - c.p + 1);
    if (c.code == CORD_COMMAND_CUT) c.i = c.p, c.n = below(len - c.p + 1);
    if (c.code == CORD_COMMAND_PASTE) c.n = below(other - c.i + 1 < 3000 ? other - c.i + 1 : 3000);
    if (c.code == CORD_COMMAND_JOIN && len + other > LONG) c.q = 0;
    if (c.code == CORD_COMMAND_MANY) c.bytes_len = choose(changes, &c.change_count, len);
    if (below(10) == 0) {
        switch (below(6)) {
        case 0: c.code = (uint8_t)(13 + below(200)); break;
        case 1: c.r = count + below(3); break;
        case 2: c.p = len + 1 + below(9); break;
        case 3: c.n = (uint64_t)1 << 41; break;
        case 4: c.bytes_len = 0; break;
        default: c.q = count + 3;
        }
    }
    return c;
}

static void same_text(struct cord_session *session, const struct cord_source *source, uint32_t k, const uint8_t *bytes, size_t len) {
    static uint8_t back[4 * LONG];
    uint64_t found = 5;
    size_t all = 0, got = 1;
    CHECK(cord_session_len(session, k, &found) == CORD_DONE && found == len);
    for (; got > 0; all += got) CHECK(cord_session_read(session, source, 1, k, all, back + all, 1 + below(5000), &got) == CORD_DONE);
    CHECK(all == len && memcmp(back, bytes, len) == 0);
}

static void sought(struct cord_session *session, const struct cord_source *source, uint32_t k, const uint8_t *bytes, size_t len) {
    size_t i = below(len + 2), at = i;
    uint64_t found = 5;
    uint32_t order = 5;
    struct cord_run run;
    uint8_t byte = (uint8_t)below(256);
    CHECK(cord_session_locate(session, k, i, &run) == (i < len ? CORD_DONE : CORD_RANGE));
    while (at < len && bytes[at] != byte) at++;
    CHECK(cord_session_chr(session, source, 1, k, i, byte, &found) == CORD_DONE && found == (at < len ? at : UINT64_MAX));
    CHECK(cord_session_find(session, source, 1, k, i, &byte, 1, &found) == CORD_DONE && found == (at < len ? at : UINT64_MAX));
    for (at = i < len ? i : len - 1; at < len && bytes[at] != byte;) at--;
    CHECK(cord_session_rchr(session, source, 1, k, i, byte, &found) == CORD_DONE && found == (at < len ? at : UINT64_MAX));
    CHECK(cord_session_compare(session, source, 1, k, 0, k, 0, 100, &order) == CORD_DONE && order == 1);
}

/* The command of revision k, as it was given where the pool had so many bytes. */
static void told(struct cord_session *session, uint32_t k, const struct cord_command *c, uint64_t pool) {
    static const char *const used[] = {"", "", "q", "rpan", "rpN", "rpman", "rpqIN", "rq", "rIN", "rpcN", "r", "r", "rk"};
    struct cord_edit wanted = {.code = c->code}, edit;
    for (const char *use = used[c->code]; *use; use++) switch (*use) {
        case 'r': wanted.r = c->r; break;
        case 'q': wanted.q = c->q; break;
        case 'p': wanted.p = c->p; break;
        case 'm': wanted.m = c->n; break;
        case 'a': wanted.a = pool; break;
        case 'n': wanted.n = c->bytes_len; break;
        case 'N': wanted.n = c->n; break;
        case 'I': wanted.a = c->i; break;
        case 'c': wanted.a = c->byte; break;
        default: wanted.q = (uint32_t)c->change_count;
        }
    CHECK(cord_session_edit(session, k, &edit) == CORD_DONE && edit.balanced <= 1);
    CHECK(c->code != CORD_COMMAND_BALANCE || edit.balanced || text[k].len == 0);
    wanted.balanced = edit.balanced;
    CHECK(memcmp(&edit, &wanted, sizeof edit) == 0);
    CHECK(cord_session_edit(session, count, &edit) == CORD_NO_REVISION && memcmp(&edit, &wanted, sizeof edit) == 0);
}

/* The byte at a place, and those that came in with it, stood where its origin says; the session's image tells the same. */
static void traced(struct cord_session *session, const struct cord_image *image, uint32_t k) {
    size_t len = text[k].len, i = below(len + 2);
    struct cord_origin origin = {0}, other = {0};
    CHECK(cord_session_origin(session, k, i, &origin) == (i < len ? CORD_DONE : CORD_RANGE));
    CHECK(cord_origin(image, k, i, &other) == (i < len) && memcmp(&origin, &other, sizeof origin) == 0);
    if (i >= len) return;
    CHECK(origin.len >= 1 && origin.len <= len - i && origin.revision <= k && origin.place + origin.len <= text[origin.revision].len);
    CHECK(memcmp(text[origin.revision].bytes + origin.place, text[k].bytes + i, origin.len) == 0);
}

static void write_file(const char *name, const uint8_t *bytes, size_t len) {
    FILE *file = fopen(name, "wb");
    CHECK(file && fwrite(bytes, 1, len, file) == len && fclose(file) == 0);
}

int main(int argc, char **argv) {
    if (argc != 3 && argc != 5) return puts("sessions SEED COMMANDS [IMAGE SOURCE]"), 2;
    state = strtoull(argv[1], 0, 10) * 977 + 5;
    for (size_t k = 0; k < SOURCE; k++) source_bytes[k] = (uint8_t)below(256);
    struct cord_source source = {source_bytes, SOURCE, SOURCE};
    struct cord_session session = CORD_SESSION_NONE, again = CORD_SESSION_NONE;
    struct cord_verdict verdict, checked;
    struct cord_sizes sizes;
    uint32_t number = 9;
    uint64_t len = 9;
    long wrong = 0;
    CHECK(cord_session_len(&session, 0, &len) == CORD_CLOSED && len == 9);
    CHECK(cord_session_begin(&session) == CORD_DONE && cord_session_add_source(&session, SOURCE, &number) == CORD_DONE && number == 0);
    for (long commands = strtol(argv[2], 0, 10); commands > 0 && count < MOST - 1; commands--) {
        static uint8_t bytes[40];
        static struct cord_change changes[8];
        struct bytes wanted = {0};
        struct cord_command c = random_command(bytes, changes);
        bool right = model(&c, &wanted);
        CHECK(cord_session_sizes(&session, &sizes) == CORD_DONE);
        uint32_t k = 77, answer = cord_session_apply(&session, &c, &k);
        CHECK((answer == CORD_DONE) == right && k == (right ? count : 77));
        if (!right) {
            CHECK(answer == CORD_NO_COMMAND || (answer >= CORD_NO_REVISION && answer <= CORD_MANY_SPLICES) || answer == CORD_TOO_LONG);
            wrong++;
            continue;
        }
        text[count].bytes = wanted.at;
        text[count].len = wanted.len;
        count++;
        told(&session, k, &c, sizes.pool);
        same_text(&session, &source, k, wanted.at, wanted.len);
        sought(&session, &source, k, wanted.at, wanted.len);
    }
    CHECK(cord_session_sizes(&session, &sizes) == CORD_DONE && sizes.revisions == count && sizes.sources == 1);
    CHECK(cord_session_len(&session, count, &len) == CORD_NO_REVISION && len == 9);

    CHECK(cord_session_save(&session, &len) == CORD_DONE);
    uint8_t *image = malloc(len);
    size_t done = 0, got = 1;
    for (; got > 0; done += got) {
        size_t room = 1 + below(100000);
        CHECK(cord_session_saved(&session, done, image + done, room < len - done ? room : len - done, &got) == CORD_DONE);
    }
    CHECK(done == len && cord_check(image, len, &source, 1, &checked) && checked.revisions == count);
    struct cord_image opened = CORD_IMAGE_NONE;
    struct cord_origin origin = {0};
    CHECK(cord_open(image, len, &source, 1, &opened, &checked));
    for (uint32_t k = 0; k < count; k++) traced(&session, &opened, k);
    CHECK(cord_session_origin(&session, count, 0, &origin) == CORD_NO_REVISION && origin.len == 0);
    CHECK(cord_session_forget(&session) == CORD_DONE && cord_session_saved(&session, 0, image, len, &got) == CORD_DONE && got == 0);
    CHECK(cord_session_resume(&again, image, len, &source, 1, &verdict) == CORD_DONE && memcmp(&verdict, &checked, sizeof verdict) == 0);
    for (uint32_t k = 0; k < count; k++) same_text(&again, &source, k, text[k].bytes, text[k].len);
    struct cord_command back = {.code = CORD_COMMAND_BACK, .r = 0, .bytes = cord_nothing, .changes = cord_no_changes};
    CHECK(cord_session_apply(&again, &back, &number) == CORD_DONE && number == count);
    if (argc == 5) write_file(argv[3], image, len), write_file(argv[4], source_bytes, SOURCE);
    image[0] ^= 1;
    CHECK(cord_session_resume(&again, image, len, &source, 1, &verdict) == CORD_REFUSED && verdict.code == 1 && verdict.kind == 3);
    same_text(&again, &source, count, text[0].bytes, text[0].len);
    for (uint32_t k = 0; k < count; k++) free(text[k].bytes);
    free(image);
    cord_session_end(&session);
    cord_session_end(&again);
    CHECK(cord_session_save(&again, &len) == CORD_CLOSED);
    printf("%u revisions, %ld refused\n", (unsigned)count, wrong);
    return 0;
}
