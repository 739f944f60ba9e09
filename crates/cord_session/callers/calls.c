/* calls: carries out the calls on standard input, a line each, and answers each on a line: its code, and what it tells. compare.py gives the same
 * lines to the callers in each language. A line is `s`, for the session, a call, numbers and bytes; bytes are spelled in hexadecimal, none as `-`,
 * and numbers that are too large become the largest. An answer that was written although the call was refused is told as WRITTEN. */
#include "../cord_session.h"
#include <inttypes.h>
#include <stdio.h>
#include <stdlib.h>
#include <string.h>

enum { UNTOUCHED = 0xAA, MOST_CHANGES = 10000 };

struct bytes {
    uint8_t *at;
    size_t len;
};

static struct cord_session session = CORD_SESSION_NONE;
static struct cord_source sources[256];
static size_t source_count;

static const char *word(void) {
    const char *found = strtok(NULL, " \n");
    return found ? found : "";
}

static uint64_t number(void) { return strtoull(word(), NULL, 10); }

static uint32_t narrow(void) {
    uint64_t n = number();
    return n < UINT32_MAX ? (uint32_t)n : UINT32_MAX;
}

static struct bytes bytes_of(const char *hex) {
    struct bytes found = {malloc(strlen(hex) / 2 + 1), 0};
    unsigned byte;
    for (; *hex != '-' && sscanf(hex, "%2x", &byte) == 1; hex += 2) found.at[found.len++] = (uint8_t)byte;
    return found;
}

static struct bytes bytes(void) { return bytes_of(word()); }

static void only(uint32_t code) { printf("%" PRIu32 "\n", code); }

static void told(uint32_t code, uint64_t answer) {
    if (code != CORD_DONE && answer != UNTOUCHED) puts("WRITTEN");
    else if (code != CORD_DONE) only(code);
    else if (answer == UINT64_MAX) puts("0 none");
    else printf("0 %" PRIu64 "\n", answer);
}

/* The commands, with the fields that each has in its order: see struct cord_command; b is its byte, t its bytes, c its changes. */
static const struct {
    const char *name, *fields;
} commands[] = {{"code", ""}, {"new", ""}, {"open", "q"}, {"insert", "rpt"}, {"delete", "rpn"}, {"replace", "rpnt"}, {"paste", "rpqin"},
                {"join", "rq"}, {"cut", "rin"}, {"fill", "rpbn"}, {"back", "r"}, {"balance", "r"}, {"many", "rtc"}};

static void take_field(struct cord_command *c, char field, struct bytes *given) {
    static struct cord_change changes[MOST_CHANGES];
    switch (field) {
    case 'r': c->r = narrow(); break;
    case 'q': c->q = narrow(); break;
    case 'p': c->p = number(); break;
    case 'i': c->i = number(); break;
    case 'n': c->n = number(); break;
    case 'b': c->byte = (uint8_t)number(); break;
    case 't':
        *given = bytes();
        c->bytes = given->at;
        c->bytes_len = given->len;
        break;
    default:
        c->changes = changes;
        c->change_count = number();
        for (size_t k = 0; k < c->change_count; k++) changes[k].p = number(), changes[k].m = number(), changes[k].n = number();
    }
}

static void apply(const char *name) {
    struct cord_command c = {.bytes = cord_nothing, .changes = cord_no_changes};
    struct bytes given = {0};
    uint32_t revision = UNTOUCHED, code;
    size_t k = sizeof commands / sizeof *commands;
    while (k > 0 && strcmp(name, commands[--k].name) != 0) continue;
    c.code = k == 0 ? (uint8_t)number() : (uint8_t)k;
    for (const char *field = commands[k].fields; *field; field++) take_field(&c, *field, &given);
    code = cord_session_apply(&session, &c, &revision);
    told(code, revision);
    free(given.at);
}

static void read_part(uint32_t revision, uint64_t place, size_t room) {
    uint8_t *out = malloc(room + 1);
    size_t got = UNTOUCHED, k;
    memset(out, UNTOUCHED, room + 1);
    uint32_t code = cord_session_read(&session, sources, source_count, revision, place, out, room, &got);
    for (k = code == CORD_UNHELD ? room : got; k < room && out[k] == UNTOUCHED;) k++;
    if (k < room || (code != CORD_DONE && got > 0)) puts("WRITTEN");
    else printf(got ? "%" PRIu32 " " : code ? "%" PRIu32 : "%" PRIu32 " -", code);
    for (k = 0; k < got; k++) printf("%02x", out[k]);
    putchar('\n');
    free(out);
}

static void add_source(bool is_held) {
    struct bytes held = is_held ? bytes() : bytes_of("-");
    struct cord_source source = {held.at, held.len, is_held ? held.len : number()};
    uint32_t made = UNTOUCHED, code = cord_session_add_source(&session, source.size, &made);
    if (code == CORD_DONE) sources[source_count++] = source;
    told(code, made);
}

static void save(const char *name) {
    uint64_t len = UNTOUCHED, at = 0;
    size_t got = 1;
    uint8_t piece[1000];
    uint32_t code = cord_session_save(&session, &len);
    FILE *file = code == CORD_DONE ? fopen(name, "wb") : NULL;
    for (; file && got > 0 && cord_session_saved(&session, at, piece, sizeof piece, &got) == CORD_DONE; at += got) fwrite(piece, 1, got, file);
    if (file) fclose(file);
    if (file) cord_session_forget(&session);
    told(code, !file || at == len ? len : UNTOUCHED);
}

static void resume(const char *name) {
    static uint8_t image[1 << 22];
    struct cord_source given[256] = {{cord_nothing, 0, 0}};
    struct cord_verdict v;
    size_t count = 0;
    FILE *file = fopen(name, "rb");
    if (!file) exit(3);
    size_t len = fread(image, 1, sizeof image, file);
    fclose(file);
    for (const char *hex; *(hex = word()); count++) {
        struct bytes held = bytes_of(hex);
        given[count] = (struct cord_source){held.at, held.len, held.len};
    }
    uint32_t code = cord_session_resume(&session, image, len, given, count, &v);
    if (code == CORD_DONE) source_count = count, memcpy(sources, given, sizeof sources);
    for (size_t k = 0; code != CORD_DONE && k < count; k++) free((void *)given[k].bytes);
    printf("%" PRIu32 " %" PRIu32 " %" PRIu32 " %" PRIu32 "\n", code, v.code, v.revisions, v.rows);
}

static void carry_out(const char *call) {
    uint64_t answer = UNTOUCHED, from;
    uint32_t revision, code;
    if (!strcmp(call, "begin")) source_count = 0, only(cord_session_begin(&session));
    else if (!strcmp(call, "end")) cord_session_end(&session), only(CORD_DONE);
    else if (!strcmp(call, "source") || !strcmp(call, "length")) add_source(*call == 's');
    else if (!strcmp(call, "save")) save(word());
    else if (!strcmp(call, "resume")) resume(word());
    else if (!strcmp(call, "len")) code = cord_session_len(&session, narrow(), &answer), told(code, answer);
    else if (!strcmp(call, "read")) revision = narrow(), from = number(), read_part(revision, from, number());
    else if (!strcmp(call, "find")) {
        revision = narrow();
        from = number();
        struct bytes pattern = bytes();
        code = cord_session_find(&session, sources, source_count, revision, from, pattern.at, pattern.len, &answer);
        told(code, answer);
        free(pattern.at);
    } else apply(call);
}

int main(void) {
    static char line[1 << 20];
    while (fgets(line, sizeof line, stdin)) {
        strtok(line, " \n");
        carry_out(word());
    }
    cord_session_end(&session);
    return 0;
}
