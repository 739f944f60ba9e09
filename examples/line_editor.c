/* line_editor IMAGE: edits a text by lines, and keeps each state of it in IMAGE, which `cordkit check` accepts; where there is none, it begins one.
 * A beginning for an editor over cord_session.h. Its commands, each on a line; lines are counted from 1:
 *   print [FROM [TO]]    insert LINE TEXT    delete FROM [TO]    find TEXT    undo    back REVISION    save    quit
 * insert puts a line in before LINE, or at the end where LINE is one more than there are. undo takes back the last change of this run that it has
 * not taken back yet; back gives the text of any revision. */
#define _POSIX_C_SOURCE 200809L
#include <cordkit/cord_session.h>
#include <errno.h>
#include <inttypes.h>
#include <stdio.h>
#include <stdlib.h>
#include <string.h>
#include <unistd.h>

#define NONE UINT64_MAX

static struct cord_session session = CORD_SESSION_NONE;
static uint32_t last;    /* the revision that is edited: the last one */
static uint32_t *before; /* what undo goes back to from each revision of this run, or UINT32_MAX */
static bool is_saved = true;
static uint8_t piece[65536];

static void stop(const char *what) {
    perror(what);
    exit(3);
}

/* Whether a call did what it was asked; else its code is told. */
static bool done(uint32_t code) {
    if (code != CORD_DONE) printf("refused %" PRIu32 "\n", code);
    return code == CORD_DONE;
}

/* Where the line behind this one begins, or the end; behind the end NONE. */
static uint64_t next_line(uint64_t place) {
    uint64_t found = NONE, len = 0;
    if (!done(cord_session_len(&session, last, &len)) || place >= len) return NONE;
    if (!done(cord_session_chr(&session, cord_no_sources, 0, last, place, '\n', &found))) return NONE;
    return found == NONE ? len : found + 1;
}

static uint64_t start_of(uint64_t line) {
    uint64_t place = line == 0 ? NONE : 0;
    for (; line > 1 && place != NONE; line--) place = next_line(place);
    return place;
}

/* Makes the next revision, and notes what undo goes back to from there. */
static void apply(uint8_t code, uint32_t r, uint64_t p, uint64_t n, const uint8_t *bytes, size_t len, uint32_t undone) {
    struct cord_command command = {.code = code, .r = r, .p = p, .n = n, .bytes = bytes, .bytes_len = len, .changes = cord_no_changes};
    uint32_t *more = realloc(before, (last + 2) * sizeof *more);
    if (!more) stop("memory");
    before = more;
    if (!done(cord_session_apply(&session, &command, &last))) return;
    before[last] = undone;
    is_saved = false;
}

static void insert(uint64_t line, uint8_t *text, size_t size) {
    uint64_t place = start_of(line);
    size_t got = 0;
    text[size++] = '\n';
    if (place > 0 && place != NONE) done(cord_session_read(&session, cord_no_sources, 0, last, place - 1, piece, 1, &got));
    if (got > 0 && piece[0] != '\n') { /* the last line has no end: that comes in front, and this one has none */
        memmove(text + 1, text, size - 1);
        text[0] = '\n';
    }
    if (place == NONE) puts("no such line");
    else apply(CORD_COMMAND_INSERT, last, place, 0, text, size, last);
}

static void delete_lines(uint64_t from, uint64_t to) {
    uint64_t start = start_of(from), end = to < from || start == NONE ? NONE : start;
    for (; from <= to && end != NONE; from++) end = next_line(end);
    if (end == NONE) puts("no such line");
    else apply(CORD_COMMAND_DELETE, last, start, end - start, cord_nothing, 0, last);
}

/* Prints lines, and answers where the one behind them begins. */
static uint64_t print(uint64_t start, uint64_t from, uint64_t to) {
    uint64_t end;
    for (; from <= to && (end = next_line(start)) != NONE; from++) {
        size_t got = 1;
        printf("%" PRIu64 "\t", from);
        for (; start < end && got > 0; start += got) {
            size_t room = end - start < sizeof piece ? (size_t)(end - start) : sizeof piece;
            if (!done(cord_session_read(&session, cord_no_sources, 0, last, start, piece, room, &got))) return NONE;
            fwrite(piece, 1, got, stdout);
        }
        if (got > 0 && piece[got - 1] != '\n') putchar('\n');
    }
    return start;
}

/* Prints each line on which the text stands. */
static void find(const uint8_t *text, size_t size) {
    uint64_t line = 1, start = 0, end, found;
    while (start != NONE && done(cord_session_find(&session, cord_no_sources, 0, last, start, text, size, &found)) && found != NONE) {
        for (; (end = next_line(start)) != NONE && end <= found; line++) start = end;
        start = end == NONE ? NONE : print(start, line, line);
        line++;
    }
}

/* Writes the image beside the one that is there, and then puts it in its place: where that fails, the old one stays, and so does the session. */
static void save(const char *name) {
    uint64_t len = 0, at = 0;
    size_t got = 0, size = strlen(name) + 5;
    char *beside = malloc(size);
    if (!beside) stop("memory");
    snprintf(beside, size, "%s.new", name);
    errno = ENOMEM;
    FILE *file = done(cord_session_save(&session, &len)) ? fopen(beside, "wb") : NULL;
    bool is_whole = file != NULL;
    for (; is_whole && at < len; at += got)
        is_whole = cord_session_saved(&session, at, piece, sizeof piece, &got) == CORD_DONE && fwrite(piece, 1, got, file) == got;
    is_whole = is_whole && fflush(file) == 0 && fsync(fileno(file)) == 0;
    if (file && fclose(file) != 0) is_whole = false;
    is_whole = is_whole && rename(beside, name) == 0;
    if (is_whole) printf("saved %" PRIu32 "\n", last);
    else printf("not saved: %s\n", strerror(errno));
    if (!is_whole && file) remove(beside);
    is_saved = is_saved || is_whole;
    cord_session_forget(&session);
    free(beside);
}

/* Goes on from the image of this name, or begins one. */
static void open_image(const char *name) {
    struct cord_verdict verdict;
    struct cord_sizes sizes = {0};
    FILE *file = fopen(name, "rb");
    uint8_t *image = malloc(1);
    size_t len = 0, got;
    if (!file && errno != ENOENT) stop(name);
    for (; image && file && (got = fread(piece, 1, sizeof piece, file)) > 0; len += got)
        if ((image = realloc(image, len + got))) memcpy(image + len, piece, got);
    if (!image || (file && ferror(file))) stop(name);
    uint32_t code = file ? cord_session_resume(&session, image, len, cord_no_sources, 0, &verdict) : cord_session_begin(&session);
    if (file) fclose(file);
    free(image);
    if (code == CORD_REFUSED) printf("%s is refused: C%" PRIu32 "\n", name, verdict.code);
    if (code == CORD_REFUSED || !done(code) || !done(cord_session_sizes(&session, &sizes))) exit(1);
    last = sizes.revisions > 0 ? sizes.revisions - 1 : 0;
    if (!(before = malloc((last + 1) * sizeof *before))) stop("memory");
    before[last] = UINT32_MAX;
    if (sizes.revisions > 0) return;
    apply(CORD_COMMAND_NEW, 0, 0, 0, cord_nothing, 0, UINT32_MAX);
    is_saved = true;
}

/* Carries out the command on a line; false where it ends the program. */
static bool carry_out(char *line, size_t len, const char *name) {
    static bool is_warned = false;
    bool was_warned = is_warned;
    uint64_t from = 1, to = NONE;
    int at = 0, words = sscanf(line, "%*s %" SCNu64 " %" SCNu64, &from, &to);
    if (words == 1) to = from;
    is_warned = strcmp(line, "quit") == 0;
    if (is_warned && (is_saved || was_warned)) return false;
    if (is_warned) puts("not saved: quit once more, or save");
    else if (strncmp(line, "print", 5) == 0 && start_of(from) == NONE) puts("no such line");
    else if (strncmp(line, "print", 5) == 0) print(start_of(from), from, to);
    else if (sscanf(line, "insert %*u%n", &at) == 0 && at > 0 && line[at] == ' ') insert(from, (uint8_t *)line + at + 1, len - (size_t)at - 1);
    else if (strncmp(line, "delete ", 7) == 0 && words >= 1) delete_lines(from, to);
    else if (strncmp(line, "find ", 5) == 0) find((uint8_t *)line + 5, len - 5);
    else if (strcmp(line, "undo") == 0 && before[last] == UINT32_MAX) puts("nothing to undo");
    else if (strcmp(line, "undo") == 0) apply(CORD_COMMAND_BACK, before[last], 0, 0, cord_nothing, 0, before[before[last]]);
    else if (strncmp(line, "back ", 5) == 0 && words == 1)
        apply(CORD_COMMAND_BACK, from <= last ? (uint32_t)from : UINT32_MAX, 0, 0, cord_nothing, 0, last);
    else if (strcmp(line, "save") == 0) save(name);
    else puts("print [FROM [TO]], insert LINE TEXT, delete FROM [TO], find TEXT, undo, back REVISION, save, quit");
    return true;
}

int main(int argc, char **argv) {
    char *line = NULL;
    size_t room = 0;
    ssize_t len;
    if (argc != 2) return fputs("line_editor IMAGE\n", stderr), 2;
    open_image(argv[1]);
    while ((len = getline(&line, &room, stdin)) > 0) {
        if (line[len - 1] == '\n') line[--len] = 0;
        if (!carry_out(line, (size_t)len, argv[1])) break;
        fflush(stdout);
    }
    if (len <= 0 && !is_saved) puts("not saved");
    free(line);
    free(before);
    cord_session_end(&session);
    return is_saved ? 0 : 1;
}
