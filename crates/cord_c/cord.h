/* cord.h: the proved checker of session images (cordkit) as a library for C, for C++, and for whatever can call C.
 *
 * A caller sees to three things, which no proof can:
 * 1. A pointer is not null, has its type's alignment, and leads to as many elements as are said; so does one inside a struct. Where the
 *    count is 0, cord_nothing and cord_no_sources serve.
 * 2. During a call nobody else writes what a pointer leads to, be it another thread or, where a file is mapped, another program; and what
 *    a pointer to non-const leads to overlaps nothing else that is passed, and nobody else reads it.
 * 3. A struct cord_image is CORD_IMAGE_NONE, or what cord_open put there, or a copy of that, also where it is handed to cord_open; and the
 *    image's bytes stay where and as they are for as long as it is used.
 * Nothing else is asked: the bytes of images and sources, and all numbers, may be any. What stands where an answer is to be written may be
 * anything, but in a struct cord_image.
 *
 * No call takes memory, keeps anything, blocks, or writes elsewhere than is said. Any number may run at once, on any threads. Nothing is
 * to be closed. The library wants memcpy, memmove and memset, and no other symbol.
 *
 * Proved of each call is what stands below as its answer, for all that it may be handed, and that it ends, and reads and writes only where
 * it may: the contracts stand at the functions in src/, in words of specs/. Tested, not proved: that these declarations are those
 * functions', with their layouts; what a call's comment says is tested. Neither: how long a call takes. */
#ifndef CORDKIT_CORD_H
#define CORDKIT_CORD_H

#include <stdbool.h>
#include <stddef.h>
#include <stdint.h>

#ifdef __cplusplus
extern "C" {
#endif

/* ---- Sources */

/* A source of a session, mostly a file: the bytes that are held of it, from its first on, and how many it has in all. Of a source that is
 * not held, give cord_nothing, 0 and its length: an image that a session wrote is checked, and located in, without a byte of its sources.
 * What is held behind its length is not looked at. */
struct cord_source {
    const uint8_t *bytes;
    size_t held;
    uint64_t size;
};

/* What a pointer to no bytes may lead to, and one to no sources. */
static const uint8_t cord_nothing[1] = {0};
static const struct cord_source cord_no_sources[1] = {{cord_nothing, 0, 0}};

/* ---- Checking an image */

/* What a check answers: an image is accepted, by code 0, and counted; or it has a first fault, in this order of codes.
 *   13  the sources cannot be a session's, whatever the image is: kind 4, there are more than 255; 5, one has more than 2^40 - 1 bytes
 *   1   the bytes are no image: kind 1, too few; 2, too many; 3, the first eight; 4, the version; 5, a count or a length; 6, an unused
 *       field that is not 0; 7, an unknown code
 *   2   the image has more or fewer sources
 *   3   source `number` is not as long as the image says
 *   4   node `number` has no such child or source; 5: another length; 6: another depth; 7: a span that lies outside
 *   8   the command of revision `number` is out of range; 9: its root is none, or has another length; 10: it is not balanced
 *   11  the rows of revision `number` do not show that its root has its text: the first such row is `row`
 *   12  a row compares bytes of a source that are not held (kind 2)
 * Nodes go before revisions, and one node or revision before the next. Fields that nothing is said of are 0. `cordkit check` prints such a
 * verdict as C1(I3), C5(7), C11(2,5) or S4; docs/FORMAT.md and cord-image(5) tell each exactly. */
struct cord_verdict {
    uint32_t code;
    uint32_t kind;
    uint32_t number;
    uint32_t revisions; /* of an accepted image: how many revisions, nodes and rows it has */
    uint32_t nodes;
    uint32_t rows;
    uint64_t row;
};

/* Whether the image is accepted with these sources.
 *   true:  *verdict counts it. The bytes spell an image of just such sources; each revision's text is what the commands give of them; each
 *          recorded length, depth, reference and mark is right. So it is however the sources go on behind the bytes that are held.
 *   false: *verdict names the first fault.
 * What keeps the rules is accepted where all bytes of the sources are held, and where no row compares bytes of a source also where none
 * are. So with all held, false says that the image breaks a rule with these sources. Proved: all of this, and each code with its kind; but
 * of code 12 no more than that a row compares bytes of sources which are not all held. */
bool cord_check(const uint8_t *image, size_t image_len, const struct cord_source *sources, size_t source_count,
                struct cord_verdict *verdict);

/* What such a check may cost, told by the image's counts and rows before any node is looked at: a stranger's image of 100,000 bytes can
 * ask for two billion looks at nodes.
 *   true:  *bound is how many looks it takes at most.
 *   false: the bytes are no image, and *bound stays; a check answers code 1 of them, or 13.
 * Proved: all of this; that a check takes no more looks is proved of the same check that counts (check_counted of session_checker).
 * Measured: a look takes some nanoseconds. */
bool cord_looks_bound(const uint8_t *image, size_t image_len, uint64_t *bound);

/* ---- Asking an image that was accepted */

/* An image that was accepted: its bytes, which it borrows. It may be copied, and is not closed. */
struct cord_image {
    const uint8_t *bytes;
    size_t len;
};

/* An image with no revisions, for a struct cord_image to begin with: struct cord_image image = CORD_IMAGE_NONE; */
static const uint8_t cord_no_revisions[40] = {'C', 'O', 'R', 'D', 'S', 'E', 'S', 'S', 0, 0, 0, 1};
#define CORD_IMAGE_NONE {cord_no_revisions, sizeof cord_no_revisions}

/* As cord_check, with the same answer and verdict.
 *   true:  *opened is the image.
 *   false: *opened stays.
 * *opened is an image before the call too: CORD_IMAGE_NONE, or an earlier one, which need not be closed. Proved: all of this. */
bool cord_open(const uint8_t *image, size_t image_len, const struct cord_source *sources, size_t source_count,
               struct cord_image *opened, struct cord_verdict *verdict);

/* How many revisions, nodes and rows it has: the verdict that accepted it. Proved: all of this. */
void cord_counts(const struct cord_image *image, struct cord_verdict *counts);

/* How long the text of a revision is; revisions are counted from 0.
 *   true:  *len is its length.
 *   false: there is no such revision, and *len stays.
 * Proved: all of this. */
bool cord_text_len(const struct cord_image *image, uint32_t revision, uint64_t *len);

/* What cord_fetch and cord_read answer. */
#define CORD_READ 0u     /* the bytes are there */
#define CORD_NO_PLACE 1u /* there is no such place, or no such revision */
#define CORD_NOT_HELD 2u /* they are of a source that does not hold them; or, whatever is asked, the sources cannot be a session's (code 13) */

/* The byte at a place of the text of a revision; places are counted from 0. The sources may be others than those of the check: the text is
 * what the commands give of the ones that are handed in here.
 *   CORD_READ:     it is *byte. If it is of a source, that one is among these, and it is held there, before that one's end.
 *   CORD_NO_PLACE: place is the text's length or more, or there is no such revision; *byte stays.
 *   CORD_NOT_HELD: *byte stays. It is always answered where the sources cannot be a session's. Over others it is never answered past the
 *                  text's end, nor of a byte that no source has, nor where all bytes of the sources are held, and they are as many and as
 *                  long as those of the check.
 * Proved: all of this. */
uint32_t cord_fetch(const struct cord_image *image, const struct cord_source *sources, size_t source_count, uint32_t revision,
                    uint64_t place, uint8_t *byte);

/* What a run is of, and which function it is. */
#define CORD_POOL 1u     /* bytes that were typed, from the image's pool */
#define CORD_SOURCE 2u   /* bytes of a source */
#define CORD_FUNCTION 3u /* what a function gives */
#define CORD_FILL 1u     /* its byte j is pattern[0] */
#define CORD_RAMP 2u     /* (pattern[0] + start + j) % 256 */
#define CORD_CYCLE 3u    /* pattern[(start + j) % pattern_len] */

/* A piece of a text that stands in one place. */
struct cord_run {
    uint32_t kind;        /* CORD_POOL, CORD_SOURCE or CORD_FUNCTION */
    uint32_t source;      /* which source; of another kind 0 */
    uint32_t function;    /* CORD_FILL, CORD_RAMP or CORD_CYCLE; of another kind 0 */
    uint32_t pattern_len; /* how many bytes the function's pattern has, 1 to 16; of another kind 0 */
    uint64_t start;       /* the place of its first byte in the pool, in the source, or in what the function gives */
    uint64_t len;         /* how many bytes it has, 1 or more */
    uint8_t pattern[16];  /* the function's pattern, and zeros */
};

/* Where the byte at a place of the text of a revision stands, and how many bytes of the text follow it there. It needs no source.
 *   true:  *run is where: len bytes of the text, from that place on, up to the end of its leaf's span.
 *   false: place is the text's length or more, or there is no such revision; *run stays.
 * Proved: all of this; the run has these very bytes, and is told by the leaf that holds them: bytes of the pool and of a source by their
 * place there, also where the pool has the same bytes twice or a function gives them too; what a function gives by that function, a fill
 * and a ramp from 0 on, the ramp's pattern being the run's first byte, and a cycle from a place inside its pattern on. */
bool cord_locate(const struct cord_image *image, uint32_t revision, uint64_t place, struct cord_run *run);

/* Where a byte comes from. */
struct cord_origin {
    uint32_t revision; /* the revision whose command put it in */
    uint32_t kind;     /* CORD_POOL: it was handed in; CORD_SOURCE: of a source that was opened; CORD_FILL_BYTE: of a fill */
    uint32_t source;   /* the source, of CORD_SOURCE; else 0 */
    uint32_t byte;     /* the fill's byte, of CORD_FILL_BYTE; else 0 */
    uint64_t place;    /* its place in that revision's text */
    uint64_t start;    /* its place in the pool or in the source; else 0 */
    uint64_t len;      /* how many bytes of the text from it on came in together with it, 1 or more */
};

#define CORD_FILL_BYTE 3

/* Where the byte at a place of the text of a revision comes from. It needs no source, and takes a step for each revision before it at most.
 *   true:  *origin is where; and how many bytes of the text from it on came in together with it: at each step back they stand in one part of
 *          the command, between two of its changes, and in the end side by side in what one command put in.
 *   false: place is the text's length or more, or there is no such revision; *origin stays.
 * Proved: all of this, by what the commands mean alone: what a paste copies keeps its origin, and an undo gives the old ones back. Not
 * proved: how many steps it takes. */
bool cord_origin(const struct cord_image *image, uint32_t revision, uint64_t place, struct cord_origin *origin);

/* Where the bytes of that text from a place on come from: what cord_origin tells of the first, then of the one behind its bytes, and so on.
 * runs has room for so many; a loop that adds up the lengths, and asks again from there on, comes to the end of the text. One way back
 * serves for a whole room, where cord_origin goes one for each.
 *   true:  *count runs are told: to the end of the text, or so many that they fill half of the room or more. What stands in runs behind
 *          them may be anything.
 *   false: place is the text's length or more, or there is no such revision; *count is 0, and runs stays.
 * Proved: all of this. Measured: how long it takes. */
bool cord_origins(const struct cord_image *image, uint32_t revision, uint64_t place, struct cord_origin *runs, size_t room, size_t *count);

/* Writes bytes of that text from a place on into out, as read(2) does: as many as cord_locate tells there, or len where that is less; none
 * at the text's end and past it, and of no revision. A loop that adds up *count until it is 0 reads to the end. Sources are as in cord_fetch.
 *   CORD_READ:     *count bytes were written, and nothing behind them. Each that is of a source is held there, as in cord_fetch.
 *   CORD_NOT_HELD: *count is 0, and any bytes may stand in out. It is always answered where the sources cannot be a session's. Over others
 *                  it is never answered where no source has one of these bytes, nor where all bytes of the sources are held, and they are
 *                  as many and as long as those of the check.
 * CORD_NO_PLACE is never answered. Proved: all of this. */
uint32_t cord_read(const struct cord_image *image, const struct cord_source *sources, size_t source_count, uint32_t revision,
                   uint64_t place, uint8_t *out, size_t len, size_t *count);

#ifdef __cplusplus
}
#endif
#endif
