/* cord_session.h: ropes, and sessions that keep every revision, of the proved rope workbench (cordkit), as a library for editors: for C,
 * for C++, and for whatever can call C. It stands beside cord.h, which checks and reads images and takes no memory, and has its types of
 * sources, runs and verdicts.
 *
 * A caller sees to these things, which no proof can:
 * 1. A pointer is not null, has its type's alignment, and leads to as many elements as are said; so does one inside a struct. Where the
 *    count is 0, cord_nothing, cord_no_sources and cord_no_changes serve.
 * 2. During a call nobody else writes what a pointer leads to, and what a pointer to non-const leads to overlaps nothing else that is
 *    passed, and nobody else reads it. So one handle serves one call at a time, also where the call only reads. Handles are apart: each
 *    may serve a call at once on a thread of its own, and stays on the thread that began it.
 * 3. A handle is CORD_SESSION_NONE or CORD_STORE_NONE (all bytes 0), or what the calls below left there. It may be moved, but of two
 *    copies only one is used from then on. Its fields are nobody's business.
 * 4. malloc, realloc and free are one allocator's, and no call is made from a signal handler, nor out of that allocator.
 * Nothing else is asked: all bytes, numbers, revisions, ropes, places and commands may be any; each call answers for all.
 *
 * Who owns what. A handle that is open owns memory until cord_session_end or cord_store_end. Bytes that are handed in are copied before a
 * call returns; of sources nothing is kept but their lengths. Answers are written where the caller says: no call hands out a pointer into
 * the library's memory, so nothing of it is freed by a caller, and nothing dangles.
 *
 * Want of memory. A call that is refused memory answers CORD_MEMORY; every revision and every rope is then as before, and the handle can
 * be used on. The store may have grown by nodes that no revision names.
 *
 * It wants malloc, realloc, free, memcpy, memmove and memset, and no other symbol. It reads no file and writes none.
 *
 * Proved of each call is what stands below as its answer, for all that it may be handed, and that it ends. Tested, not proved: that these
 * declarations are those functions', with their layouts, and that all memory is freed. Neither: how long a call takes. */
#ifndef CORDKIT_CORD_SESSION_H
#define CORDKIT_CORD_SESSION_H

#include "cord.h"

#ifdef __cplusplus
extern "C" {
#endif

/* ---- What a call answers */

#define CORD_DONE 0u
#define CORD_MEMORY 1u          /* memory was refused */
#define CORD_CLOSED 2u          /* the handle is none: nothing was begun, or it was ended. Nothing is written */
#define CORD_NO_COMMAND 3u      /* an unknown code of a command, changes that do not take all bytes, or no function */
#define CORD_NO_REVISION 11u    /* E1 */
#define CORD_NO_SOURCE 12u      /* E2 */
#define CORD_RANGE 13u          /* E3: a place or a span is not inside its text, or changes are out of order */
#define CORD_EMPTY_TEXT 14u     /* E4: no bytes were handed in, or a change changes nothing */
#define CORD_MANY_REVISIONS 15u /* E5: there are 1,048,576 revisions */
#define CORD_MANY_ROWS 16u      /* E6: the session's rows would be more than 16,777,216 */
#define CORD_MANY_PIECES 18u    /* E8: a rope has to be balanced, and goes through more than 1,048,576 pieces */
#define CORD_SPLICE_COUNT 19u   /* E9: there is no change, or there are more than 4,096 */
#define CORD_MANY_SPLICES 20u   /* E10: the session's splices would be more than 16,777,216 */
#define CORD_TOO_LONG 31u       /* N1: a text of 2^40 bytes or more, or more than 65,536 bytes handed in at once */
#define CORD_TABLE_FULL 33u     /* N3: there are as many nodes as there can be */
#define CORD_POOL_FULL 34u      /* N4: the pool would be longer than 2^32 - 1 */
#define CORD_BAD_SPAN 35u       /* N5: there is no such source, or the span is not inside it */
#define CORD_MANY_SOURCES 36u   /* N6: there are 255 sources */
#define CORD_NO_ROPE 39u        /* the store has no such rope */
#define CORD_LONG_PATTERN 41u   /* F1: a pattern is longer than may be sought */
#define CORD_UNHELD 52u         /* S2: a byte is of a source that does not hold it. Never where all bytes of the sources are held, and they are
                                   as many and as long as the handle's */
#define CORD_BAD_SOURCES 53u    /* the sources that are handed in cannot be a session's: there are more than 255, or one is too long */
#define CORD_OVER_SOURCE 61u    /* G1: an accepted image has a row of bytes over a source, and is not taken up */
#define CORD_REFUSED 62u        /* the image is refused; the verdict says why */

/* ---- Ropes without a history: the operations of Boehm, Atkinson and Plass, none of which refuses a depth */

struct cord_store {
    void *at;
    bool open;
};
#define CORD_STORE_NONE {0, false}

/* A rope of a store: 0 is the empty one. It stays what it is for as long as the store is open, and is not freed by itself. */
typedef uint64_t cord_rope;

/* Begins a store without ropes and sources; what was open in *store is ended then. CORD_DONE; CORD_MEMORY: it is as before. */
uint32_t cord_store_begin(struct cord_store *store);

/* Ends a store, and frees all that it holds. One that is not open stays so. */
void cord_store_end(struct cord_store *store);

/* Adds a source of so many bytes; no byte of it is read. *source is its number.
 *   CORD_DONE; CORD_MANY_SOURCES, CORD_TOO_LONG, CORD_MEMORY: nothing is changed. */
uint32_t cord_store_add_source(struct cord_store *store, uint64_t len, uint32_t *source);

/* Each makes a rope: *rope is its number. Where it is refused, *rope stays, and every rope is as before.
 *   bytes:    these bytes, at most 65,536.
 *   source:   n bytes of a source from i on.
 *   function: the first n bytes of CORD_FILL, CORD_RAMP or CORD_CYCLE of cord.h, over 1 to 16 bytes of pattern (the first of them alone
 *             counts for a fill and a ramp); CORD_NO_COMMAND where there is no such function.
 *   cat:      x and then y.
 *   append:   x and then these bytes.
 *   substr:   of x at most n bytes from i on, as many as there are.
 *   balance:  the same text as x, by a rope whose depth is small for its length.
 * CORD_DONE, CORD_NO_ROPE, CORD_NO_COMMAND, CORD_BAD_SPAN, CORD_TOO_LONG, CORD_TABLE_FULL, CORD_POOL_FULL, CORD_MANY_PIECES, CORD_MEMORY. */
uint32_t cord_store_bytes(struct cord_store *store, const uint8_t *bytes, size_t len, cord_rope *rope);
uint32_t cord_store_source(struct cord_store *store, uint32_t source, uint64_t i, uint64_t n, cord_rope *rope);
uint32_t cord_store_function(struct cord_store *store, uint32_t function, const uint8_t *pattern, size_t pattern_len, uint64_t n,
                             cord_rope *rope);
uint32_t cord_store_cat(struct cord_store *store, cord_rope x, cord_rope y, cord_rope *rope);
uint32_t cord_store_append(struct cord_store *store, cord_rope x, const uint8_t *bytes, size_t len, cord_rope *rope);
uint32_t cord_store_substr(struct cord_store *store, cord_rope x, uint64_t i, uint64_t n, cord_rope *rope);
uint32_t cord_store_balance(struct cord_store *store, cord_rope x, cord_rope *rope);

/* How long a rope is, and how deep: 0 where it is empty, and of one leaf. CORD_DONE; CORD_NO_ROPE: *len or *depth stays. */
uint32_t cord_store_len(struct cord_store *store, cord_rope x, uint64_t *len);
uint32_t cord_store_depth(struct cord_store *store, cord_rope x, uint32_t *depth);

/* The calls below answer CORD_NO_ROPE, or of a session CORD_NO_REVISION, where there is no such text, and then write nothing else (read:
 * *count is 0). The sources are what the caller holds of them, in the order of their numbers. */

/* Bytes from a place on, as read(2) does: *count, as many as there are up to the end of the run there (locate), or len where that is less;
 * none at the end and past it; and nothing is written behind these. A loop that adds up *count until it is 0 reads to the end.
 *   CORD_DONE; CORD_UNHELD, CORD_BAD_SOURCES: *count is 0, and anything may stand in out. */
uint32_t cord_store_read(struct cord_store *store, const struct cord_source *sources, size_t source_count, cord_rope x, uint64_t place,
                         uint8_t *out, size_t len, size_t *count);

/* The byte at a place. CORD_DONE; CORD_RANGE: there is no such place; CORD_UNHELD, CORD_BAD_SOURCES. Where it is not CORD_DONE, *byte stays. */
uint32_t cord_store_fetch(struct cord_store *store, const struct cord_source *sources, size_t source_count, cord_rope x, uint64_t place,
                          uint8_t *byte);

/* Where the byte at a place stands, and how many bytes of the text follow it there, as cord_locate tells it. It needs no source.
 *   CORD_DONE; CORD_RANGE: there is no such place, and *run stays. */
uint32_t cord_store_locate(struct cord_store *store, cord_rope x, uint64_t place, struct cord_run *run);

/* The first place from `from` on at which the pattern stands; of a byte the first place from `from` on, or the last at `from` or earlier.
 *   CORD_DONE: *place is it, or UINT64_MAX where there is none.
 *   CORD_UNHELD, CORD_BAD_SOURCES; of a pattern CORD_LONG_PATTERN, CORD_MEMORY: *place stays. */
uint32_t cord_store_find(struct cord_store *store, const struct cord_source *sources, size_t source_count, cord_rope x, uint64_t from,
                         const uint8_t *pattern, size_t pattern_len, uint64_t *place);
uint32_t cord_store_chr(struct cord_store *store, const struct cord_source *sources, size_t source_count, cord_rope x, uint64_t from,
                        uint8_t byte, uint64_t *place);
uint32_t cord_store_rchr(struct cord_store *store, const struct cord_source *sources, size_t source_count, cord_rope x, uint64_t from,
                         uint8_t byte, uint64_t *place);

/* The order of n bytes of x from i on and n bytes of y from j on, or of as many as there are: *order is 0 where the first is less, 1 where
 * they are equal, 2 where it is greater. CORD_DONE; CORD_UNHELD, CORD_BAD_SOURCES: *order stays. */
uint32_t cord_store_compare(struct cord_store *store, const struct cord_source *sources, size_t source_count, cord_rope x, uint64_t i,
                            cord_rope y, uint64_t j, uint64_t n, uint32_t *order);

/* ---- Sessions */

struct cord_session {
    void *at;
    bool open;
};
#define CORD_SESSION_NONE {0, false}

/* Begins a session without sources and revisions; what was open in *session is ended then. CORD_DONE; CORD_MEMORY: it is as before. */
uint32_t cord_session_begin(struct cord_session *session);

/* Goes on from an image. It is checked first, as by cord_check with these sources; nothing of it is kept but what is copied.
 *   CORD_DONE:    *session is open, and says what the image says: its commands, texts, splices. *verdict counts it.
 *   CORD_REFUSED: *verdict is the first fault, as cord_check tells it.
 *   CORD_OVER_SOURCE, CORD_MANY_ROWS, CORD_MEMORY: the image is accepted (*verdict counts it), and not taken up.
 * Where it is not CORD_DONE, *session is as before. */
uint32_t cord_session_resume(struct cord_session *session, const uint8_t *image, size_t image_len, const struct cord_source *sources,
                             size_t source_count, struct cord_verdict *verdict);

/* Ends a session, and frees all that it holds. One that is not open stays so. */
void cord_session_end(struct cord_session *session);

/* Adds a source of so many bytes; no byte of it is read. *source is its number.
 *   CORD_DONE; CORD_MANY_SOURCES, CORD_TOO_LONG, CORD_MEMORY: nothing is changed. */
uint32_t cord_session_add_source(struct cord_session *session, uint64_t len, uint32_t *source);

/* A change of CORD_COMMAND_MANY: the next n bytes in place of the m bytes from place p on. */
struct cord_change {
    uint64_t p, m, n;
};
static const struct cord_change cord_no_changes[1] = {{0, 0, 0}};

/* A command. Fields that a command does not name may be anything, but for the two pointers, which always lead somewhere. */
struct cord_command {
    uint8_t code;
    uint8_t byte; /* of CORD_COMMAND_FILL the byte */
    uint32_t r;   /* a revision */
    uint32_t q;   /* another revision; of CORD_COMMAND_OPEN the source */
    uint64_t p;   /* a place in r */
    uint64_t i;   /* a place in q, or in r what is cut */
    uint64_t n;   /* so many bytes */
    const uint8_t *bytes;
    size_t bytes_len;
    const struct cord_change *changes;
    size_t change_count;
};

/* The codes are those of an image.                           what the new revision's text is */
#define CORD_COMMAND_NEW 1u      /*                          empty */
#define CORD_COMMAND_OPEN 2u     /* q                        source q */
#define CORD_COMMAND_INSERT 3u   /* r p bytes                r, with the bytes put in at p */
#define CORD_COMMAND_DELETE 4u   /* r p n                    r without its n bytes from p on */
#define CORD_COMMAND_REPLACE 5u  /* r p n bytes              r, with the bytes in place of its n bytes from p on */
#define CORD_COMMAND_PASTE 6u    /* r p q i n                r, with the n bytes of q from i on put in at p */
#define CORD_COMMAND_JOIN 7u     /* r q                      r and then q */
#define CORD_COMMAND_CUT 8u      /* r i n                    the n bytes of r from i on */
#define CORD_COMMAND_FILL 9u     /* r p byte n               r, with n bytes `byte` put in at p */
#define CORD_COMMAND_BACK 10u    /* r                        r: an undo, a redo, a branch */
#define CORD_COMMAND_BALANCE 11u /* r                        r, by a balanced rope */
#define CORD_COMMAND_MANY 12u    /* r changes bytes          r with all changes at once, whose places are those of r; they take the bytes in
                                    order, and leave none */

/* Makes the revision that a command gives; *revision is its number: one above the last.
 *   CORD_DONE: one revision more. Its text is what the command says of the earlier texts; the session's image, with it, is accepted.
 *   Else no revision is more, *revision stays, and the answer is the first reason that there is of CORD_NO_COMMAND, E1, E9, E2, E3, E4, E5,
 *     E10, N1; or what was met on the way: N3, N4, E8, E6, CORD_MEMORY. */
uint32_t cord_session_apply(struct cord_session *session, const struct cord_command *command, uint32_t *revision);

/* How many revisions, nodes and sources there are, and how long the pool is: of bytes that were handed in, and of short pieces that were put
 * together. CORD_DONE. */
struct cord_sizes {
    uint32_t revisions, nodes, sources, unused;
    uint64_t pool;
};
uint32_t cord_session_sizes(struct cord_session *session, struct cord_sizes *sizes);

/* The command of a revision, by the numbers that an image records; what it does not use is 0. CORD_DONE; CORD_NO_REVISION: *edit stays.
 *   code r q  as in struct cord_command: of CORD_COMMAND_OPEN q is the source, of CORD_COMMAND_MANY how many changes there are.
 *   balanced  1 where the rope of the revision's text is marked as balanced, else 0.
 *   p         a place in the text of r.
 *   m         how many bytes CORD_COMMAND_REPLACE takes out.
 *   a n       the bytes that come in: n of the pool from a on; of CORD_COMMAND_PASTE and CORD_COMMAND_CUT n bytes of a text from a on, of
 *             CORD_COMMAND_FILL n bytes a. CORD_COMMAND_DELETE takes n bytes out. */
struct cord_edit {
    uint32_t code, r, q, balanced;
    uint64_t p, m, a, n;
};
uint32_t cord_session_edit(struct cord_session *session, uint32_t revision, struct cord_edit *edit);

/* How long the text of a revision is. CORD_DONE; CORD_NO_REVISION: *len stays. */
uint32_t cord_session_len(struct cord_session *session, uint32_t revision, uint64_t *len);

/* Of the text of a revision what the calls of the same names answer of a rope. */
uint32_t cord_session_read(struct cord_session *session, const struct cord_source *sources, size_t source_count, uint32_t revision,
                           uint64_t place, uint8_t *out, size_t len, size_t *count);
uint32_t cord_session_locate(struct cord_session *session, uint32_t revision, uint64_t place, struct cord_run *run);
uint32_t cord_session_find(struct cord_session *session, const struct cord_source *sources, size_t source_count, uint32_t revision,
                           uint64_t from, const uint8_t *pattern, size_t pattern_len, uint64_t *place);
uint32_t cord_session_chr(struct cord_session *session, const struct cord_source *sources, size_t source_count, uint32_t revision,
                          uint64_t from, uint8_t byte, uint64_t *place);
uint32_t cord_session_rchr(struct cord_session *session, const struct cord_source *sources, size_t source_count, uint32_t revision,
                           uint64_t from, uint8_t byte, uint64_t *place);
uint32_t cord_session_compare(struct cord_session *session, const struct cord_source *sources, size_t source_count, uint32_t r,
                              uint64_t i, uint32_t q, uint64_t j, uint64_t n, uint32_t *order);

/* Where the byte at a place of the text of a revision comes from, as cord_origin tells it of the session's image, which need not be made for
 * it. It needs no source and takes no memory. CORD_DONE; CORD_NO_REVISION; CORD_RANGE: there is no such place. Else *origin stays. */
uint32_t cord_session_origin(struct cord_session *session, uint32_t revision, uint64_t place, struct cord_origin *origin);

/* Makes the session's image, which cordkit check, cord_check and cord_session_resume take, and holds it until the next is made, or
 * cord_session_forget, or the end. *len is its length. CORD_DONE; CORD_MEMORY: *len and what was held stay. */
uint32_t cord_session_save(struct cord_session *session, uint64_t *len);

/* Copies bytes of the image that is held from a place on, as many as there are or as there is room for: *count. CORD_DONE. */
uint32_t cord_session_saved(struct cord_session *session, uint64_t from, uint8_t *out, size_t room, size_t *count);

/* Lets go of the image that is held. CORD_DONE. */
uint32_t cord_session_forget(struct cord_session *session);

#ifdef __cplusplus
}
#endif
#endif
