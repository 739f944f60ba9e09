/* extras.h: what the files of the extras share. They call the core by names of cord.h alone, so they work over each core. By the header a cord
 * may go on using the bytes and the functions that it was made of: what is handed in here is never altered, and never freed. */
#ifndef CORDKIT_BOEHM_EXTRAS_H
#define CORDKIT_BOEHM_EXTRAS_H

#include <gc/cord.h>
#include <gc/ec.h>

#pragma GCC visibility push(hidden)

/* Ends the program with a line on standard error. */
_Noreturn void stop_extra(const char *call, const char *why);

/* So many bytes of malloc, or CORD_oom_fn is called, and the program ends. kept_room's stay for ever. */
char *room_for(size_t n);
char *kept_room(size_t n);

/* A cord and then n bytes that stay where and as they are; bytes[n] is 0. */
CORD append_kept(CORD x, char *bytes, size_t n);

#pragma GCC visibility pop
#endif
