/* What libcord_session.a asks of a heap: malloc, realloc and free of the C library. An answer is whether there was memory, and where;
 * where there was none, that is told, and the pointer leads somewhere all the same. */
#include <stdbool.h>
#include <stddef.h>
#include <stdlib.h>

struct tried {
    bool ok;
    void *at;
};

static struct tried told(void *at) {
    static char somewhere;
    return (struct tried){at != NULL, at ? at : &somewhere};
}

struct tried rattle_alloc(size_t size, size_t align) { return told(malloc(size ? size : align)); }

struct tried rattle_realloc(void *at, size_t kept, size_t size, size_t align) {
    (void)kept;
    return told(realloc(at, size ? size : align));
}

void rattle_dealloc(void *at) { free(at); }
