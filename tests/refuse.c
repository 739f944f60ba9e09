/* Stands before the allocator of a program, and refuses it an allocation: malloc, calloc, realloc and the aligned ones, counted from 1 on.

   With REFUSE_AT=N the allocation N is refused, and with REFUSE_ALSO=M the allocation M too. How many there were goes to the file
   REFUSE_COUNTED.
   With REFUSE_EACH the program is run again and again, each time in a process that is forked before its main, with its first allocation
   refused, then the next one and so on, until a run meets none; with REFUSE_PAIRS, with each two of them refused too. Each run has to end
   with status 0; what one that does not has written is shown. The last line says how many allocations there were.
   A run holds at its end what it took and did not give back: how many blocks goes to the file REFUSE_HELD. With REFUSE_HELD_MOST=N a run that
   holds more ends with status 1. */
#define _GNU_SOURCE
#include <fcntl.h>
#include <stdio.h>
#include <stdlib.h>
#include <string.h>
#include <sys/mman.h>
#include <sys/wait.h>
#include <unistd.h>

extern void *__libc_malloc(size_t);
extern void *__libc_calloc(size_t, size_t);
extern void *__libc_realloc(void *, size_t);
extern void *__libc_memalign(size_t, size_t);
extern void __libc_free(void *);

enum { SECONDS = 60, MOST_SHOWN = 20 };

/* How many allocations there were; a run of its own tells its parent by the shared place. */
static long own_count;
static long *seen = &own_count;
static long first_refused, second_refused;

/* How many blocks were taken and not given back. */
static long held;

static int is_refused(void) {
    long number = ++*seen;
    return number == first_refused || number == second_refused;
}

static void *taken(void *block) {
    held += block != NULL;
    return block;
}

void *malloc(size_t size) { return is_refused() ? NULL : taken(__libc_malloc(size)); }

void *calloc(size_t count, size_t size) { return is_refused() ? NULL : taken(__libc_calloc(count, size)); }

void *realloc(void *old, size_t size) {
    if (is_refused()) return NULL;
    void *block = __libc_realloc(old, size);
    return old ? block : taken(block);
}

void *aligned_alloc(size_t alignment, size_t size) { return is_refused() ? NULL : taken(__libc_memalign(alignment, size)); }

int posix_memalign(void **place, size_t alignment, size_t size) {
    void *found = is_refused() ? NULL : taken(__libc_memalign(alignment, size));
    if (found) *place = found;
    return found ? 0 : 12;
}

void free(void *block) {
    held -= block != NULL;
    __libc_free(block);
}

static long number_of(const char *name) {
    const char *text = getenv(name);
    return text ? atol(text) : 0;
}

/* Where a run writes, in memory, so that it is shown only where it failed. */
static int written;

static void show(long first, long second) {
    static char bytes[4096];
    ssize_t count = pread(written, bytes, sizeof bytes, 0);
    dprintf(2, "FAILED: with allocation %ld refused", first);
    if (second) dprintf(2, ", and %ld", second);
    dprintf(2, "\n%.*s\n", (int)(count > 0 ? count : 0), bytes);
}

/* One run with these refused: 1 where it ended well, and 0 where it did not. In the run itself it answers -1. */
static int run(long first, long second) {
    *seen = 0;
    if (ftruncate(written, 0) || lseek(written, 0, SEEK_SET) < 0) _exit(2);
    pid_t child = fork();
    if (child < 0) _exit(2);
    if (!child) {
        first_refused = first;
        second_refused = second;
        dup2(written, 1);
        dup2(written, 2);
        alarm(SECONDS);
        return -1;
    }
    int status;
    if (waitpid(child, &status, 0) != child) _exit(2);
    if (WIFEXITED(status) && !WEXITSTATUS(status)) return 1;
    show(first, second);
    return 0;
}

/* Runs with `first` refused and each allocation behind it: whether this is such a run. */
static int run_pairs(long first, long *runs, long *failed) {
    for (long second = first + 1;; second++) {
        int well = run(first, second);
        if (well < 0) return 1;
        *runs += 1;
        *failed += !well;
        if (*seen < second || *failed > MOST_SHOWN) return 0;
    }
}

static void run_each(int pairs) {
    long number = 1, runs = 0, failed = 0;
    void *shared = mmap(NULL, sizeof *seen, PROT_READ | PROT_WRITE, MAP_SHARED | MAP_ANONYMOUS, -1, 0);
    written = memfd_create("written", 0);
    if (shared == MAP_FAILED || written < 0) _exit(2);
    seen = shared;
    for (;; number++) {
        int well = run(number, 0);
        if (well < 0) return;
        failed += !well;
        if (*seen < number || failed > MOST_SHOWN) break;
        if (pairs && run_pairs(number, &runs, &failed)) return;
    }
    if (pairs)
        dprintf(1, "%ld allocations refused and %ld pairs of them, %ld runs failed\n", number - 1, runs, failed);
    else
        dprintf(1, "%ld allocations refused, %ld runs failed\n", number - 1, failed);
    _exit(failed ? 1 : 0);
}

__attribute__((constructor)) static void begin(void) {
    first_refused = number_of("REFUSE_AT");
    second_refused = number_of("REFUSE_ALSO");
    if (getenv("REFUSE_EACH")) run_each(0);
    if (getenv("REFUSE_PAIRS")) run_each(1);
    held = 0;
}

static void tell(const char *path, long number) {
    int file = path ? open(path, O_WRONLY | O_CREAT | O_TRUNC, 0600) : -1;
    if (file < 0) return;
    dprintf(file, "%ld\n", number);
    close(file);
}

__attribute__((destructor)) static void report(void) {
    long most = getenv("REFUSE_HELD_MOST") ? number_of("REFUSE_HELD_MOST") : held;
    tell(getenv("REFUSE_COUNTED"), *seen);
    tell(getenv("REFUSE_HELD"), held);
    if (held <= most) return;
    fflush(stdout);
    dprintf(2, "%ld blocks were not given back\n", held - most);
    _exit(1);
}
