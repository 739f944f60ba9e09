/* origins IMAGE ROOM: times cord_origins over the last text, from its first byte, from the middle and from ROOM bytes before its end, with how many runs
 * were told, and cord_origin of the same bytes: the least of five, in microseconds. */
#include "../crates/cord_c/callers/files.h"
#include <time.h>

static long now(void) {
    struct timespec t;
    clock_gettime(CLOCK_MONOTONIC, &t);
    return t.tv_sec * 1000000L + t.tv_nsec / 1000;
}

int main(int argc, char **argv) {
    struct cord_image opened = CORD_IMAGE_NONE;
    struct cord_verdict v;
    struct cord_origin found;
    uint64_t len;
    size_t count = 0;
    if (argc != 3) return 2;
    struct file image = read_file(argv[1]);
    size_t room = strtoul(argv[2], NULL, 10);
    struct cord_origin *runs = malloc(room * sizeof *runs);
    if (!runs || !cord_open(image.bytes, image.len, cord_no_sources, 0, &opened, &v)) return 1;
    uint32_t last = v.revisions - 1;
    if (!cord_text_len(&opened, last, &len)) return 1;
    uint64_t places[] = {0, len / 2, len > room ? len - room : 0};
    for (int i = 0; i < 3; i++) {
        long best = -1, alone = -1;
        for (int turn = 0; turn < 5; turn++) {
            long start = now();
            cord_origins(&opened, last, places[i], runs, room, &count);
            long between = now();
            cord_origin(&opened, last, places[i], &found);
            long end = now();
            if (best < 0 || between - start < best) best = between - start;
            if (alone < 0 || end - between < alone) alone = end - between;
        }
        printf("  from %llu: %zu runs, %ld us; one origin %ld us\n", (unsigned long long)places[i], count, best, alone);
    }
    return 0;
}
