/* check [LOOKS] IMAGE [SOURCE]...: the answer of `cordkit check`, by the library. Where the first word is a number, an image whose check
 * may take more looks is refused by that; where it is `-l`, the sources' lengths alone are handed in. */
#include "files.h"
#include <string.h>

int main(int argc, char **argv) {
    static struct cord_source sources[256];
    struct cord_verdict v;
    char *end;
    int first = 1;
    uint64_t most = UINT64_MAX, looks;
    bool lengths = argc > 1 && strcmp(argv[1], "-l") == 0;
    if (argc > 2) {
        uint64_t number = strtoull(argv[1], &end, 10);
        if (*end == 0 && end != argv[1]) most = number;
        first += lengths || (*end == 0 && end != argv[1]);
    }
    if (argc <= first || argc - first - 1 > 256) {
        fputs("check [LOOKS | -l] IMAGE [SOURCE]...\n", stderr);
        return 2;
    }
    struct file image = read_file(argv[first]);
    size_t count = read_sources(argv + first + 1, argc - first - 1, sources);
    if (most < UINT64_MAX && cord_looks_bound(image.bytes, image.len, &looks) && looks > most) {
        printf("refused looks %llu\n", (unsigned long long)looks);
        return 1;
    }
    for (size_t i = 0; lengths && i < count; i++) sources[i].held = 0;
    if (!cord_check(image.bytes, image.len, sources, count, &v)) return refuse(stdout, &v);
    printf("accepted %u revisions %u nodes %u rows\n", v.revisions, v.nodes, v.rows);
    return 0;
}
