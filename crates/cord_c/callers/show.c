/* show IMAGE REV [SOURCE]...: the answer of `cordkit show`, by the library: the image is checked once, and the text read run by run. */
#include "files.h"

int main(int argc, char **argv) {
    static struct cord_source sources[256];
    static uint8_t buffer[65536];
    struct cord_image opened = CORD_IMAGE_NONE;
    struct cord_verdict v;
    uint64_t len;
    size_t got;
    if (argc < 3 || argc - 3 > 256) {
        fputs("show IMAGE REV [SOURCE]...\n", stderr);
        return 2;
    }
    struct file image = read_file(argv[1]);
    uint32_t revision = (uint32_t)strtoul(argv[2], NULL, 10);
    size_t count = read_sources(argv + 3, argc - 3, sources);
    if (!cord_open(image.bytes, image.len, sources, count, &opened, &v)) return refuse(stderr, &v);
    if (!cord_text_len(&opened, revision, &len)) {
        fputs("refused no revision\n", stderr);
        return 1;
    }
    for (uint64_t place = 0; place < len; place += got) {
        if (cord_read(&opened, sources, count, revision, place, buffer, sizeof buffer, &got) != CORD_READ) {
            fputs("read\n", stderr);
            return 3;
        }
        if (fwrite(buffer, 1, got, stdout) != got) break;
    }
    if (fflush(stdout) != 0 || ferror(stdout)) {
        fputs("write\n", stderr);
        return 3;
    }
    return 0;
}
