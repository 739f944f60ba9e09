/* What both programs share: files read whole, words that are numbers, and a verdict as `cordkit check` prints it. */
#ifndef FILES_H
#define FILES_H

#include "../cord.h"
#include <stdio.h>
#include <stdlib.h>

struct file {
    uint8_t *bytes;
    size_t len;
};

/* All of a file. Where it cannot be read, the program ends with status 3. */
static struct file read_file(const char *name) {
    FILE *file = fopen(name, "rb");
    struct file all = {malloc(1), 0};
    size_t room = 1, count;
    while (file && all.bytes && (count = fread(all.bytes + all.len, 1, room - all.len, file)) > 0) {
        all.len += count;
        if (all.len == room) all.bytes = realloc(all.bytes, room *= 2);
    }
    if (!all.bytes || !file || ferror(file)) {
        fputs(all.bytes ? "read\n" : "memory\n", stderr);
        exit(3);
    }
    fclose(file);
    return all;
}

/* The files of some words as sources, each held whole. */
static size_t read_sources(char **words, int count, struct cord_source *sources) {
    for (int i = 0; i < count; i++) {
        struct file text = read_file(words[i]);
        sources[i] = (struct cord_source){text.bytes, text.len, text.len};
    }
    return (size_t)count;
}

/* A refusal, and the status of a program that ends with it. */
static int refuse(FILE *to, const struct cord_verdict *v) {
    switch (v->code) {
    case 1: fprintf(to, "refused C1(I%u)\n", v->kind); break;
    case 2: fprintf(to, "refused C2\n"); break;
    case 11: fprintf(to, "refused C11(%u,%llu)\n", v->number, (unsigned long long)v->row); break;
    case 12: fprintf(stderr, "read\n"); return 3;
    case 13: fprintf(to, "refused S%u\n", v->kind); break;
    default: fprintf(to, "refused C%u(%u)\n", v->code, v->number);
    }
    return 1;
}

#endif
