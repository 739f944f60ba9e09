/* check.h: what the tests share. */
#ifndef CORDKIT_BOEHM_CHECK_H
#define CORDKIT_BOEHM_CHECK_H

#include <gc/cord.h>
#include <gc/ec.h>
#include <stdbool.h>
#include <stdint.h>
#include <stdio.h>
#include <stdlib.h>
#include <string.h>

static long checks;

/* Counts a check, and ends the test where it does not hold. */
#define CHECK(x)                                               \
    do {                                                       \
        checks++;                                              \
        if (!(x)) {                                            \
            printf("%s:%d: %s\n", __FILE__, __LINE__, #x);     \
            exit(1);                                           \
        }                                                      \
    } while (0)

/* A client's function that gives the bytes of an array, and notes how often it was asked. */
struct array {
    const char *bytes;
    size_t asked;
};

static inline char array_byte(size_t i, void *array) {
    struct array *a = array;
    a->asked++;
    return a->bytes[i];
}

#endif
