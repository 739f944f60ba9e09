/* Stands before a program's reads of a file at a place: where that file is the one that READS_OF names, the place and how many bytes are asked for go to
   the file READS_TO, a line for each read. */
#define _GNU_SOURCE
#include <fcntl.h>
#include <stdio.h>
#include <stdlib.h>
#include <sys/stat.h>
#include <sys/syscall.h>
#include <unistd.h>

static int is_watched(int file) {
    struct stat own, watched;
    const char *name = getenv("READS_OF");
    return name && !fstat(file, &own) && !stat(name, &watched) && own.st_dev == watched.st_dev && own.st_ino == watched.st_ino;
}

static void tell(off_t place, size_t count) {
    int file = open(getenv("READS_TO"), O_WRONLY | O_CREAT | O_APPEND, 0600);
    if (file < 0) _exit(2);
    dprintf(file, "%lld %zu\n", (long long)place, count);
    close(file);
}

ssize_t pread(int file, void *buffer, size_t count, off_t place) {
    if (is_watched(file)) tell(place, count);
    return syscall(SYS_pread64, file, buffer, count, place);
}

ssize_t pread64(int file, void *buffer, size_t count, off_t place) { return pread(file, buffer, count, place); }
