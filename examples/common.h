/* What the programs over a stored stream share. */
#ifndef COMMON_H
#define COMMON_H

#include <stdint.h>
#include <stdio.h>
#include <stdlib.h>

/* What errno says of the file; the program ends. */
static void fail(const char *path) {
    perror(path);
    exit(2);
}

/* The whole file, in memory that the caller frees. */
static uint8_t *read_file(const char *path, size_t *len) {
    FILE *file = fopen(path, "rb");
    if (file == NULL) {
        fail(path);
    }
    uint8_t *bytes = NULL;
    size_t room = 0;
    *len = 0;
    while (*len == room) {
        room = room == 0 ? 65536 : 2 * room;
        bytes = realloc(bytes, room);
        if (bytes == NULL) {
            fail(path);
        }
        *len += fread(bytes + *len, 1, room - *len, file);
    }
    if (ferror(file)) {
        fail(path);
    }
    fclose(file);
    return bytes;
}

/* The status of a program that has printed all its lines: 3 where they could not be written. */
static int written(const char *program) {
    if (fflush(stdout) != 0 || ferror(stdout)) {
        fprintf(stderr, "%s: standard output cannot be written\n", program);
        return 3;
    }
    return 0;
}

#endif
