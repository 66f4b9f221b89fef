// Reads whole files, for the programs of this folder.
#ifndef FILES_H
#define FILES_H

#include <stdint.h>
#include <stdio.h>
#include <stdlib.h>

typedef struct file {
    uint8_t *bytes;
    size_t size;
} file;

// The bytes of a file. Where it cannot be read the program ends with status 2.
static file read_file(const char *path) {
    file read = {NULL, 0};
    FILE *in = fopen(path, "rb");
    size_t room = 1 << 16, got = 1;
    while (in != NULL && got > 0) {
        uint8_t *grown = (uint8_t *)realloc(read.bytes, room *= 2);
        if (grown == NULL) break;
        read.bytes = grown;
        got = fread(read.bytes + read.size, 1, room - read.size, in);
        read.size += got;
    }
    if (in == NULL || got > 0 || ferror(in)) {
        fprintf(stderr, "%s cannot be read\n", path);
        exit(2);
    }
    fclose(in);
    return read;
}

#endif
