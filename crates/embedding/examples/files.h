/* Reading and writing for the examples: files of any length, with a line for each failure. */
#ifndef FILES_H
#define FILES_H

#include <cdc6600.h>
#include <stdio.h>
#include <stdlib.h>

/* The program's exit status if a read or a write fails. */
#define FAILED_DEVICE 7

/* Reports why the last call of the C library failed, and exits. */
static void fail(const char *name, int status)
{
    perror(name);
    exit(status);
}

/* Resizes a block of memory, which may move. */
static uint8_t *resized(uint8_t *block, size_t size)
{
    uint8_t *larger = realloc(block, size);
    if (larger == NULL) {
        fail("cdc6600", CDC6600_OUT_OF_MEMORY);
    }
    return larger;
}

/* Reads a whole file. */
static uint8_t *read_file(const char *name, size_t *length)
{
    FILE *file = fopen(name, "rb");
    if (file == NULL) {
        fail(name, FAILED_DEVICE);
    }
    size_t capacity = 4096;
    uint8_t *bytes = resized(NULL, capacity);
    *length = 0;
    for (;;) {
        *length += fread(bytes + *length, 1, capacity - *length, file);
        if (*length < capacity) {
            break;
        }
        capacity *= 2;
        bytes = resized(bytes, capacity);
    }
    if (ferror(file)) {
        fail(name, FAILED_DEVICE);
    }
    fclose(file);
    return bytes;
}

/* Writes bytes to standard output and flushes it. */
static void print(const uint8_t *bytes, size_t length)
{
    if (fwrite(bytes, 1, length, stdout) < length || fflush(stdout) != 0) {
        fail("standard output", FAILED_DEVICE);
    }
}

#endif
