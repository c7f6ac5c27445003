// Whole files, for the test alone: where the test's own files fail, it stops.
#define _POSIX_C_SOURCE 200809L
#include <errno.h>
#include <stdio.h>
#include <stdlib.h>
#include <string.h>
#include <unistd.h>

#include "radio.h"

void stop(const char *what, const char *name) {
    fprintf(stderr, "radio: %s: %s: %s\n", name, what, strerror(errno));
    exit(3);
}

static uint8_t *memory(size_t size) {
    uint8_t *bytes = malloc(size ? size : 1);
    if (!bytes) stop("there is no memory for it", "a file");
    return bytes;
}

content file_read(const char *path) {
    content c = {0};
    FILE *file = fopen(path, "rb");
    if (!file && errno != ENOENT) stop("it cannot be opened", path);
    if (!file) return c;
    c.there = true;
    c.bytes = memory(1 << 20);
    c.length = fread(c.bytes, 1, 1 << 20, file);
    if (ferror(file)) stop("it cannot be read", path);
    fclose(file);
    c.bytes = realloc(c.bytes, c.length ? c.length : 1);
    return c;
}

void file_write(const char *path, const uint8_t *bytes, size_t length) {
    FILE *file = fopen(path, "wb");
    if (!file) stop("it cannot be made", path);
    if (fwrite(bytes, 1, length, file) != length || fclose(file) != 0) stop("it cannot be written", path);
}

void file_remove(const char *path) {
    if (unlink(path) != 0 && errno != ENOENT) stop("it cannot be removed", path);
}

void put_back(const char *path, const content *c) {
    if (c->there) file_write(path, c->bytes, c->length);
    else file_remove(path);
}

content copied(const content *c) {
    content copy = {c->there, c->length, memory(c->length)};
    if (c->length) memcpy(copy.bytes, c->bytes, c->length);
    return copy;
}

void forget(content *c) {
    free(c->bytes);
    *c = (content){0};
}

bool equal(const content *a, const content *b) {
    return a->there == b->there && a->length == b->length && (a->length == 0 || memcmp(a->bytes, b->bytes, a->length) == 0);
}
