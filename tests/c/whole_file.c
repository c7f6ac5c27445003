// whole_file CALL KEY IV FROM TO: a file encrypted or decrypted by one call over all of it, to compare examples/c/long_file.c with.
#include <stdio.h>
#include <stdlib.h>
#include <string.h>

#include "dock.h"

enum { MOST = 1 << 22 };

static uint8_t input[MOST], output[MOST];

static void stop(const char *what) {
    fprintf(stderr, "whole_file: %s\n", what);
    exit(1);
}

static size_t read_whole(const char *path, uint8_t *bytes, size_t most) {
    FILE *file = fopen(path, "rb");
    if (!file) stop(path);
    size_t length = fread(bytes, 1, most, file);
    if (ferror(file) || fgetc(file) != EOF) stop("a file is too long, or cannot be read");
    fclose(file);
    return length;
}

static dock_chain_answer made(const char *call, const uint8_t *key, size_t key_length, const uint8_t *iv, size_t length) {
    if (strcmp(call, "cbc-encrypt") == 0) return dock_cbc_encrypt(key, key_length, iv, 16, input, length, output, MOST);
    if (strcmp(call, "cbc-decrypt") == 0) return dock_cbc_decrypt(key, key_length, iv, 16, input, length, output, MOST);
    return dock_ofb(key, key_length, iv, 16, input, length, output, MOST);
}

int main(int count, char **text) {
    uint8_t key[32], iv[16];
    if (count != 6) stop("CALL KEY IV FROM TO");
    size_t key_length = read_whole(text[2], key, sizeof key);
    if (read_whole(text[3], iv, sizeof iv) != sizeof iv) stop("the IV");
    size_t length = read_whole(text[4], input, MOST);
    if (made(text[1], key, key_length, iv, length).number != DOCK_DONE) stop("the call was refused");
    FILE *to = fopen(text[5], "wb");
    if (!to || fwrite(output, 1, length, to) != length || fclose(to) != 0) stop(text[5]);
    return 0;
}
