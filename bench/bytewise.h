// The byte-wise cipher: a key expanded, and one block each way.
#ifndef BYTEWISE_H
#define BYTEWISE_H
#include <stddef.h>
#include <stdint.h>

typedef struct {
    uint8_t bytes[240];
    size_t rounds;
} bytewise_key;

void bytewise_expand(bytewise_key *k, const uint8_t *key, size_t length);
void bytewise_encrypt(const bytewise_key *k, const uint8_t in[16], uint8_t out[16]);
void bytewise_decrypt(const bytewise_key *k, const uint8_t in[16], uint8_t out[16]);
#endif
