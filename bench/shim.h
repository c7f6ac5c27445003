// The exported calls that take or give a struct by value, with pointers in place of the structs; see retarget for why.
#ifndef SHIM_H
#define SHIM_H
#include "dock.h"

#define SHIM_CHAIN(name)                                                                                                        \
    void shim_##name(const uint8_t *key, size_t key_length, const uint8_t *iv, size_t iv_length, const uint8_t *input,          \
                     size_t input_length, uint8_t *output, size_t output_length, dock_chain_answer *answer)

SHIM_CHAIN(cbc_encrypt);
SHIM_CHAIN(cbc_decrypt);
SHIM_CHAIN(cfb_encrypt);
SHIM_CHAIN(cfb_decrypt);
SHIM_CHAIN(ofb);

void shim_encrypt(const uint8_t *key, size_t key_length, const dock_block *block, dock_block_answer *answer);
void shim_decrypt(const uint8_t *key, size_t key_length, const dock_block *block, dock_block_answer *answer);
void shim_check(const uint8_t *key, size_t key_length, const uint8_t *message, size_t length, dock_check_answer *answer);
void shim_read_start(const uint8_t *ekey, size_t ekey_length, const uint8_t *ckey, size_t ckey_length, dock_read_start_answer *answer);
void shim_read_turn(const dock_reader *reader, const uint8_t *blocks, size_t blocks_length, size_t asked,
                    uint8_t *output, size_t output_length, dock_turn_answer *answer);
#endif
