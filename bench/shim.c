// The exported calls that take or give a struct by value, with pointers in place of the structs.
#include "shim.h"

#define CHAIN(name)                                                                                                             \
    SHIM_CHAIN(name)                                                                                                            \
    {                                                                                                                           \
        *answer = dock_##name(key, key_length, iv, iv_length, input, input_length, output, output_length);                      \
    }
CHAIN(cbc_encrypt)
CHAIN(cbc_decrypt)
CHAIN(cfb_encrypt)
CHAIN(cfb_decrypt)
CHAIN(ofb)

void shim_encrypt(const uint8_t *key, size_t key_length, const dock_block *block, dock_block_answer *answer)
{
    *answer = dock_encrypt(key, key_length, *block);
}

void shim_decrypt(const uint8_t *key, size_t key_length, const dock_block *block, dock_block_answer *answer)
{
    *answer = dock_decrypt(key, key_length, *block);
}

void shim_check(const uint8_t *key, size_t key_length, const uint8_t *message, size_t length, dock_check_answer *answer)
{
    *answer = dock_check(key, key_length, message, length);
}

void shim_read_start(const uint8_t *ekey, size_t ekey_length, const uint8_t *ckey, size_t ckey_length, dock_read_start_answer *answer)
{
    *answer = dock_read_start(ekey, ekey_length, ckey, ckey_length);
}

void shim_read_turn(const dock_reader *reader, const uint8_t *blocks, size_t blocks_length, size_t asked,
                    uint8_t *output, size_t output_length, dock_turn_answer *answer)
{
    *answer = dock_read_turn(*reader, blocks, blocks_length, asked, output, output_length);
}
