// Faults planted on purpose: a driver linked with these in place of twenty calls must stop, or answer differently from the second program.
// The linker puts __wrap_CALL in the place of CALL (--wrap) and leaves the library's own as __real_CALL; FAULT in the environment
// says which fault is made, and without it there is none.
#include <stdlib.h>

#include "../../include/dock.h"

static int made(int fault) {
    const char *word = getenv("FAULT");
    return word && atoi(word) == fault;
}

static void flip(const uint8_t *byte) {
    *(uint8_t *)byte ^= 1;
}

dock_chain_answer __real_dock_ofb(const uint8_t *, size_t, const uint8_t *, size_t, const uint8_t *, size_t, uint8_t *, size_t);
uint32_t __real_dock_wrap(const uint8_t *, size_t, const uint8_t *, size_t, uint8_t *, size_t);
uint32_t __real_dock_unwrap(const uint8_t *, size_t, const uint8_t *, size_t, uint8_t *, size_t);
uint32_t __real_dock_ccm_seal(const uint8_t *, size_t, const uint8_t *, size_t, const uint8_t *, size_t, const uint8_t *, size_t,
                              uint8_t *, size_t);
uint32_t __real_dock_ccm_open(const uint8_t *, size_t, const uint8_t *, size_t, const uint8_t *, size_t, const uint8_t *, size_t,
                              uint8_t *, size_t);
dock_check_answer __real_dock_check(const uint8_t *, size_t, const uint8_t *, size_t);
dock_block_answer __real_dock_decrypt(const uint8_t *, size_t, dock_block);
dock_block_answer __real_dock_encrypt(const uint8_t *, size_t, dock_block);
void __real_dock_check_feed(dock_record *, const uint8_t *, size_t);
dock_states __real_dock_saes_decrypt(uint16_t, uint16_t);
dock_turn_answer __real_dock_read_turn(dock_reader, const uint8_t *, size_t, size_t, uint8_t *, size_t);
dock_bookmark __real_dock_read_save(dock_reader, uint64_t);
dock_resume_answer __real_dock_read_resume(const uint8_t *, size_t, const uint8_t *, size_t, dock_bookmark);
dock_receive_answer __real_dock_receive(dock_receiver, const uint8_t *, size_t, uint8_t *, size_t, uint8_t *, size_t);
uint32_t __real_dock_wide24_ecb_encrypt(const uint8_t *, size_t, const uint8_t *, size_t, const uint8_t *, size_t, uint8_t *, size_t);
dock_chain24_answer __real_dock_wide24_cbc_decrypt(const uint8_t *, size_t, const uint8_t *, size_t, const uint8_t *, size_t,
                                                   uint8_t *, size_t);
uint32_t __real_dock_wide32_ecb_decrypt(const uint8_t *, size_t, const uint8_t *, size_t, const uint8_t *, size_t, uint8_t *, size_t);
dock_chain32_answer __real_dock_wide32_cbc_encrypt(const uint8_t *, size_t, const uint8_t *, size_t, const uint8_t *, size_t,
                                                   uint8_t *, size_t);
dock_view_answer __real_dock_view_block(size_t, size_t);
dock_view_answer __real_dock_view_check(size_t, size_t);

// 1: the byte behind the output.
// 9: the chaining value handed on after a short last piece.
dock_chain_answer __wrap_dock_ofb(const uint8_t *key, size_t key_length, const uint8_t *iv, size_t iv_length,
                                  const uint8_t *input, size_t input_length, uint8_t *output, size_t output_length) {
    if (made(1)) flip(output + output_length);
    dock_chain_answer answer = __real_dock_ofb(key, key_length, iv, iv_length, input, input_length, output, output_length);
    if (made(9) && answer.number == DOCK_DONE && input_length % 16 != 0) flip(&answer.next[15]);
    return answer;
}

// 2: the byte before the output.
uint32_t __wrap_dock_wrap(const uint8_t *key, size_t key_length, const uint8_t *data, size_t data_length,
                          uint8_t *output, size_t output_length) {
    if (made(2)) flip(output - 1);
    return __real_dock_wrap(key, key_length, data, data_length, output, output_length);
}

// 3: a byte of a message, once its check is made.
dock_check_answer __wrap_dock_check(const uint8_t *key, size_t key_length, const uint8_t *message, size_t length) {
    dock_check_answer answer = __real_dock_check(key, key_length, message, length);
    if (made(3) && length > 0) flip(message + length - 1);
    return answer;
}

// 4: a byte of a key, once it is used.
dock_block_answer __wrap_dock_decrypt(const uint8_t *key, size_t key_length, dock_block block) {
    dock_block_answer answer = __real_dock_decrypt(key, key_length, block);
    if (made(4) && key_length > 0) flip(key);
    return answer;
}

// 5: one bit of an answer.
dock_block_answer __wrap_dock_encrypt(const uint8_t *key, size_t key_length, dock_block block) {
    dock_block_answer answer = __real_dock_encrypt(key, key_length, block);
    if (made(5)) flip(&answer.block[15]);
    return answer;
}

// 6: the byte behind a record.
void __wrap_dock_check_feed(dock_record *record, const uint8_t *part, size_t length) {
    if (made(6)) flip((uint8_t *)record + sizeof *record);
    __real_dock_check_feed(record, part, length);
}

// 7: the output of a call that was refused because of the data.
uint32_t __wrap_dock_unwrap(const uint8_t *key, size_t key_length, const uint8_t *data, size_t data_length,
                            uint8_t *output, size_t output_length) {
    uint32_t number = __real_dock_unwrap(key, key_length, data, data_length, output, output_length);
    if (made(7) && number == DOCK_INITIAL_VALUE) flip(output);
    return number;
}

// 8: the output past the blocks that were handled.
dock_turn_answer __wrap_dock_read_turn(dock_reader reader, const uint8_t *blocks, size_t blocks_length, size_t asked,
                                       uint8_t *output, size_t output_length) {
    dock_turn_answer answer = __real_dock_read_turn(reader, blocks, blocks_length, asked, output, output_length);
    size_t past = answer.accepted * DOCK_IMAGE_PAYLOAD;
    if (made(8) && past < output_length) flip(output + past);
    return answer;
}

// 10: the block at place 0, whatever place is asked for.
dock_view_answer __wrap_dock_view_block(size_t image_length, size_t place) {
    dock_view_answer answer = __real_dock_view_block(image_length, place);
    if (made(10)) answer.offset = 0;
    return answer;
}

// 11: the 16 bytes before the check.
dock_view_answer __wrap_dock_view_check(size_t image_length, size_t place) {
    dock_view_answer answer = __real_dock_view_check(image_length, place);
    if (made(11) && answer.number == DOCK_DONE) answer.offset -= 16;
    return answer;
}

// 12: one bit of the state in the middle of a decryption.
dock_states __wrap_dock_saes_decrypt(uint16_t key, uint16_t block) {
    dock_states states = __real_dock_saes_decrypt(key, block);
    if (made(12)) states.second ^= 1;
    return states;
}

// 13: the byte behind the tag.
// 14: the last byte of the tag.
uint32_t __wrap_dock_ccm_seal(const uint8_t *key, size_t key_length, const uint8_t *nonce, size_t nonce_length,
                              const uint8_t *ad, size_t ad_length, const uint8_t *message, size_t message_length,
                              uint8_t *output, size_t output_length) {
    uint32_t number = __real_dock_ccm_seal(key, key_length, nonce, nonce_length, ad, ad_length, message, message_length, output,
                                           output_length);
    if (made(13) && number == DOCK_DONE && message_length + 8 < output_length) flip(output + message_length + 8);
    if (made(14) && number == DOCK_DONE) flip(output + message_length + 7);
    return number;
}

// 15: the output of a call that was refused because of the tag.
uint32_t __wrap_dock_ccm_open(const uint8_t *key, size_t key_length, const uint8_t *nonce, size_t nonce_length,
                              const uint8_t *ad, size_t ad_length, const uint8_t *sealed, size_t sealed_length,
                              uint8_t *output, size_t output_length) {
    uint32_t number = __real_dock_ccm_open(key, key_length, nonce, nonce_length, ad, ad_length, sealed, sealed_length, output,
                                           output_length);
    if (made(15) && number == DOCK_CCM_TAG && output_length > 0) flip(output);
    return number;
}

// 16: the bit of a block that was refused.
// 17: the byte behind the part of the store that is an accepted block's.
// 18: the count, moved by a refused block.
dock_receive_answer __wrap_dock_receive(dock_receiver receiver, const uint8_t *block, size_t block_length,
                                        uint8_t *store, size_t store_length, uint8_t *map, size_t map_length) {
    dock_receive_answer answer = __real_dock_receive(receiver, block, block_length, store, store_length, map, map_length);
    size_t number = block_length == DOCK_IMAGE_BLOCK ? (size_t)block[2] * 256 + block[3] : 0;
    size_t past = (number + 1) * DOCK_IMAGE_PAYLOAD;
    if (made(16) && answer.number != DOCK_DONE && number / 8 < map_length) map[number / 8] |= (uint8_t)(1 << number % 8);
    if (made(17) && answer.number == DOCK_DONE && past < store_length) flip(store + past);
    if (made(18) && answer.number != DOCK_DONE) answer.receiver.receipt.held++;
    return answer;
}

// 19: the byte behind the last block of 24 bytes.
uint32_t __wrap_dock_wide24_ecb_encrypt(const uint8_t *key, size_t key_length, const uint8_t *iv, size_t iv_length,
                                        const uint8_t *input, size_t input_length, uint8_t *output, size_t output_length) {
    uint32_t number = __real_dock_wide24_ecb_encrypt(key, key_length, iv, iv_length, input, input_length, output, output_length);
    if (made(19) && number == DOCK_DONE && input_length < output_length) flip(output + input_length);
    return number;
}

// 20: the last byte of the chaining value handed on, which a block of 16 bytes does not have.
dock_chain24_answer __wrap_dock_wide24_cbc_decrypt(const uint8_t *key, size_t key_length, const uint8_t *iv, size_t iv_length,
                                                   const uint8_t *input, size_t input_length, uint8_t *output,
                                                   size_t output_length) {
    dock_chain24_answer answer =
        __real_dock_wide24_cbc_decrypt(key, key_length, iv, iv_length, input, input_length, output, output_length);
    if (made(20) && answer.number == DOCK_DONE) flip(&answer.next[23]);
    return answer;
}

// 21: the second half of the last block of 32 bytes.
uint32_t __wrap_dock_wide32_ecb_decrypt(const uint8_t *key, size_t key_length, const uint8_t *iv, size_t iv_length,
                                        const uint8_t *input, size_t input_length, uint8_t *output, size_t output_length) {
    uint32_t number = __real_dock_wide32_ecb_decrypt(key, key_length, iv, iv_length, input, input_length, output, output_length);
    if (made(21) && number == DOCK_DONE && input_length > 0) flip(output + input_length - 16);
    return number;
}

// 22: the output of a call that was refused.
dock_chain32_answer __wrap_dock_wide32_cbc_encrypt(const uint8_t *key, size_t key_length, const uint8_t *iv, size_t iv_length,
                                                   const uint8_t *input, size_t input_length, uint8_t *output,
                                                   size_t output_length) {
    dock_chain32_answer answer =
        __real_dock_wide32_cbc_encrypt(key, key_length, iv, iv_length, input, input_length, output, output_length);
    if (made(22) && answer.number != DOCK_DONE && output_length > 0) flip(output);
    return answer;
}

// 23: the lowest byte of the payload bytes in a bookmark.
dock_bookmark __wrap_dock_read_save(dock_reader reader, uint64_t bytes) {
    dock_bookmark bookmark = __real_dock_read_save(reader, bytes);
    if (made(23)) flip(&bookmark.bytes[39]);
    return bookmark;
}

// 24: the check accepted last, of a reader that was resumed.
// 25: a bookmark that is refused, told as taken.
dock_resume_answer __wrap_dock_read_resume(const uint8_t *ekey, size_t ekey_length, const uint8_t *ckey, size_t ckey_length,
                                           dock_bookmark bookmark) {
    dock_resume_answer answer = __real_dock_read_resume(ekey, ekey_length, ckey, ckey_length, bookmark);
    if (made(24) && answer.number == DOCK_DONE) flip(&answer.reader.progress.last[15]);
    if (made(25) && answer.number == DOCK_NOT_A_BOOKMARK) answer.number = DOCK_DONE;
    return answer;
}
