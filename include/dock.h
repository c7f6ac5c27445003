// The library's calls for C and C++: AES, its modes, the check (CMAC), release images, receivers of blocks in any order, views of stored
// images, the key wrap, messages sealed in CCM, and the bench model for apprentices.
//
// Building and linking. `tools/proved dock_c` proves the library and writes target/staticlib/libdock.a, for x86-64 Linux. The archive has
// every call below and needs only memcpy and memset. It has no heap, no files and no writable memory of its own, so calls may run in
// several threads at once.
//
// Answers. Every call returns, and every input has one answer, always the same: 0 if the call was carried out, or the number of a refusal
// (enum below; docs/REFUSALS.md says what to do next). A refused call leaves every byte that was lent to it unchanged, and a call that was
// carried out changes no byte of an output past its result. One exception: a turn that stops at a bad block keeps the payload of the
// blocks before it.
//
// What the caller must ensure. Lengths, numbers and contents may be anything. These rules are about memory, which no call can check:
// - A pointer points to as many bytes as the length after it says, for the whole call, and the caller may lend that memory.
// - No pointer is null, even if its length is 0: pass any other address then. No length is above PTRDIFF_MAX.
// - An output overlaps no other memory lent to the same call, neither inputs nor the record: nothing works in place. Inputs may overlap
//   each other, and the two keys may be the same memory. An output may hold anything before the call.
// - Nobody else writes any of this memory during the call, or reads an output.
// - The record lent to dock_check_feed is aligned as its type requires. Bytes may have any alignment.
//
// Records, readers and receivers are plain values without pointers: you may copy them, store them and compare them field by field. Any bytes
// in them get a stated answer, even if no start made them: if the number of rounds is not 10, 12 or 14, a record's check is sixteen zeros,
// and a reader or receiver accepts no block.
//
// Key material. Schedules, records, readers and receivers hold expanded keys, which give away the keys. Overwrite them when you no longer
// need them. Calls leave copies on the stack below the caller, and no call overwrites those.
//
// Time. Nothing is promised about how long a call takes: it may depend on keys and data.
#ifndef DOCK_H
#define DOCK_H

#include <stddef.h>
#include <stdint.h>

// The version of these calls. `./dock version` and the Rust package have the same.
#define DOCK_VERSION "0.1.0"

#ifdef __cplusplus
extern "C" {
#endif

// The numbers of the answers. If more than one refusal applies, the comment on the call says which one is given.
enum {
    DOCK_DONE = 0,
    DOCK_KEY_LENGTH = 1,          // a key is not 16, 24 or 32 bytes
    DOCK_IV_LENGTH = 2,           // the IV has a wrong length for the mode: ECB takes none, the others 16 bytes
    DOCK_INPUT_LENGTH = 3,        // the input is not a multiple of 16 bytes, in ECB, CBC or CFB
    DOCK_OUTPUT_SHORT = 4,        // the output is too short for the result
    DOCK_ASKED_NUMBER = 5,        // the number of blocks asked for is not 1 to 128
    DOCK_LENT_LENGTH = 6,         // the bytes are not whole blocks of 512
    DOCK_COUNT_RANGE = 7,         // the count is not 1 to 65,535; the value is the count
    DOCK_BLOCK_NUMBER = 8,        // the number of the block is wrong: not the one expected, and the value is that number; writer: it is
                                  // not below the count
    DOCK_COUNT_DIFFERS = 9,       // the count is not that of the first block accepted, or not the one the receiver was told; the value is
                                  // the count
    DOCK_RELEASE_DIFFERS = 10,    // the release is not that of the first block accepted, or not the one the receiver was told; the value
                                  // is the release
    DOCK_PAYLOAD_LENGTH = 12,     // the payload length is wrong for its place; the value is the length
    DOCK_EDITION_WRONG = 13,      // the edition is wrong: bytes 14 and 15 are neither 0 nor 2, or not those of the edition of the first
                                  // block accepted, and the value is their number, also 0; writer: it is not 1 or 2
    DOCK_CHECK_WRONG = 14,        // the check is wrong; in edition 2 also: it was made on a check other than the one accepted last
    DOCK_FILL_NOT_ZERO = 15,      // the fill is not zero: the decrypted bytes after the payload
    DOCK_AFTER_LAST = 16,         // the block comes after the last
    DOCK_NOT_COMPLETE = 17,       // the last block has not been accepted
    DOCK_WRAP_LENGTH = 18,        // the data has a wrong length: wrapping takes 16 to 64 bytes, unwrapping 24 to 72, in multiples of 8
    DOCK_INITIAL_VALUE = 19,      // the data was not wrapped under this key
    DOCK_NOT_BELOW_COUNT = 20,    // a place or number is not below the count
    DOCK_ALREADY_HELD = 21,       // the block is held already
    DOCK_CCM_LENGTH = 23,         // a length is outside the profile: nonce 13 bytes, associated data up to 64, message up to 1,024, tag 8
    DOCK_CCM_TAG = 24,            // the tag is wrong: not sealed under this key, nonce and associated data
    DOCK_NOT_A_BOOKMARK = 25      // not a bookmark under this check key
};

// The size of a block of an image and of its payload, in bytes; the most blocks of one turn, and of one image.
enum {
    DOCK_IMAGE_BLOCK = 512,
    DOCK_IMAGE_PAYLOAD = 480,
    DOCK_MOST_ASKED = 128,
    DOCK_MOST_BLOCKS = 65535
};

// ---- The block cipher of FIPS 197

// Sixteen bytes by value, because C does not pass arrays by value.
typedef struct {
    uint8_t bytes[16];
} dock_block;

typedef struct {
    uint32_t number;
    uint32_t words[60];
    size_t rounds;
} dock_schedule_answer;

typedef struct {
    uint32_t number;
    uint8_t block[16];
} dock_block_answer;

// The product of two bytes in the field of FIPS 197. It refuses nothing.
uint8_t dock_product(uint8_t a, uint8_t b);

// The key schedule of a key of 16, 24 or 32 bytes: 44, 52 or 60 words, then zeros, and 10, 12 or 14 rounds. The standard's first byte of
// a word is the highest byte of the number. Refused with 1; words and rounds are then zero.
dock_schedule_answer dock_schedule(const uint8_t *key, size_t key_length);

// One block, encrypted or decrypted under a key of 16, 24 or 32 bytes. Refused with 1; block is then zero.
dock_block_answer dock_encrypt(const uint8_t *key, size_t key_length, dock_block block);
dock_block_answer dock_decrypt(const uint8_t *key, size_t key_length, dock_block block);

// ---- The modes of SP 800-38A

// Each call encrypts or decrypts the input into the front of the output, which must be at least as long as the input. ECB, CBC and CFB
// take multiples of 16 bytes, or nothing; OFB takes any length. ECB takes an empty IV, the other modes one of 16 bytes. CFB means CFB-128.
// OFB is one call: with the same key and IV it undoes itself. The number is 0 or the first that applies of 1, 2, 3, 4; OFB never gives 3.
// There is no padding.
//
// CBC, CFB and OFB also return the next chaining value: the last block of the ciphertext; in OFB the last cipher output, all 16 bytes; the
// IV if the input is empty. Pass it as the IV of the next call to process a long input through a small buffer. Each part but the last must
// have a multiple of 16 bytes; the result is the same as that of one call over everything (examples/c/long_file.c). If a call is refused,
// next is zero. ECB chains nothing and returns only the number.
typedef struct {
    uint32_t number;
    uint8_t next[16];
} dock_chain_answer;

uint32_t dock_ecb_encrypt(const uint8_t *key, size_t key_length, const uint8_t *iv, size_t iv_length,
                          const uint8_t *input, size_t input_length, uint8_t *output, size_t output_length);
uint32_t dock_ecb_decrypt(const uint8_t *key, size_t key_length, const uint8_t *iv, size_t iv_length,
                          const uint8_t *input, size_t input_length, uint8_t *output, size_t output_length);
dock_chain_answer dock_cbc_encrypt(const uint8_t *key, size_t key_length, const uint8_t *iv, size_t iv_length,
                                   const uint8_t *input, size_t input_length, uint8_t *output, size_t output_length);
dock_chain_answer dock_cbc_decrypt(const uint8_t *key, size_t key_length, const uint8_t *iv, size_t iv_length,
                                   const uint8_t *input, size_t input_length, uint8_t *output, size_t output_length);
dock_chain_answer dock_cfb_encrypt(const uint8_t *key, size_t key_length, const uint8_t *iv, size_t iv_length,
                                   const uint8_t *input, size_t input_length, uint8_t *output, size_t output_length);
dock_chain_answer dock_cfb_decrypt(const uint8_t *key, size_t key_length, const uint8_t *iv, size_t iv_length,
                                   const uint8_t *input, size_t input_length, uint8_t *output, size_t output_length);
dock_chain_answer dock_ofb(const uint8_t *key, size_t key_length, const uint8_t *iv, size_t iv_length,
                           const uint8_t *input, size_t input_length, uint8_t *output, size_t output_length);

// ---- Rijndael with blocks of 24 and of 32 bytes, in ECB and CBC, for the cabinets with the first loader

// Like the modes above, with the wide cipher: the input is a multiple of 24 (32) bytes, and the IV is empty in ECB and has 24 (32) bytes in
// CBC. CBC returns its next chaining value of 24 (32) bytes, zero if the call was refused. Keys have 16, 24 or 32 bytes. The number is 0
// or the first that applies of 1, 2, 3, 4. Images always use blocks of 16 bytes.
typedef struct {
    uint32_t number;
    uint8_t next[24];
} dock_chain24_answer;

typedef struct {
    uint32_t number;
    uint8_t next[32];
} dock_chain32_answer;

uint32_t dock_wide24_ecb_encrypt(const uint8_t *key, size_t key_length, const uint8_t *iv, size_t iv_length,
                                 const uint8_t *input, size_t input_length, uint8_t *output, size_t output_length);
uint32_t dock_wide24_ecb_decrypt(const uint8_t *key, size_t key_length, const uint8_t *iv, size_t iv_length,
                                 const uint8_t *input, size_t input_length, uint8_t *output, size_t output_length);
dock_chain24_answer dock_wide24_cbc_encrypt(const uint8_t *key, size_t key_length, const uint8_t *iv, size_t iv_length,
                                            const uint8_t *input, size_t input_length, uint8_t *output, size_t output_length);
dock_chain24_answer dock_wide24_cbc_decrypt(const uint8_t *key, size_t key_length, const uint8_t *iv, size_t iv_length,
                                            const uint8_t *input, size_t input_length, uint8_t *output, size_t output_length);
uint32_t dock_wide32_ecb_encrypt(const uint8_t *key, size_t key_length, const uint8_t *iv, size_t iv_length,
                                 const uint8_t *input, size_t input_length, uint8_t *output, size_t output_length);
uint32_t dock_wide32_ecb_decrypt(const uint8_t *key, size_t key_length, const uint8_t *iv, size_t iv_length,
                                 const uint8_t *input, size_t input_length, uint8_t *output, size_t output_length);
dock_chain32_answer dock_wide32_cbc_encrypt(const uint8_t *key, size_t key_length, const uint8_t *iv, size_t iv_length,
                                            const uint8_t *input, size_t input_length, uint8_t *output, size_t output_length);
dock_chain32_answer dock_wide32_cbc_decrypt(const uint8_t *key, size_t key_length, const uint8_t *iv, size_t iv_length,
                                            const uint8_t *input, size_t input_length, uint8_t *output, size_t output_length);

// ---- The check: CMAC of SP 800-38B, all 16 bytes

typedef struct {
    uint32_t number;
    uint8_t check[16];
} dock_check_answer;

// A running check: the schedule of its key, the chaining value, and up to 16 bytes that have not been processed yet.
typedef struct {
    uint32_t words[60];
    size_t rounds;
    uint8_t chain[16];
    uint8_t held[16];
    size_t count;
} dock_record;

typedef struct {
    uint32_t number;
    dock_record record;
} dock_start_answer;

// The check of a message of any length, also 0, under a key of 16, 24 or 32 bytes. Refused with 1; check is then zero.
//
// Do not compare checks with memcmp: its time can show how many bytes agree, so an attacker could find the right check byte by byte.
// Compare all 16 bytes without stopping early, and test the number too, because a refused call has zeros in check:
//
//     volatile int differing = 0;
//     for (size_t i = 0; i < 16; i++) differing = differing | (answer.check[i] ^ expected[i]);
//     int right = answer.number == DOCK_DONE && differing == 0;
dock_check_answer dock_check(const uint8_t *key, size_t key_length, const uint8_t *message, size_t length);

// A new record, to which nothing has been fed. Refused with 1; the record is then zero, and its check is sixteen zeros whatever is fed.
dock_start_answer dock_check_start(const uint8_t *key, size_t key_length);

// Feeds a part to the record, in place. It refuses nothing, and a part may be empty.
void dock_check_feed(dock_record *record, const uint8_t *part, size_t length);

// The check of everything fed so far, however it was split into parts. The number is 0: nothing is refused. The record does not change,
// so you can feed more and close again. Do not compare with memcmp here either; see dock_check. After a refused start the check is sixteen
// zeros, which anyone can send: test the number of the start.
dock_check_answer dock_check_close(dock_record record);

// ---- Release images (docs/IMAGE.md)

// The words and rounds of a key's schedule; zero if the key was refused.
typedef struct {
    uint32_t words[60];
    size_t rounds;
} dock_key_schedule;

// How far a reader has come. next: the number of the block it expects, which is also how many blocks it has accepted. count, release and
// edition: those of the image, as fixed by the first block accepted, if next is not 0. last: the check of the block accepted last, in both
// editions. After a start edition is 0 and last is zero; an accepted block leaves edition 1 or 2.
typedef struct {
    uint32_t next;
    uint32_t count;
    uint32_t release;
    uint32_t edition;
    uint8_t last[16];
} dock_progress;

// A reader: the schedules of the encryption key and of the check key, and how far it has come. You may read next and last in progress at any
// time, and count, release and edition if next is not 0. enc and chk hold key material and are only for the calls.
typedef struct {
    dock_key_schedule enc;
    dock_key_schedule chk;
    dock_progress progress;
} dock_reader;

typedef struct {
    uint32_t number;
    dock_reader reader;
} dock_read_start_answer;

// What a turn did. number: 0, or 5, 6 or 4 if the whole turn was refused. reason: why the block at place (from 0) stopped the turn, 7 to 10
// or 12 to 16; 0 if none did. value: the number found in that block if the reason is 13 or below, else 0. accepted: how many blocks were
// accepted. bytes: the sum of their payload lengths. reader: pass it to the next turn.
typedef struct {
    uint32_t number;
    uint32_t reason;
    uint32_t value;
    size_t place;
    size_t accepted;
    size_t bytes;
    dock_reader reader;
} dock_turn_answer;

// Seals a payload as block `number` (from 0) of `count` blocks of a release, into the first 512 bytes of the output. The encryption key and
// the check key have 16, 24 or 32 bytes each and may be equal. The payload has 480 bytes in every block except the last, which has 1 to
// 480, or 0 to 480 if count is 1. The edition is 1 or 2. In edition 2 the block is sealed on the check of the block before, bytes 496 to
// 511 of that block: pass it as previous. It is not used in edition 1, nor for number 0, which is sealed on sixteen zeros. The answer is 0
// or the first that applies of 1, 7, 8, 12, 13, 4.
uint32_t dock_write(const uint8_t *ekey, size_t ekey_length, const uint8_t *ckey, size_t ckey_length,
                    uint32_t number, uint32_t count, uint32_t release, uint32_t edition, dock_block previous,
                    const uint8_t *payload, size_t payload_length, uint8_t *output, size_t output_length);

// A new reader, which expects block 0. Refused with 1 for either key; the reader is then zero and accepts nothing: a block gets 14.
dock_read_start_answer dock_read_start(const uint8_t *ekey, size_t ekey_length, const uint8_t *ckey, size_t ckey_length);

// Reads blocks of 512 bytes each, at most as many as asked for (1 to 128), and stops at the first one that is refused. The output must
// have 480 bytes for each block to be handled, that is for the smaller of the number lent and the number asked for. The decrypted 480 bytes
// of block j of the turn, payload and zero fill, go to 480 j of the output.
// The whole turn is refused with the first that applies of 5, 6, 4; the counts are then 0, and the reader is the one given, whatever it
// holds. A block is refused with the first that applies of 16, 14, 7, 8, 9, 10, 12, 13, 15; the reader, and the output from the block's
// place on, are then as the block before left them, so you may fetch the block again and offer it. 16 is given if next is not 0 and not
// below count.
// Both editions are read. If bytes 14 and 15 of a block are 2, its check must also cover the reader's last (edition 2); with any other value
// it must not (edition 1). If next is not 0, the block's edition must be the reader's. An edition in the reader that is neither 1 nor 2
// refuses every block with 13, if nothing before applies. So in edition 2 a block of another build, and one that is doubled, skipped or out
// of order, gets 14.
dock_turn_answer dock_read_turn(dock_reader reader, const uint8_t *blocks, size_t blocks_length, size_t asked,
                                uint8_t *output, size_t output_length);

// 0 once the last block has been accepted (next is not 0 and equals count), 17 before. Only this 0 says that the release is complete: neither
// the size of a file nor a turn without a refusal does.
uint32_t dock_read_complete(dock_reader reader);

// A bookmark: how far a reader has come, to be kept where nothing is trusted, such as flash that a power cut may tear. Its numbers have
// their highest byte first: next, count, release and edition in 4 bytes each, last in 16, the payload bytes accepted so far in 8, and the
// check of these 40 bytes under the check key in 16. It holds no key. A stored reader or receiver is different: it is a secret, since the
// keys follow from it, and whoever can change it can have it say anything, so it must be trusted. A bookmark need not be either.
typedef struct {
    uint8_t bytes[56];
} dock_bookmark;

typedef struct {
    uint32_t number;
    uint64_t bytes;
    dock_reader reader;
} dock_resume_answer;

// The bookmark of a reader that has accepted `bytes` payload bytes; the caller adds them up from the turns. Nothing is refused: of a reader
// whose rounds are not 10, 12 or 14 it is 56 zeros.
dock_bookmark dock_read_save(dock_reader reader, uint64_t bytes);

// The very reader, and the payload bytes, that a bookmark was made of, under the keys that started the reader. Refused with the first that
// applies of 1 and 25, with zeros in reader and bytes. A bookmark says how far the reader came. It does not say what the store holds, nor
// that it is the newest one, nor that the encryption key is the same: docs/IMAGE.md says what to do about each (examples/c/cabinet).
dock_resume_answer dock_read_resume(const uint8_t *ekey, size_t ekey_length, const uint8_t *ckey, size_t ckey_length,
                                    dock_bookmark bookmark);

// ---- Blocks of an image in any order (docs/IMAGE.md says when to use a receiver, and when a reader)

// What a receiver knows about its image: the count and the release it was told, how many blocks it holds, and the sum of their payload
// lengths, which is the length of the payload once all are held. The last two never go above 4,294,967,295.
typedef struct {
    uint32_t count;
    uint32_t release;
    uint32_t held;
    uint32_t bytes;
} dock_receipt;

// A receiver: the schedules of the encryption key and of the check key, and its receipt, which you may read at any time. enc and chk hold
// key material and are only for the calls. 512 bytes.
typedef struct {
    dock_key_schedule enc;
    dock_key_schedule chk;
    dock_receipt receipt;
} dock_receiver;

// What a receiver answers. value: the number found if number is 7, 9, 10, 12 or 13, else 0. receiver: pass it to the next call.
typedef struct {
    uint32_t number;
    uint32_t value;
    dock_receiver receiver;
} dock_receive_answer;

// A new receiver for the blocks of one image of edition 1 with this count and release. The store must have 480 bytes for each block, the
// map one bit: block n is bit n mod 8 (0 is the lowest) of byte n / 8. Bytes 0 to (count + 7) / 8 - 1 of the map are cleared; nothing else
// changes, and the store is not read. Refused with the first that applies of 1, 7, 4; the receiver is then zero and accepts nothing.
dock_receive_answer dock_receive_start(const uint8_t *ekey, size_t ekey_length, const uint8_t *ckey, size_t ckey_length,
                                       uint32_t count, uint32_t release, const uint8_t *store, size_t store_length,
                                       uint8_t *map, size_t map_length);

// Takes one block of 512 bytes with any number: its decrypted 480 bytes, payload and zero fill, go to 480 times its number in the store, its
// bit in the map is set, and the receipt counts it. Refused with the first that applies of 6, 4, 14, 7, 9, 10, 20, 12, 13, 15, 21; the
// receiver is then the one given and nothing has changed, so you may fetch the block again and offer it. 21 depends on the map only. Do not
// change the store or the map between calls.
dock_receive_answer dock_receive(dock_receiver receiver, const uint8_t *block, size_t block_length,
                                 uint8_t *store, size_t store_length, uint8_t *map, size_t map_length);

// 0 once every block is held (count is not 0 and equals held), 17 before. Only this 0 says that the release is complete: the first
// receipt.bytes bytes of the store are then its payload.
uint32_t dock_receive_complete(dock_receiver receiver);

// ---- Looking into a stored image

// What a view of an image shows, as numbers: the calls do not take the image itself. made: 0, or 6 if the image is not whole blocks of 512;
// the view is then empty. blocks: how many blocks it has, 0 after 6. number: 0, or 20 if the place is not below blocks. offset and length:
// the part of the image that is shown, always inside it; after 20 both are 0.
typedef struct {
    uint32_t made;
    uint32_t number;
    size_t blocks;
    size_t offset;
    size_t length;
} dock_view_answer;

// Where block `place` (from 0) of an image of this length is, and where its check is, the last 16 bytes of the block: answer.length bytes from
// `image + answer.offset` on. Nothing is verified, and all numbers have an answer. An empty image has no block and is not refused.
dock_view_answer dock_view_block(size_t image_length, size_t place);
dock_view_answer dock_view_check(size_t image_length, size_t place);

// ---- The key wrap of RFC 3394

// Wraps key data of 16 to 64 bytes, a multiple of 8; the result, 8 bytes longer, goes into the front of the output. The answer is 0
// or the first that applies of 1, 18, 4.
uint32_t dock_wrap(const uint8_t *key, size_t key_length, const uint8_t *data, size_t data_length,
                   uint8_t *output, size_t output_length);

// Unwraps data of 24 to 72 bytes, a multiple of 8. The key data, 8 bytes shorter, goes into the front of the output only if it was wrapped
// under this key. The answer is 0 or the first that applies of 1, 18, 4, 19.
uint32_t dock_unwrap(const uint8_t *key, size_t key_length, const uint8_t *data, size_t data_length,
                     uint8_t *output, size_t output_length);

// ---- Messages in CCM of SP 800-38C: a nonce of 13 bytes, a tag of 8, up to 64 bytes of associated data and 1,024 of message

// Seals a message: the ciphertext and then the tag, 8 bytes more than the message, go into the front of the output. Never use a nonce twice
// under one key: docs/MESSAGES.md says how to make them. The answer is 0 or the first that applies of 1, 23, 4.
uint32_t dock_ccm_seal(const uint8_t *key, size_t key_length, const uint8_t *nonce, size_t nonce_length,
                       const uint8_t *ad, size_t ad_length, const uint8_t *message, size_t message_length,
                       uint8_t *output, size_t output_length);

// Opens a sealed message, ciphertext and tag, 8 to 1,032 bytes. The message, 8 bytes shorter, goes into the front of the output only if
// the tag is right. The answer is 0 or the first that applies of 1, 23, 4, 24.
uint32_t dock_ccm_open(const uint8_t *key, size_t key_length, const uint8_t *nonce, size_t nonce_length,
                       const uint8_t *ad, size_t ad_length, const uint8_t *sealed, size_t sealed_length,
                       uint8_t *output, size_t output_length);

// ---- Simplified AES, the bench model for apprentices: 16-bit keys and blocks, not for secrets. docs/APPRENTICE.md goes through it.

// The state after each of the three key additions. The third is the result.
typedef struct {
    uint16_t first;
    uint16_t second;
    uint16_t third;
} dock_states;

// Every key and every block is valid, so nothing is refused and there is no number. Each call undoes the other.
dock_states dock_saes_encrypt(uint16_t key, uint16_t block);
dock_states dock_saes_decrypt(uint16_t key, uint16_t block);

#ifdef __cplusplus
}
#endif

#endif
