// count PEER CALL KEY TIMES: makes a call so many times under a key of so many bytes, or, of a mode, one call over so many pieces.
// bench/count has the emulator count instructions, and the difference of two runs is that of the calls alone. Peer 'ours' is ours.
#include "dock.h"
#include "image.h"

#include <stdio.h>
#include <stdlib.h>
#include <string.h>

enum { MOST = 64 };

static uint8_t key[32], check_key[32], input[MOST * 32], output[MOST * 32], block[512], plain[480], sealed[504];
static const image_place place = {0, 1, 7};
static const dock_block none;

void must(int holds, const char *what)
{
    if (holds)
        return;
    fprintf(stderr, "count: failed: %s\n", what);
    exit(1);
}

static void mode_ours(const char *call, size_t size, size_t length)
{
    uint32_t a = 1;
    if (strcmp(call, "ecb-encrypt") == 0)
        a = dock_ecb_encrypt(key, size, NULL, 0, input, length, output, length);
    else if (strcmp(call, "ecb-decrypt") == 0)
        a = dock_ecb_decrypt(key, size, NULL, 0, input, length, output, length);
    else if (strcmp(call, "cbc-encrypt") == 0)
        a = dock_cbc_encrypt(key, size, input, 16, input, length, output, length).number;
    else if (strcmp(call, "cbc-decrypt") == 0)
        a = dock_cbc_decrypt(key, size, input, 16, input, length, output, length).number;
    must(a == 0, call);
}

// The same over blocks of 24 and 32 bytes: WIDTH-ecb-encrypt and so on.
static void wide_ours(const char *call, size_t size, size_t times)
{
    size_t length = strtoul(call, NULL, 10) * times;
    uint32_t a = 1;
    if (strcmp(call, "24-ecb-encrypt") == 0)
        a = dock_wide24_ecb_encrypt(key, size, NULL, 0, input, length, output, length);
    else if (strcmp(call, "24-ecb-decrypt") == 0)
        a = dock_wide24_ecb_decrypt(key, size, NULL, 0, input, length, output, length);
    else if (strcmp(call, "24-cbc-encrypt") == 0)
        a = dock_wide24_cbc_encrypt(key, size, input, 24, input, length, output, length).number;
    else if (strcmp(call, "24-cbc-decrypt") == 0)
        a = dock_wide24_cbc_decrypt(key, size, input, 24, input, length, output, length).number;
    else if (strcmp(call, "32-ecb-encrypt") == 0)
        a = dock_wide32_ecb_encrypt(key, size, NULL, 0, input, length, output, length);
    else if (strcmp(call, "32-ecb-decrypt") == 0)
        a = dock_wide32_ecb_decrypt(key, size, NULL, 0, input, length, output, length);
    else if (strcmp(call, "32-cbc-encrypt") == 0)
        a = dock_wide32_cbc_encrypt(key, size, input, 32, input, length, output, length).number;
    else if (strcmp(call, "32-cbc-decrypt") == 0)
        a = dock_wide32_cbc_decrypt(key, size, input, 32, input, length, output, length).number;
    must(a == 0, call);
}

static void one_ours(const char *call, size_t size, const dock_reader *reader)
{
    dock_block b = {{1}};
    if (strcmp(call, "encrypt") == 0)
        must(dock_encrypt(key, size, b).number == 0, call);
    else if (strcmp(call, "decrypt") == 0)
        must(dock_decrypt(key, size, b).number == 0, call);
    else if (strcmp(call, "check") == 0)
        must(dock_check(check_key, size, input, 496).number == 0, call);
    else if (strcmp(call, "write") == 0)
        must(dock_write(key, size, check_key, size, 0, 1, 7, 1, none, plain, 480, block, 512) == 0, call);
    else if (strcmp(call, "seal") == 0)
        must(dock_ccm_seal(key, size, input, 13, input, 20, input, 496, output, 504) == 0, call);
    else if (strcmp(call, "open") == 0)
        must(dock_ccm_open(key, size, input, 13, input, 20, sealed, 504, output, 496) == 0, call);
    else
        must(dock_read_turn(*reader, block, 512, 1, output, 480).accepted == 1, call);
}

static void ours(const char *call, size_t size, size_t times)
{
    dock_reader reader = dock_read_start(key, size, check_key, size).reader;
    must(dock_write(key, size, check_key, size, 0, 1, 7, 1, none, plain, 480, block, 512) == 0, "write");
    must(dock_ccm_seal(key, size, input, 13, input, 20, input, 496, sealed, 504) == 0, "seal");
    if (strchr("23", call[0]))
        wide_ours(call, size, times);
    else if (strchr(call, '-'))
        mode_ours(call, size, 16 * times);
    else
        for (size_t i = 0; i < times; i++)
            one_ours(call, size, &reader);
}

static void mode_peer(const peer *p, const char *call, size_t size, size_t length)
{
    int mode = call[0] == 'e' ? ECB : CBC, way = call[4] == 'e' ? ENCRYPT : DECRYPT;
    p->set(mode, way, key, size);
    p->run(mode, way, input, input, output, length);
}

static void one_peer(const peer *p, const char *call, size_t size)
{
    int way = call[0] == 'e' ? ENCRYPT : DECRYPT;
    if (strcmp(call, "encrypt") == 0 || strcmp(call, "decrypt") == 0) {
        p->set(ECB, way, key, size);
        p->run(ECB, way, NULL, input, output, 16);
    } else if (strcmp(call, "check") == 0) {
        p->set_check(check_key, size);
        p->check(input, 496, output);
    } else if (strcmp(call, "write") == 0) {
        p->set(CBC, ENCRYPT, key, size);
        p->set_check(check_key, size);
        image_seal(p, place, plain, block);
    } else if (strcmp(call, "seal") == 0) {
        p->ccm(ENCRYPT, key, size, &(message){input, input, input, 20, 496}, output);
    } else if (strcmp(call, "open") == 0) {
        p->ccm(DECRYPT, key, size, &(message){input, input, sealed, 20, 504}, output);
    } else {
        must(image_read(p, place, block, 1, output) == 1, call);
    }
}

static void theirs(const peer *p, const char *call, size_t size, size_t times)
{
    p->set(CBC, ENCRYPT, key, size);
    p->set(CBC, DECRYPT, key, size);
    p->set_check(check_key, size);
    image_seal(p, place, plain, block);
    p->ccm(ENCRYPT, key, size, &(message){input, input, input, 20, 496}, sealed);
    if (strchr(call, '-'))
        mode_peer(p, call, size, 16 * times);
    else
        for (size_t i = 0; i < times; i++)
            one_peer(p, call, size);
}

int main(int words, char **word)
{
    must(words == 5, "usage: count PEER CALL KEY TIMES");
    size_t size = strtoul(word[3], NULL, 10), times = strtoul(word[4], NULL, 10);
    must((size == 16 || size == 32) && times <= MOST, "a key of 16 or 32 bytes, and times up to 64");
    for (size_t i = 0; i < sizeof key; i++)
        key[i] = (uint8_t)(7 * i), check_key[i] = (uint8_t)(11 * i + 1);
    if (strcmp(word[1], "ours") == 0)
        ours(word[2], size, times);
    else if (strcmp(word[1], "byte-wise") == 0)
        theirs(&bytewise_peer, word[2], size, times);
#ifdef WITH_TOMCRYPT
    else if (strcmp(word[1], "libtomcrypt") == 0)
        theirs(&tomcrypt_peer, word[2], size, times);
#endif
    else
        must(0, "no such peer");
    return 0;
}
