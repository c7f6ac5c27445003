// The byte-wise cipher as a peer, with modes and check written over its two block calls.
#include "bytewise.h"
#include "peers.h"

#include <string.h>

static bytewise_key cipher_key, check_key;
static uint8_t subkey[16];

static void set(int mode, int way, const uint8_t *key, size_t length)
{
    (void)mode, (void)way;
    bytewise_expand(&cipher_key, key, length);
}

static void add(uint8_t *out, const uint8_t *a, const uint8_t *b)
{
    for (int i = 0; i < 16; i++)
        out[i] = a[i] ^ b[i];
}

static void run_ecb(int way, const uint8_t *in, uint8_t *out, size_t length)
{
    for (size_t at = 0; at < length; at += 16)
        if (way == ENCRYPT)
            bytewise_encrypt(&cipher_key, in + at, out + at);
        else
            bytewise_decrypt(&cipher_key, in + at, out + at);
}

static void run_cbc(int way, const uint8_t *chain, const uint8_t *in, uint8_t *out, size_t length)
{
    for (size_t at = 0; at < length; at += 16) {
        if (way == ENCRYPT) {
            add(out + at, in + at, chain);
            bytewise_encrypt(&cipher_key, out + at, out + at);
            chain = out + at;
        } else {
            bytewise_decrypt(&cipher_key, in + at, out + at);
            add(out + at, out + at, chain);
            chain = in + at;
        }
    }
}

static void run_stream(int mode, int way, const uint8_t *iv, const uint8_t *in, uint8_t *out, size_t length)
{
    uint8_t chain[16];
    memcpy(chain, iv, 16);
    for (size_t at = 0; at < length; at += 16) {
        bytewise_encrypt(&cipher_key, chain, chain);
        add(out + at, in + at, chain);
        if (mode == CFB)
            memcpy(chain, way == ENCRYPT ? out + at : in + at, 16);
    }
}

static void run(int mode, int way, const uint8_t *iv, const uint8_t *in, uint8_t *out, size_t length)
{
    if (mode == ECB)
        run_ecb(way, in, out, length);
    else if (mode == CBC)
        run_cbc(way, iv, in, out, length);
    else
        run_stream(mode, way, iv, in, out, length);
}

static void lone(const uint8_t *in, uint8_t *out)
{
    bytewise_encrypt(&cipher_key, in, out);
}

// Messages here are whole pieces and not empty, so the first subkey is enough.
static void set_check(const uint8_t *key, size_t length)
{
    bytewise_expand(&check_key, key, length);
    memset(subkey, 0, 16);
    bytewise_encrypt(&check_key, subkey, subkey);
    uint8_t top = subkey[0] >> 7;
    for (int i = 0; i < 15; i++)
        subkey[i] = (uint8_t)(subkey[i] << 1 | subkey[i + 1] >> 7);
    subkey[15] = (uint8_t)(subkey[15] << 1 ^ top * 0x87);
}

static void check(const uint8_t *message, size_t length, uint8_t *out)
{
    uint8_t chain[16] = {0};
    for (size_t at = 0; at < length; at += 16) {
        add(chain, chain, message + at);
        if (at + 16 == length)
            add(chain, chain, subkey);
        bytewise_encrypt(&check_key, chain, chain);
    }
    memcpy(out, chain, 16);
}

static void numbered(uint8_t *block, uint8_t flags, const uint8_t *nonce, size_t n)
{
    block[0] = flags;
    memcpy(block + 1, nonce, 13);
    block[14] = (uint8_t)(n >> 8), block[15] = (uint8_t)n;
}

// Into the chain, with zeros up to whole pieces; `held` bytes of the first piece are there already.
static void absorb(uint8_t *chain, size_t held, const uint8_t *text, size_t length)
{
    for (size_t i = 0; i < length; i++) {
        chain[held++] ^= text[i];
        if (held == 16)
            bytewise_encrypt(&cipher_key, chain, chain), held = 0;
    }
    if (held)
        bytewise_encrypt(&cipher_key, chain, chain);
}

static void ccm(int way, const uint8_t *key, size_t length, const message *m, uint8_t *out)
{
    size_t size = way == ENCRYPT ? m->length : m->length - 8;
    uint8_t chain[16], block[16];
    bytewise_expand(&cipher_key, key, length);
    for (size_t i = 0; i < size; i++) {
        if (i % 16 == 0)
            numbered(block, 1, m->nonce, i / 16 + 1), bytewise_encrypt(&cipher_key, block, block);
        out[i] = m->text[i] ^ block[i % 16];
    }
    numbered(chain, m->ad_length ? 0x59 : 0x19, m->nonce, size);
    bytewise_encrypt(&cipher_key, chain, chain);
    if (m->ad_length) {
        chain[0] ^= (uint8_t)(m->ad_length >> 8), chain[1] ^= (uint8_t)m->ad_length;
        absorb(chain, 2, m->ad, m->ad_length);
    }
    absorb(chain, 0, way == ENCRYPT ? m->text : out, size);
    numbered(block, 1, m->nonce, 0);
    bytewise_encrypt(&cipher_key, block, block);
    add(chain, chain, block);
    if (way == ENCRYPT)
        memcpy(out + size, chain, 8);
    else
        must(memcmp(m->text + size, chain, 8) == 0, "byte-wise: tag");
}

const peer bytewise_peer = {"byte-wise C", set, run, lone, set_check, check, ccm};
