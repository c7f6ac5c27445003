// nettle as a peer. It has no OFB, so that mode is written over its block call.
#include "peers.h"

#include <nettle/cbc.h>
#include <nettle/ccm.h>
#include <nettle/cfb.h>
#include <nettle/cmac.h>
#include <nettle/memxor.h>
#include <nettle/nettle-meta.h>
#include <string.h>

static const struct nettle_cipher *cipher;
static const struct nettle_mac *mac;
static union {
    struct aes128_ctx small;
    struct aes256_ctx large;
} keys[WAYS];
static union {
    struct cmac_aes128_ctx small;
    struct cmac_aes256_ctx large;
} check_key;

// CFB and OFB use the encrypting cipher both ways.
static int schedule(int mode, int way)
{
    return mode == CFB || mode == OFB ? ENCRYPT : way;
}

static void set(int mode, int way, const uint8_t *key, size_t length)
{
    cipher = length == 16 ? &nettle_aes128 : &nettle_aes256;
    if (schedule(mode, way) == ENCRYPT)
        cipher->set_encrypt_key(&keys[ENCRYPT], key);
    else
        cipher->set_decrypt_key(&keys[DECRYPT], key);
}

static void run_ofb(uint8_t *chain, const uint8_t *in, uint8_t *out, size_t length)
{
    for (size_t at = 0; at < length; at += 16) {
        cipher->encrypt(&keys[ENCRYPT], 16, chain, chain);
        memxor3(out + at, in + at, chain, 16);
    }
}

static void run_chained(int mode, int way, uint8_t *chain, const uint8_t *in, uint8_t *out, size_t length)
{
    if (mode == OFB)
        run_ofb(chain, in, out, length);
    else if (mode == CFB)
        (way == ENCRYPT ? cfb_encrypt : cfb_decrypt)(&keys[ENCRYPT], cipher->encrypt, 16, chain, length, out, in);
    else if (way == ENCRYPT)
        cbc_encrypt(&keys[ENCRYPT], cipher->encrypt, 16, chain, length, out, in);
    else
        cbc_decrypt(&keys[DECRYPT], cipher->decrypt, 16, chain, length, out, in);
}

static void run(int mode, int way, const uint8_t *iv, const uint8_t *in, uint8_t *out, size_t length)
{
    uint8_t chain[16];
    if (mode == ECB) {
        (way == ENCRYPT ? cipher->encrypt : cipher->decrypt)(&keys[way], length, out, in);
        return;
    }
    memcpy(chain, iv, 16);
    run_chained(mode, way, chain, in, out, length);
}

static void lone(const uint8_t *in, uint8_t *out)
{
    cipher->encrypt(&keys[ENCRYPT], 16, out, in);
}

static void set_check(const uint8_t *key, size_t length)
{
    mac = length == 16 ? &nettle_cmac_aes128 : &nettle_cmac_aes256;
    mac->set_key(&check_key, key);
}

static void check(const uint8_t *message, size_t length, uint8_t *out)
{
    mac->update(&check_key, length, message);
    mac->digest(&check_key, 16, out);
}

static void ccm(int way, const uint8_t *key, size_t length, const message *m, uint8_t *out)
{
    set(CBC, ENCRYPT, key, length);
    if (way == ENCRYPT)
        ccm_encrypt_message(&keys[ENCRYPT], cipher->encrypt, 13, m->nonce, m->ad_length, m->ad, 8, m->length + 8, out, m->text);
    else
        must(ccm_decrypt_message(&keys[ENCRYPT], cipher->encrypt, 13, m->nonce, m->ad_length, m->ad, 8, m->length - 8, out, m->text),
             "nettle: ccm");
}

const peer nettle_peer = {"nettle", set, run, lone, set_check, check, ccm};
