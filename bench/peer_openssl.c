// OpenSSL's plain AES calls as a peer: no calls go through its general layer, and no AES instruction is ever used by them.
#define OPENSSL_SUPPRESS_DEPRECATED
#include "peers.h"

#include <openssl/aes.h>
#include <openssl/cmac.h>
#include <string.h>

static AES_KEY keys[WAYS];
static CMAC_CTX *mac;
static EVP_CIPHER *mac_cipher[2];

static int schedule(int mode, int way)
{
    return mode == CFB || mode == OFB ? ENCRYPT : way;
}

static void set(int mode, int way, const uint8_t *key, size_t length)
{
    if (schedule(mode, way) == ENCRYPT)
        AES_set_encrypt_key(key, (int)length * 8, &keys[ENCRYPT]);
    else
        AES_set_decrypt_key(key, (int)length * 8, &keys[DECRYPT]);
}

static void run_ecb(int way, const uint8_t *in, uint8_t *out, size_t length)
{
    for (size_t at = 0; at < length; at += 16)
        if (way == ENCRYPT)
            AES_encrypt(in + at, out + at, &keys[ENCRYPT]);
        else
            AES_decrypt(in + at, out + at, &keys[DECRYPT]);
}

static void run(int mode, int way, const uint8_t *iv, const uint8_t *in, uint8_t *out, size_t length)
{
    uint8_t chain[16];
    int at = 0, direction = way == ENCRYPT ? AES_ENCRYPT : AES_DECRYPT;
    if (mode == ECB) {
        run_ecb(way, in, out, length);
        return;
    }
    memcpy(chain, iv, 16);
    if (mode == CBC)
        AES_cbc_encrypt(in, out, length, &keys[way], chain, direction);
    else if (mode == CFB)
        AES_cfb128_encrypt(in, out, length, &keys[ENCRYPT], chain, &at, direction);
    else
        AES_ofb128_encrypt(in, out, length, &keys[ENCRYPT], chain, &at);
}

static void lone(const uint8_t *in, uint8_t *out)
{
    AES_encrypt(in, out, &keys[ENCRYPT]);
}

static void set_check(const uint8_t *key, size_t length)
{
    if (!mac) {
        mac = CMAC_CTX_new();
        mac_cipher[0] = EVP_CIPHER_fetch(NULL, "AES-128-CBC", NULL);
        mac_cipher[1] = EVP_CIPHER_fetch(NULL, "AES-256-CBC", NULL);
        must(mac && mac_cipher[0] && mac_cipher[1], "OpenSSL: CMAC");
    }
    must(CMAC_Init(mac, key, length, mac_cipher[length == 32], NULL), "OpenSSL: CMAC_Init");
}

static void check(const uint8_t *message, size_t length, uint8_t *out)
{
    size_t made;
    must(CMAC_Init(mac, NULL, 0, NULL, NULL) && CMAC_Update(mac, message, length) && CMAC_Final(mac, out, &made), "OpenSSL: CMAC");
}

const peer openssl_peer = {"OpenSSL, AES_*", set, run, lone, set_check, check, evp_ccm};
