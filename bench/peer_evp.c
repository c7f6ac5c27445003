// OpenSSL through its general layer (EVP), which uses AES instructions where the processor has them, as a peer.
// Contexts and ciphers are made once, before any timing.
#define OPENSSL_SUPPRESS_DEPRECATED
#include "peers.h"

#include <openssl/evp.h>
#include <stdio.h>

static EVP_CIPHER_CTX *contexts[2][MODES][WAYS];
static EVP_CIPHER_CTX *current[MODES][WAYS];

static EVP_CIPHER_CTX *context(size_t length, int mode, int way)
{
    static const char *names[MODES] = {"ECB", "CBC", "CFB", "OFB"};
    EVP_CIPHER_CTX **slot = &contexts[length == 32][mode][way];
    if (!*slot) {
        char name[16];
        snprintf(name, sizeof name, "AES-%zu-%s", length * 8, names[mode]);
        EVP_CIPHER *cipher = EVP_CIPHER_fetch(NULL, name, NULL);
        *slot = EVP_CIPHER_CTX_new();
        must(cipher && *slot && EVP_CipherInit_ex2(*slot, cipher, NULL, NULL, way == ENCRYPT, NULL), name);
        EVP_CIPHER_CTX_set_padding(*slot, 0);
    }
    return *slot;
}

static void set(int mode, int way, const uint8_t *key, size_t length)
{
    current[mode][way] = context(length, mode, way);
    must(EVP_CipherInit_ex2(current[mode][way], NULL, key, NULL, -1, NULL), "OpenSSL: key");
}

static void run(int mode, int way, const uint8_t *iv, const uint8_t *in, uint8_t *out, size_t length)
{
    EVP_CIPHER_CTX *c = current[mode][way];
    int made;
    if (mode != ECB)
        must(EVP_CipherInit_ex2(c, NULL, NULL, iv, -1, NULL), "OpenSSL: IV");
    must(EVP_CipherUpdate(c, out, &made, in, (int)length) && made == (int)length, "OpenSSL: run");
}

// CBC from an IV of zeros: no second context, and no second key set-up, for one block.
static void lone(const uint8_t *in, uint8_t *out)
{
    static const uint8_t zero[16];
    run(CBC, ENCRYPT, zero, in, out, 16);
}

static void set_check(const uint8_t *key, size_t length)
{
    openssl_peer.set_check(key, length);
}

static void check(const uint8_t *message, size_t length, uint8_t *out)
{
    openssl_peer.check(message, length, out);
}

static EVP_CIPHER_CTX *ccm_context(size_t length, int way)
{
    static EVP_CIPHER_CTX *made[2][WAYS];
    EVP_CIPHER_CTX **slot = &made[length == 32][way];
    if (!*slot) {
        EVP_CIPHER *cipher = EVP_CIPHER_fetch(NULL, length == 32 ? "AES-256-CCM" : "AES-128-CCM", NULL);
        *slot = EVP_CIPHER_CTX_new();
        must(cipher && *slot && EVP_CipherInit_ex2(*slot, cipher, NULL, NULL, way == ENCRYPT, NULL) &&
                 EVP_CIPHER_CTX_ctrl(*slot, EVP_CTRL_AEAD_SET_IVLEN, 13, NULL), "OpenSSL: CCM");
    }
    return *slot;
}

void evp_ccm(int way, const uint8_t *key, size_t length, const message *m, uint8_t *out)
{
    EVP_CIPHER_CTX *c = ccm_context(length, way);
    int size = (int)(way == ENCRYPT ? m->length : m->length - 8), made;
    uint8_t *tag = way == ENCRYPT ? NULL : (uint8_t *)m->text + size;
    must(EVP_CIPHER_CTX_ctrl(c, EVP_CTRL_AEAD_SET_TAG, 8, tag) && EVP_CipherInit_ex2(c, NULL, key, m->nonce, -1, NULL) &&
             EVP_CipherUpdate(c, NULL, &made, NULL, size) && EVP_CipherUpdate(c, NULL, &made, m->ad, (int)m->ad_length) &&
             EVP_CipherUpdate(c, out, &made, m->text, size) && made == size, "OpenSSL: CCM");
    if (way == ENCRYPT)
        must(EVP_CIPHER_CTX_ctrl(c, EVP_CTRL_AEAD_GET_TAG, 8, out + size), "OpenSSL: tag");
}

const peer evp_peer = {"OpenSSL, EVP", set, run, lone, set_check, check, evp_ccm};
