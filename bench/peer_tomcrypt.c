// libtomcrypt as a peer. Where only encryption is needed, its cipher without the decryption schedule is used.
#include "peers.h"

#include <string.h>
#include <tomcrypt.h>

static int whole = -1, enc_only = -1;
static symmetric_ECB ecb[WAYS];
static symmetric_CBC cbc[WAYS];
static symmetric_CFB cfb;
static symmetric_OFB ofb;
static omac_state omac;

static void ready(void)
{
    if (whole >= 0)
        return;
    whole = register_cipher(&aes_desc);
    enc_only = register_cipher(&aes_enc_desc);
    must(whole >= 0 && enc_only >= 0, "libtomcrypt: register_cipher");
}

static void set(int mode, int way, const uint8_t *key, size_t length)
{
    static const uint8_t zero[16];
    int size = (int)length, cipher, answer;
    ready();
    cipher = way == ENCRYPT || mode == CFB || mode == OFB ? enc_only : whole;
    if (mode == ECB)
        answer = ecb_start(cipher, key, size, 0, &ecb[way]);
    else if (mode == CBC)
        answer = cbc_start(cipher, zero, key, size, 0, &cbc[way]);
    else if (mode == CFB)
        answer = cfb_start(cipher, zero, key, size, 0, &cfb);
    else
        answer = ofb_start(cipher, zero, key, size, 0, &ofb);
    must(answer == CRYPT_OK, "libtomcrypt: start");
}

static int run_ecb(int way, const uint8_t *in, uint8_t *out, size_t length)
{
    return way == ENCRYPT ? ecb_encrypt(in, out, length, &ecb[way]) : ecb_decrypt(in, out, length, &ecb[way]);
}

static int run_cbc(int way, const uint8_t *iv, const uint8_t *in, uint8_t *out, size_t length)
{
    cbc_setiv(iv, 16, &cbc[way]);
    return way == ENCRYPT ? cbc_encrypt(in, out, length, &cbc[way]) : cbc_decrypt(in, out, length, &cbc[way]);
}

static int run_cfb(int way, const uint8_t *iv, const uint8_t *in, uint8_t *out, size_t length)
{
    cfb_setiv(iv, 16, &cfb);
    return way == ENCRYPT ? cfb_encrypt(in, out, length, &cfb) : cfb_decrypt(in, out, length, &cfb);
}

static int run_ofb(const uint8_t *iv, const uint8_t *in, uint8_t *out, size_t length)
{
    ofb_setiv(iv, 16, &ofb);
    return ofb_encrypt(in, out, length, &ofb);
}

static void run(int mode, int way, const uint8_t *iv, const uint8_t *in, uint8_t *out, size_t length)
{
    int answer;
    if (mode == ECB)
        answer = run_ecb(way, in, out, length);
    else if (mode == CBC)
        answer = run_cbc(way, iv, in, out, length);
    else if (mode == CFB)
        answer = run_cfb(way, iv, in, out, length);
    else
        answer = run_ofb(iv, in, out, length);
    must(answer == CRYPT_OK, "libtomcrypt: run");
}

static void lone(const uint8_t *in, uint8_t *out)
{
    rijndael_enc_ecb_encrypt(in, out, &cbc[ENCRYPT].key);
}

static void set_check(const uint8_t *key, size_t length)
{
    ready();
    must(omac_init(&omac, enc_only, key, length) == CRYPT_OK, "libtomcrypt: omac_init");
}

// The library has no call that starts a new check under the same key; these three fields are all that a run changes.
static void check(const uint8_t *message, size_t length, uint8_t *out)
{
    unsigned long room = 16;
    memset(omac.prev, 0, sizeof omac.prev);
    memset(omac.block, 0, sizeof omac.block);
    omac.buflen = 0;
    must(omac_process(&omac, message, length) == CRYPT_OK && omac_done(&omac, out, &room) == CRYPT_OK, "libtomcrypt: omac");
}

static void ccm(int way, const uint8_t *key, size_t length, const message *m, uint8_t *out)
{
    size_t size = way == ENCRYPT ? m->length : m->length - 8;
    uint8_t *text = (uint8_t *)m->text;
    unsigned long tag = 8;
    ready();
    must(ccm_memory(enc_only, key, length, NULL, m->nonce, 13, m->ad, m->ad_length, way == ENCRYPT ? text : out, size,
                    way == ENCRYPT ? out : text, (way == ENCRYPT ? out : text) + size, &tag,
                    way == ENCRYPT ? CCM_ENCRYPT : CCM_DECRYPT) == CRYPT_OK, "libtomcrypt: ccm");
}

const peer tomcrypt_peer = {"libtomcrypt", set, run, lone, set_check, check, ccm};
