// What the bench asks of a peer: a key set for a mode and a way, a run under it, and the check. A peer holds its own contexts.
#ifndef PEERS_H
#define PEERS_H
#include <stddef.h>
#include <stdint.h>

enum { ECB, CBC, CFB, OFB, MODES };
enum { ENCRYPT, DECRYPT, WAYS };

// A message in CCM with a nonce of 13 bytes: to be sealed, or sealed with a tag of 8 behind it, which `length` counts too.
typedef struct {
    const uint8_t *nonce, *ad, *text;
    size_t ad_length, length;
} message;

typedef struct {
    const char *name;
    void (*set)(int mode, int way, const uint8_t *key, size_t length);
    void (*run)(int mode, int way, const uint8_t *iv, const uint8_t *in, uint8_t *out, size_t length);
    // One block encrypted under the key that was set for CBC encryption: the IV of an image block.
    void (*lone)(const uint8_t *in, uint8_t *out);
    void (*set_check)(const uint8_t *key, size_t length);
    void (*check)(const uint8_t *message, size_t length, uint8_t *out);
    // A message sealed or opened, the key set up inside.
    void (*ccm)(int way, const uint8_t *key, size_t length, const message *m, uint8_t *out);
} peer;

extern const peer tomcrypt_peer, nettle_peer, openssl_peer, evp_peer, bytewise_peer;

// OpenSSL's CCM is in its general layer alone: with AES instructions off in the environment it goes over tables too.
void evp_ccm(int way, const uint8_t *key, size_t length, const message *m, uint8_t *out);

void must(int holds, const char *what);
#endif
