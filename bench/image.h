// The rule of image blocks (docs/IMAGE.md) over a peer's cipher and check, for full blocks.
#ifndef IMAGE_H
#define IMAGE_H
#include "peers.h"

typedef struct {
    uint32_t next, count, release;
} image_place;

// Seals under the keys that the peer was given for CBC encryption and for the check.
void image_seal(const peer *p, image_place place, const uint8_t payload[480], uint8_t block[512]);

// Takes up to k blocks in, under keys set for CBC both ways and for the check, and gives how many were accepted.
size_t image_read(const peer *p, image_place place, const uint8_t *blocks, size_t k, uint8_t *out);
#endif
