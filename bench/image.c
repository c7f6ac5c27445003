// The rule of image blocks over a peer's cipher and check.
#include "image.h"

#include <string.h>

static void put32(uint8_t *at, uint32_t x)
{
    for (int i = 0; i < 4; i++)
        at[i] = (uint8_t)(x >> (24 - 8 * i));
}

static uint32_t get32(const uint8_t *at)
{
    return (uint32_t)at[0] << 24 | (uint32_t)at[1] << 16 | (uint32_t)at[2] << 8 | at[3];
}

void image_seal(const peer *p, image_place place, const uint8_t payload[480], uint8_t block[512])
{
    uint8_t iv[16];
    put32(block, place.next);
    put32(block + 4, place.count);
    put32(block + 8, place.release);
    put32(block + 12, 480u << 16);
    p->lone(block, iv);
    p->run(CBC, ENCRYPT, iv, payload, block + 16, 480);
    p->check(block, 496, block + 496);
}

// Number, count, release, length and reserved bytes, as a reader that has begun tests them. A length below 480 may stand in the
// last block alone.
static int head_fits(image_place place, const uint8_t *block)
{
    uint32_t length = get32(block + 12) >> 16;
    return get32(block) == place.next && get32(block + 4) == place.count && get32(block + 8) == place.release &&
           place.next < place.count && (length == 480 || (length < 480 && place.next + 1 == place.count)) &&
           block[14] == 0 && block[15] == 0;
}

static int fill_is_zero(const uint8_t *plain, size_t from)
{
    uint8_t any = 0;
    for (size_t i = from; i < 480; i++)
        any |= plain[i];
    return any == 0;
}

// A full block has no fill to test, so it is decrypted straight into the output, as ours is.
static int read_block(const peer *p, image_place place, const uint8_t *block, uint8_t *out)
{
    uint8_t made[16], iv[16], plain[480];
    size_t length = get32(block + 12) >> 16;
    p->check(block, 496, made);
    if (memcmp(made, block + 496, 16) != 0 || !head_fits(place, block))
        return 0;
    p->lone(block, iv);
    p->run(CBC, DECRYPT, iv, block + 16, length == 480 ? out : plain, 480);
    if (length == 480)
        return 1;
    if (!fill_is_zero(plain, length))
        return 0;
    memcpy(out, plain, 480);
    return 1;
}

size_t image_read(const peer *p, image_place place, const uint8_t *blocks, size_t k, uint8_t *out)
{
    for (size_t j = 0; j < k; j++) {
        if (!read_block(p, place, blocks + 512 * j, out + 480 * j))
            return j;
        place.next++;
    }
    return k;
}
