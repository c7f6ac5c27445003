// The smallest use: reads an image under the two keys of 16 bytes that come first on standard input, and is done where it is complete.
#include "dock.h"

#include <stdio.h>

enum { TURN = 128 };

static uint8_t keys[32], blocks[TURN * DOCK_IMAGE_BLOCK], output[TURN * DOCK_IMAGE_PAYLOAD];

int main(void)
{
    if (fread(keys, 1, sizeof keys, stdin) != sizeof keys)
        return 2;
    dock_reader reader = dock_read_start(keys, 16, keys + 16, 16).reader;
    size_t length;
    while ((length = fread(blocks, 1, sizeof blocks, stdin)) > 0)
        reader = dock_read_turn(reader, blocks, length, TURN, output, sizeof output).reader;
    return dock_read_complete(reader) == 0 ? 0 : 1;
}
