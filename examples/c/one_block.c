// One block of FIPS 197's example, encrypted. Build and run, in the repository:
//     tools/proved dock_c
//     cc -Iinclude examples/c/one_block.c target/staticlib/libdock.a -o one_block && ./one_block
#include <stdio.h>

#include "dock.h"

int main(void) {
    const uint8_t key[16] = {0, 1, 2, 3, 4, 5, 6, 7, 8, 9, 10, 11, 12, 13, 14, 15};
    const dock_block block = {{0x00, 0x11, 0x22, 0x33, 0x44, 0x55, 0x66, 0x77, 0x88, 0x99, 0xaa, 0xbb, 0xcc, 0xdd, 0xee, 0xff}};
    dock_block_answer answer = dock_encrypt(key, sizeof key, block);
    if (answer.number != DOCK_DONE) return 1;
    for (int i = 0; i < 16; i++) printf("%02x", answer.block[i]);
    printf("\n");
    return 0;
}
