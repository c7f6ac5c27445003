// Simplified AES at every block, under each key of four hex digits among the words: the states of the block's encryption and then those
// of its decryption, two bytes each, the high one first.
#include <stdio.h>
#include <stdlib.h>

#include "../../include/dock.h"

static void put(uint16_t state) {
    putchar(state >> 8);
    putchar(state & 255);
}

static void put_all(dock_states states) {
    put(states.first);
    put(states.second);
    put(states.third);
}

int main(int count, char **words) {
    for (int i = 1; i < count; i++) {
        uint16_t key = (uint16_t)strtoul(words[i], NULL, 16);
        for (uint32_t block = 0; block < 65536; block++) {
            put_all(dock_saes_encrypt(key, (uint16_t)block));
            put_all(dock_saes_decrypt(key, (uint16_t)block));
        }
    }
    return fflush(stdout) == 0 && !ferror(stdout) ? 0 : 1;
}
