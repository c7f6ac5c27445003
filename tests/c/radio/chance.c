// Numbers that follow from a seed (xorshift64*), and the clock.
#define _POSIX_C_SOURCE 200809L
#include <time.h>

#include "radio.h"

static uint64_t state = 1;

void chance_begins(uint64_t seed) {
    state = seed * 0x9e3779b97f4a7c15u + 1;
    for (int i = 0; i < 8; i++) chance(2);
}

uint32_t chance(uint32_t below) {
    if (state == 0) state = 1;
    state ^= state >> 12;
    state ^= state << 25;
    state ^= state >> 27;
    return (uint32_t)((state * 0x2545f4914f6cdd1du >> 32) % below);
}

bool one_in(uint32_t many) {
    return chance(many) == 0;
}

void noise(uint8_t *bytes, size_t length) {
    for (size_t i = 0; i < length; i++) bytes[i] = (uint8_t)chance(256);
}

uint64_t microseconds(void) {
    struct timespec now;
    clock_gettime(CLOCK_MONOTONIC, &now);
    return (uint64_t)now.tv_sec * 1000000 + (uint64_t)now.tv_nsec / 1000;
}
