// The running check, fed in place in many different parts, equals the whole check: linked from C, on messages of up to 3 MiB.
#include <stdio.h>
#include <stdlib.h>
#include <string.h>

#include "../../include/dock.h"

static uint64_t seed = 88172645463325252ULL;

static uint64_t drawn(void) {
    seed ^= seed << 13;
    seed ^= seed >> 7;
    seed ^= seed << 17;
    return seed;
}

static long compared = 0;

static void expect(int holds, const char *what, size_t length) {
    compared++;
    if (!holds) {
        fprintf(stderr, "feed: %s, length %zu\n", what, length);
        exit(1);
    }
}

// Feeds the message in parts of up to `most` bytes, an empty one among them now and then, and closes, twice and on the way.
static void run(const uint8_t *key, size_t key_length, const uint8_t *message, size_t length, size_t most) {
    dock_check_answer whole = dock_check(key, key_length, message, length);
    dock_start_answer started = dock_check_start(key, key_length);
    dock_record record = started.record;
    expect(whole.number == 0 && started.number == 0, "a key of a right length is refused", length);
    size_t at = 0;
    while (at < length) {
        size_t part = drawn() % (most + 1);
        if (part > length - at) part = length - at;
        dock_record before = record;
        dock_check_feed(&record, message + at, part);
        if (part == 0) expect(memcmp(before.chain, record.chain, 16) == 0 && before.count == record.count, "an empty part changes the record", length);
        at += part;
    }
    dock_check_answer once = dock_check_close(record);
    dock_check_answer twice = dock_check_close(record);
    expect(memcmp(once.check, whole.check, 16) == 0, "running and whole differ", length);
    expect(memcmp(twice.check, whole.check, 16) == 0, "closing again differs", length);
    dock_check_feed(&record, message, length);
    expect(length == 0 || memcmp(dock_check_close(record).check, whole.check, 16) != 0, "a record that was closed cannot be fed on", length);
}

int main(void) {
    static const size_t lengths[] = {0, 1, 15, 16, 17, 31, 32, 33, 480, 496, 512, 4095, 4096, 4097, 65536, 1048576, 3145728};
    static const size_t cuts[] = {1, 2, 15, 16, 17, 31, 33, 480, 4096, 100000, 4194304};
    static const size_t keys[] = {16, 24, 32};
    uint8_t *message = malloc(3145728);
    uint8_t key[32];
    if (!message) return 1;
    for (size_t i = 0; i < 3145728; i++) message[i] = (uint8_t)drawn();
    for (size_t i = 0; i < 32; i++) key[i] = (uint8_t)drawn();
    for (size_t k = 0; k < sizeof keys / sizeof *keys; k++)
        for (size_t l = 0; l < sizeof lengths / sizeof *lengths; l++)
            for (size_t c = 0; c < sizeof cuts / sizeof *cuts; c++)
                if (lengths[l] <= 4097 || cuts[c] >= 4096 || keys[k] == 16) run(key, keys[k], message, lengths[l], cuts[c]);
    for (size_t n = 0; n <= 64; n++)
        if (n != 16 && n != 24 && n != 32) expect(dock_check_start(message, n).number == 1 && dock_check(message, n, message, 5).number == 1, "a key of a wrong length is taken", n);
    printf("feed: %ld comparisons hold\n", compared);
    return 0;
}
