// speed check: holds the result of every cell, ours and each peer's, to that of OpenSSL's general layer.
// speed off, speed on: times every cell once, and prints key size, cell, peer and nanoseconds; 'on' is OpenSSL's general layer alone,
// for an environment that leaves it the processor's AES instructions. speed versions, speed cpu: the libraries at hand,
// and the processor as OpenSSL sees it.
#include "cells.h"

#include <nettle/version.h>
#include <openssl/crypto.h>
#include <stdio.h>
#include <stdlib.h>
#include <string.h>
#include <time.h>
#include <tomcrypt.h>

static const size_t key_lengths[] = {16, 32};
static const peer *const off[] = {NULL, &tomcrypt_peer, &nettle_peer, &openssl_peer, &bytewise_peer};
static const peer *const on[] = {&evp_peer};
enum { OFF = sizeof off / sizeof off[0], ON = sizeof on / sizeof on[0], KEYS = 2 };

void must(int holds, const char *what)
{
    if (holds)
        return;
    fprintf(stderr, "speed: failed: %s\n", what);
    exit(1);
}

static void check_cell(const peer *p, int at, size_t key_length, const uint8_t *expected)
{
    // Twice, since a peer's context might not survive its first use.
    for (int time = 0; time < 2; time++) {
        memset(output, 0xee, sizeof output);
        prepare(p, at, key_length);
        call(p, at, key_length);
        call(p, at, key_length);
        if (memcmp(output, expected, cells[at].result) != 0) {
            fprintf(stderr, "speed: %s, %s, key of %zu bytes: not what OpenSSL gives\n", cells[at].name, p ? p->name : "ours", key_length);
            exit(1);
        }
    }
}

static void check_all(void)
{
    static uint8_t expected[LONG];
    for (int k = 0; k < KEYS; k++) {
        make_inputs(&evp_peer, key_lengths[k]);
        for (int at = 0; at < CELLS; at++) {
            prepare(&evp_peer, at, key_lengths[k]);
            call(&evp_peer, at, key_lengths[k]);
            memcpy(expected, output, cells[at].result);
            for (int i = 0; i < OFF; i++)
                check_cell(off[i], at, key_lengths[k], expected);
        }
    }
    printf("%d results agree with OpenSSL's\n", KEYS * CELLS * OFF);
}

static double now(void)
{
    struct timespec t;
    clock_gettime(CLOCK_MONOTONIC, &t);
    return (double)t.tv_sec * 1e9 + (double)t.tv_nsec;
}

static double calls(const peer *p, int at, size_t key_length, size_t n)
{
    double begun = now();
    for (size_t i = 0; i < n; i++)
        call(p, at, key_length);
    return now() - begun;
}

// Nanoseconds a call, over as many calls as take two milliseconds; the calls before that warm the caches.
static double timed(const peer *p, int at, size_t key_length)
{
    size_t n = 1;
    double took;
    prepare(p, at, key_length);
    while (took = calls(p, at, key_length, n), took < 2e6)
        n = took < 2e5 ? n * 8 : n * 2;
    return took / (double)n;
}

static void time_all(const peer *const *peers, int count)
{
    for (int k = 0; k < KEYS; k++) {
        make_inputs(&bytewise_peer, key_lengths[k]);
        for (int at = 0; at < CELLS; at++)
            for (int i = 0; i < count; i++)
                printf("%zu\t%d\t%s\t%s\t%zu\t%s\t%.1f\n", key_lengths[k] * 8, at, cells[at].name, cells[at].unit, cells[at].result,
                       peers[i] ? peers[i]->name : "ours", timed(peers[i], at, key_lengths[k]));
    }
}

static void versions(void)
{
    printf("libtomcrypt %s, nettle %d.%d, %s\n", SCRYPT, nettle_version_major(), nettle_version_minor(), OpenSSL_version(OPENSSL_VERSION));
}

// What OpenSSL takes the processor to have, so that the tables show whether its AES instructions were off.
static void cpu(void)
{
    puts(OPENSSL_info(OPENSSL_INFO_CPU_SETTINGS));
}

int main(int count, char **words)
{
    const char *what = count == 2 ? words[1] : "";
    if (strcmp(what, "check") == 0)
        check_all();
    else if (strcmp(what, "off") == 0)
        time_all(off, OFF);
    else if (strcmp(what, "on") == 0)
        time_all(on, ON);
    else if (strcmp(what, "versions") == 0)
        versions();
    else if (strcmp(what, "cpu") == 0)
        cpu();
    else
        return 2;
    return 0;
}
