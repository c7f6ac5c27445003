// The cells of the speed table, for ours and for each peer.
#include "cells.h"

#include "image.h"
#include "shim.h"

#include <string.h>

// clang-format off
const cell cells[CELLS] = {
    {"one block, encrypted", "ns", 16}, {"one block, decrypted", "ns", 16},
    {"ECB encryption, 1 MiB", "MB/s", LONG}, {"ECB decryption, 1 MiB", "MB/s", LONG},
    {"CBC encryption, 1 MiB", "MB/s", LONG}, {"CBC decryption, 1 MiB", "MB/s", LONG},
    {"CFB encryption, 1 MiB", "MB/s", LONG}, {"CFB decryption, 1 MiB", "MB/s", LONG},
    {"OFB, 1 MiB", "MB/s", LONG},
    {"CMAC of 496 bytes", "ns", 16},
    {"an image block written", "ns", BLOCK}, {"an image block read", "ns", PAYLOAD},
    {"a turn of 128 blocks read", "MB/s", TURN * PAYLOAD},
    {"a message of 496 bytes sealed", "ns", MESSAGE + 8}, {"a message of 496 bytes opened", "ns", MESSAGE},
};
// clang-format on

uint8_t output[LONG];
static uint8_t input[LONG], blocks[TURN * BLOCK], key[32], check_key[32], iv[16], sealed[MESSAGE + 8];
static const message plain = {iv, check_key, input, DATA, MESSAGE}, closed = {iv, check_key, sealed, DATA, MESSAGE + 8};
static const image_place place = {0, TURN, 7};
static const dock_block none;
static dock_reader reader;

static void fill(uint8_t *at, size_t length, uint32_t seed)
{
    for (size_t i = 0; i < length; i++) {
        seed = seed * 1664525 + 1013904223;
        at[i] = (uint8_t)(seed >> 24);
    }
}

void make_inputs(const peer *sealer, size_t key_length)
{
    fill(key, sizeof key, 1);
    fill(check_key, sizeof check_key, 2);
    fill(iv, sizeof iv, 3);
    fill(input, sizeof input, 4);
    sealer->ccm(ENCRYPT, key, key_length, &plain, sealed);
    sealer->set(CBC, ENCRYPT, key, key_length);
    sealer->set_check(check_key, key_length);
    for (uint32_t j = 0; j < TURN; j++) {
        image_place at = {j, place.count, place.release};
        image_seal(sealer, at, input + PAYLOAD * j, blocks + BLOCK * j);
    }
}

static void prepare_ours(int at, size_t key_length)
{
    dock_read_start_answer started;
    if (at != READ && at != READ_TURN)
        return;
    shim_read_start(key, key_length, check_key, key_length, &started);
    must(started.number == 0, "ours: read_start");
    reader = started.reader;
}

// A reader's schedules are made before its turns; every other call is given keys.
void prepare(const peer *p, int at, size_t key_length)
{
    if (!p) {
        prepare_ours(at, key_length);
        return;
    }
    if (at != READ && at != READ_TURN)
        return;
    p->set(CBC, ENCRYPT, key, key_length);
    p->set(CBC, DECRYPT, key, key_length);
    p->set_check(check_key, key_length);
}

static void one_block(int way, size_t key_length)
{
    dock_block block;
    dock_block_answer answer;
    memcpy(block.bytes, input, 16);
    (way == ENCRYPT ? shim_encrypt : shim_decrypt)(key, key_length, &block, &answer);
    must(answer.number == 0, "ours: one block");
    memcpy(output, answer.block, 16);
}

typedef SHIM_CHAIN(call);

static void whole(int mode, int way, size_t key_length)
{
    static shim_call *const calls[MODES][WAYS] = {
        [CBC] = {shim_cbc_encrypt, shim_cbc_decrypt},
        [CFB] = {shim_cfb_encrypt, shim_cfb_decrypt},
        [OFB] = {shim_ofb},
    };
    dock_chain_answer answer;
    if (mode == ECB)
        answer.number = (way == ENCRYPT ? dock_ecb_encrypt : dock_ecb_decrypt)(key, key_length, iv, 0, input, LONG, output, LONG);
    else
        calls[mode][way](key, key_length, iv, 16, input, LONG, output, LONG, &answer);
    must(answer.number == 0, "ours: a mode");
}

static void check(size_t key_length)
{
    dock_check_answer answer;
    shim_check(check_key, key_length, input, 496, &answer);
    must(answer.number == 0, "ours: check");
    memcpy(output, answer.check, 16);
}

static void turn(size_t k)
{
    dock_turn_answer answer;
    shim_read_turn(&reader, blocks, BLOCK * k, k, output, PAYLOAD * k, &answer);
    must(answer.number == 0 && answer.reason == 0 && answer.accepted == k, "ours: a turn");
}

static void ccm(int way, size_t key_length)
{
    const message *m = way == ENCRYPT ? &plain : &closed;
    must((way == ENCRYPT ? dock_ccm_seal : dock_ccm_open)(key, key_length, m->nonce, 13, m->ad, m->ad_length, m->text, m->length, output,
                                                         LONG) == 0, "ours: ccm");
}

static void call_ours(int at, size_t key_length)
{
    if (at < WHOLE)
        one_block(at - ONE_BLOCK, key_length);
    else if (at < CHECK)
        whole((at - WHOLE) / WAYS, (at - WHOLE) % WAYS, key_length);
    else if (at == CHECK)
        check(key_length);
    else if (at == WRITE)
        must(dock_write(key, key_length, check_key, key_length, place.next, place.count, place.release, 1, none,
                        input, PAYLOAD, output, BLOCK) == 0, "ours: write");
    else if (at >= SEAL)
        ccm(at - SEAL, key_length);
    else
        turn(at == READ ? 1 : TURN);
}

static void call_peer(const peer *p, int at, size_t key_length)
{
    if (at < CHECK) {
        int mode = at < WHOLE ? ECB : (at - WHOLE) / WAYS, way = at < WHOLE ? at - ONE_BLOCK : (at - WHOLE) % WAYS;
        p->set(mode, way, key, key_length);
        p->run(mode, way, iv, input, output, cells[at].result);
    } else if (at == CHECK) {
        p->set_check(check_key, key_length);
        p->check(input, 496, output);
    } else if (at == WRITE) {
        p->set(CBC, ENCRYPT, key, key_length);
        p->set_check(check_key, key_length);
        image_seal(p, place, input, output);
    } else if (at >= SEAL) {
        p->ccm(at - SEAL, key, key_length, at == SEAL ? &plain : &closed, output);
    } else {
        size_t k = at == READ ? 1 : TURN;
        must(image_read(p, place, blocks, k, output) == k, p->name);
    }
}

void call(const peer *p, int at, size_t key_length)
{
    if (p)
        call_peer(p, at, key_length);
    else
        call_ours(at, key_length);
}
