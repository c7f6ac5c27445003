// Edition 1: a receiver takes the blocks in any order. It has no bookmark, so the sealed blocks themselves are kept, each at 512 times
// its number, and after a restart each is offered again to a new receiver. No map, number or schedule in the flash is trusted: whatever
// is found there, a block counts only if its check is right.
//
// Two builds under one release number mix in edition 1, across a restart too. Give each build its own number, or seal in edition 2.
#include <stdio.h>
#include <stdlib.h>
#include <string.h>
#include <unistd.h>

#include "cabinet.h"

static dock_receiver receiver;
static uint8_t *store;
static uint8_t *map;
static size_t store_size;
static size_t map_size;
static int blocks;
static bool news;

static bool started(const job *j) {
    store_size = (size_t)j->order.count * DOCK_IMAGE_PAYLOAD;
    map_size = ((size_t)j->order.count + 7) / 8;
    store = calloc(store_size, 1);
    map = calloc(map_size, 1);
    if (!store || !map) return failed("the store", "there is no memory for it");
    dock_receive_answer start = dock_receive_start(j->keys.encryption, j->keys.size, j->keys.check, j->keys.size, j->order.count,
                                                   j->order.release, store, store_size, map, map_size);
    receiver = start.receiver;
    wipe(&start, sizeof start);
    return start.number == DOCK_DONE || refused("the order", start.number);
}

static uint32_t received(const uint8_t *block, size_t length) {
    dock_receive_answer answer = dock_receive(receiver, block, length, store, store_size, map, map_size);
    receiver = answer.receiver;
    wipe(&answer.receiver, sizeof answer.receiver);
    return answer.number;
}

// Where no block came yet, the file has zeros.
static bool empty(const uint8_t *block) {
    static const uint8_t zeros[DOCK_IMAGE_BLOCK];
    return memcmp(block, zeros, sizeof zeros) == 0;
}

static void offered_again(const uint8_t *block, size_t length) {
    uint32_t number = length == DOCK_IMAGE_BLOCK && empty(block) ? DOCK_DONE : received(block, length);
    if (number != DOCK_DONE) refused("a block that was kept", number);
}

static bool found(const job *j) {
    uint8_t block[DOCK_IMAGE_BLOCK];
    size_t length = sizeof block;
    if (!started(j) || !file_opened(j->folder, BLOCKS, &blocks)) return false;
    for (uint32_t place = 0; place < j->order.count && length == sizeof block; place++) {
        if (!part_read(blocks, BLOCKS, block, sizeof block, (uint64_t)place * sizeof block, &length)) return false;
        if (length > 0) offered_again(block, length);
    }
    fprintf(stderr, "cabinet: going on with %u blocks\n", (unsigned)receiver.receipt.held);
    return true;
}

static bool complete(void) {
    return dock_receive_complete(receiver) == DOCK_DONE;
}

// The first ones whose bits are not set.
static size_t lacking(const job *j, uint32_t *numbers, size_t most) {
    size_t count = 0;
    for (uint32_t n = 0; n < j->order.count && count < most; n++)
        if (!(map[n / 8] >> (n % 8) & 1)) numbers[count++] = n;
    return count;
}

// The number of an accepted block is covered by its check, and below the count.
static bool offered(const job *j, const uint8_t *datagram, size_t length, uint32_t *number) {
    (void)j;
    *number = received(datagram, length);
    if (*number != DOCK_DONE) return true;
    news = true;
    return part_written(blocks, BLOCKS, datagram, length, (uint64_t)number_at(datagram) * DOCK_IMAGE_BLOCK);
}

// Nothing is trusted at a restart, so a lost write costs that block alone.
static bool kept(const job *j) {
    (void)j;
    if (!news) return true;
    news = false;
    return stored(blocks, BLOCKS);
}

// From memory, where the receiver put it: the payload is written only now.
static bool installed(const job *j) {
    int payload;
    uint32_t bytes = receiver.receipt.bytes;
    if (!complete() || !file_opened(j->folder, PAYLOAD, &payload)) return false;
    bool right = part_written(payload, PAYLOAD, store, bytes, 0) && cut(payload, PAYLOAD, bytes) && stored(payload, PAYLOAD);
    close(payload);
    return right && renamed(j->folder, PAYLOAD, RELEASE);
}

static void wiped(void) {
    wipe(&receiver, sizeof receiver);
    if (store) wipe(store, store_size);
}

const way any_order = {found, lacking, offered, kept, complete, installed, wiped};
