// Records, readers and receivers that no start made, images longer than memory, and the largest image received, which no line of a console
// reaches: each call returns, and answers as the rules say.
#include <stdbool.h>
#include <stdio.h>
#include <stdlib.h>
#include <string.h>

#include "../../include/dock.h"

enum { TRIALS = 5000 };

static const uint8_t ekey[16] = {1, 2, 3}, ckey[24] = {4, 5, 6}, zeros[16];
static uint64_t seed = 0x9e3779b97f4a7c15;
static long compared;

static uint64_t drawn(void) {
    seed ^= seed << 13;
    seed ^= seed >> 7;
    seed ^= seed << 17;
    return seed;
}

static void expect(bool holds, const char *what) {
    compared++;
    if (holds) return;
    fprintf(stderr, "states: %s\n", what);
    exit(1);
}

static void fill(void *memory, size_t size) {
    uint8_t *bytes = memory;
    for (size_t i = 0; i < size; i++) bytes[i] = (uint8_t)(drawn() >> 32);
}

// Mostly a number near those that count, and sometimes any.
static size_t some_number(void) {
    return drawn() % 4 ? drawn() % 20 : drawn();
}

static bool usable(size_t rounds) {
    return rounds == 10 || rounds == 12 || rounds == 14;
}

static void one_record(void) {
    uint8_t part[100];
    dock_record record;
    fill(part, sizeof part);
    fill(&record, sizeof record);
    record.rounds = some_number();
    record.count = some_number();
    dock_record fed = record, cut = record;
    size_t first = drawn() % sizeof part;
    dock_check_feed(&fed, part, sizeof part);
    dock_check_feed(&cut, part, first);
    dock_check_feed(&cut, part + first, sizeof part - first);
    expect(memcmp(&fed, &cut, sizeof fed) == 0, "feeding at once and in two parts differ");
    expect(memcmp(fed.words, record.words, sizeof fed.words) == 0 && fed.rounds == record.rounds, "feeding changes a schedule");
    expect(fed.count >= 1 && fed.count <= 16, "more than a piece is held");
    dock_check_answer answer = dock_check_close(fed);
    expect(answer.number == 0, "closing is refused");
    expect(usable(fed.rounds) || memcmp(answer.check, zeros, 16) == 0, "a check without rounds is not zeros");
}

// What a block says in its first 16 bytes, and the check that it is sealed on if bytes 14 and 15 are 2.
typedef struct {
    uint32_t number, count, release, length, mark;
    uint8_t on[16];
} header;

static void put(uint8_t *at, uint32_t value, int bytes) {
    for (int i = 0; i < bytes; i++) at[i] = (uint8_t)(value >> 8 * (bytes - 1 - i));
}

// A block with any header, right or wrong, in the format; dock_write only seals right ones.
static void seal(const header *h, uint8_t *block) {
    uint8_t payload[480] = {0}, covered[512];
    dock_block first;
    memset(payload, 7, h->length < 480 ? h->length : 480);
    put(block, h->number, 4);
    put(block + 4, h->count, 4);
    put(block + 8, h->release, 4);
    put(block + 12, h->length, 2);
    put(block + 14, h->mark, 2);
    memcpy(first.bytes, block, 16);
    dock_block_answer iv = dock_encrypt(ekey, sizeof ekey, first);
    expect(dock_cbc_encrypt(ekey, sizeof ekey, iv.block, 16, payload, 480, block + 16, 480).number == 0, "sealing by hand");
    memcpy(covered, block, 496);
    memcpy(covered + 496, h->on, 16);
    memcpy(block + 496, dock_check(ckey, sizeof ckey, covered, h->mark == 2 ? 512 : 496).check, 16);
}

static bool is_complete(dock_progress progress) {
    return progress.next != 0 && progress.next == progress.count;
}

static bool is_closed(dock_progress progress) {
    return progress.next != 0 && progress.next >= progress.count;
}

static bool same_reader(const dock_reader *a, const dock_reader *b) {
    return memcmp(a, b, sizeof *a) == 0;
}

// A reader with a schedule that no key made accepts nothing.
static void one_reader(const uint8_t *block) {
    uint8_t output[480], before[480];
    dock_reader reader;
    fill(&reader, sizeof reader);
    fill(output, sizeof output);
    memcpy(before, output, sizeof output);
    reader.enc.rounds = some_number();
    reader.chk.rounds = usable(reader.enc.rounds) ? 11 : some_number();
    reader.progress.next = (uint32_t)some_number();
    reader.progress.count = (uint32_t)some_number();
    dock_turn_answer turn = dock_read_turn(reader, block, 512, 128, output, sizeof output);
    expect(turn.number == 0 && turn.accepted == 0 && turn.bytes == 0, "a reader without keys accepts a block");
    expect(turn.reason == (is_closed(reader.progress) ? 16 : 14) && turn.value == 0 && turn.place == 0, "why a reader without keys refuses");
    expect(same_reader(&turn.reader, &reader), "a refused block changes a reader");
    expect(memcmp(output, before, sizeof output) == 0, "a refused block changes the output");
    expect(dock_read_complete(reader) == (is_complete(reader.progress) ? 0 : 17), "whether a reader is complete");
    turn = dock_read_turn(reader, block, 512, 0, output, sizeof output);
    expect(turn.number == 5 && same_reader(&turn.reader, &reader), "a turn refused as a whole changes a reader");
}

typedef struct {
    dock_progress progress;
    header block;
    uint32_t reason, value;  // 0 where the block is accepted
} odd_case;

// Readers with keys in states that no reading reaches. If next is not 0 and not below the count, no block may follow.
static const odd_case cases[] = {
    {{7, 5, 9, 1, {0}}, {7, 5, 9, 480, 0, {0}}, 16, 0},
    {{7, 5, 9, 1, {0}}, {6, 5, 9, 480, 0, {0}}, 16, 0},
    {{7, 5, 9, 1, {0}}, {7, 8, 9, 480, 0, {0}}, 16, 0},
    {{UINT32_MAX, 0, 0, 1, {0}}, {UINT32_MAX, 65535, 9, 480, 0, {0}}, 16, 0},
    {{65535, 1, 1, 2, {0}}, {65535, 65535, 9, 480, 2, {0}}, 16, 0},
    {{65536, 65536, 9, 1, {0}}, {65536, 65536, 9, 480, 0, {0}}, 16, 0},
    {{5, 5, 9, 2, {5}}, {5, 5, 9, 480, 2, {6}}, 16, 0},
    {{1, 0, 0, 3, {0}}, {0, 1, 0, 480, 0, {0}}, 16, 0},
    {{0, 0, 0, 0, {0}}, {1, 2, 9, 480, 0, {0}}, 8, 1},
    {{0, 77, 78, 1, {0}}, {0, 0, 9, 480, 0, {0}}, 7, 0},
    {{2, 65536, 9, 1, {0}}, {2, 65536, 9, 480, 0, {0}}, 7, 65536},
    {{UINT32_MAX - 1, UINT32_MAX, 9, 1, {0}}, {UINT32_MAX - 1, 65535, 9, 480, 0, {0}}, 9, 65535},
    {{4, 5, 9, 1, {0}}, {4, 6, 9, 480, 0, {0}}, 9, 6},
    {{4, 5, 9, 1, {0}}, {4, 5, 8, 480, 0, {0}}, 10, 8},
    {{0, 1, 9, 1, {0}}, {0, 1, 8, 0, 0, {0}}, 0, 0},
    {{0, 77, 78, 1, {0}}, {0, 10, 9, 480, 0, {0}}, 0, 0},
    {{4, 5, 9, 1, {0}}, {4, 5, 9, 480, 0, {0}}, 0, 0},
    {{65534, 65535, 9, 1, {0}}, {65534, 65535, 9, 480, 0, {0}}, 0, 0},
    // The edition is asked where next is not 0 alone, and the cover of edition 2 has the last check, whatever number is read.
    {{0, 0, 0, 0, {0}}, {0, 2, 9, 480, 2, {0}}, 0, 0},
    {{0, 0, 0, 77, {0}}, {0, 2, 9, 480, 2, {0}}, 0, 0},
    {{0, 77, 78, 2, {5}}, {0, 10, 9, 480, 0, {0}}, 0, 0},
    {{0, 77, 78, 1, {5}}, {0, 10, 9, 480, 2, {5}}, 0, 0},
    {{0, 77, 78, 1, {5}}, {0, 10, 9, 480, 2, {0}}, 14, 0},
    {{0, 0, 0, 0, {0}}, {3, 5, 9, 480, 2, {0}}, 8, 3},
    {{0, 0, 0, 0, {0}}, {3, 5, 9, 480, 2, {6}}, 14, 0},
    {{4, 5, 9, 2, {5}}, {4, 5, 9, 480, 2, {5}}, 0, 0},
    {{4, 5, 9, 2, {5}}, {4, 5, 9, 480, 2, {6}}, 14, 0},
    {{4, 5, 9, 2, {5}}, {3, 5, 9, 480, 2, {6}}, 14, 0},
    {{4, 5, 9, 2, {5}}, {3, 5, 9, 480, 2, {5}}, 8, 3},
    {{4, 5, 9, 2, {5}}, {4, 5, 9, 480, 0, {0}}, 13, 0},
    {{4, 5, 9, 1, {5}}, {4, 5, 9, 480, 2, {5}}, 13, 2},
    {{4, 5, 9, 1, {5}}, {4, 5, 9, 480, 2, {6}}, 14, 0},
    // No block has an edition that does not exist.
    {{4, 5, 9, 0, {5}}, {4, 5, 9, 480, 0, {0}}, 13, 0},
    {{4, 5, 9, 0, {5}}, {4, 5, 9, 480, 2, {5}}, 13, 2},
    {{4, 5, 9, 3, {5}}, {4, 5, 9, 480, 0, {0}}, 13, 0},
    {{4, 5, 9, 3, {5}}, {4, 5, 9, 480, 2, {5}}, 13, 2},
    {{4, 5, 9, 3, {5}}, {4, 5, 9, 480, 3, {5}}, 13, 3},
    {{4, 5, 9, 65538, {5}}, {4, 5, 9, 480, 2, {5}}, 13, 2},
    {{4, 5, 9, UINT32_MAX, {5}}, {4, 5, 9, 480, 65535, {5}}, 13, 65535},
    {{0, 0, 0, 0, {0}}, {0, 2, 9, 480, 1, {0}}, 13, 1},
    {{0, 0, 0, 0, {0}}, {0, 2, 9, 480, 3, {0}}, 13, 3},
    {{0, 0, 0, 0, {0}}, {0, 2, 9, 480, 512, {0}}, 13, 512},
};

// The rules once more, in their order, for a block whose check and fill are right: the first that applies, and the value found.
static bool length_fits(const header *h) {
    uint32_t least = h->count == 1 ? 0 : 1;
    return h->number + 1 < h->count ? h->length == 480 : h->length >= least && h->length <= 480;
}

static bool edition_fits(const dock_progress *p, uint32_t mark) {
    if (p->next == 0) return mark == 0 || mark == 2;
    return (p->edition == 1 && mark == 0) || (p->edition == 2 && mark == 2);
}

static uint32_t judged(const dock_progress *p, const header *h, uint32_t *value) {
    *value = 0;
    if (is_closed(*p)) return 16;
    if (h->mark == 2 && memcmp(h->on, p->last, 16) != 0) return 14;
    *value = h->count;
    if (h->count < 1 || h->count > 65535) return 7;
    *value = h->number;
    if (h->number != p->next) return 8;
    *value = h->count;
    if (p->next != 0 && h->count != p->count) return 9;
    *value = h->release;
    if (p->next != 0 && h->release != p->release) return 10;
    *value = h->length;
    if (!length_fits(h)) return 12;
    *value = h->mark;
    if (!edition_fits(p, h->mark)) return 13;
    *value = 0;
    return 0;
}

static void one_case(const odd_case *c) {
    uint8_t block[512], output[480];
    dock_reader reader = dock_read_start(ekey, sizeof ekey, ckey, sizeof ckey).reader;
    reader.progress = c->progress;
    seal(&c->block, block);
    dock_turn_answer turn = dock_read_turn(reader, block, sizeof block, 1, output, sizeof output);
    expect(turn.number == 0 && turn.reason == c->reason && turn.value == c->value, "the answer of a reader that has come elsewhere");
    expect(turn.accepted == (c->reason == 0), "whether such a reader accepts");
    if (c->reason == 0) {
        reader.progress = (dock_progress){c->progress.next + 1, c->block.count, c->block.release, c->block.mark == 2 ? 2 : 1, {0}};
        memcpy(reader.progress.last, block + 496, 16);
    }
    expect(same_reader(&turn.reader, &reader), "where such a reader stands");
}

static void one_by_hand(const odd_case *c) {
    uint32_t value, reason = judged(&c->progress, &c->block, &value);
    expect(reason == c->reason && value == c->value, "the rules once more");
    one_case(c);
}

// Mostly the one, and sometimes any.
static uint32_t mostly(uint32_t usual) {
    return drawn() % 8 ? usual : (uint32_t)some_number();
}

// Any edition and any last check, and a block that fits the reader in most of what it says.
static void one_drawn(void) {
    odd_case c;
    dock_progress *p = &c.progress;
    header *h = &c.block;
    *p = (dock_progress){.next = (uint32_t)drawn() % 3, .count = mostly(3), .release = mostly(9), .edition = mostly(drawn() % 4)};
    if (drawn() % 4) fill(p->last, sizeof p->last);
    *h = (header){.number = mostly(p->next), .count = mostly(p->count), .release = mostly(p->release)};
    h->length = mostly(480) % 65536;
    h->mark = mostly(drawn() % 2 ? 2 : 0) % 65536;
    memcpy(h->on, p->last, sizeof h->on);
    if (drawn() % 4 == 0) h->on[drawn() % 16] ^= (uint8_t)(1 << drawn() % 8);
    c.reason = judged(p, h, &c.value);
    one_case(&c);
}

// Any length of an image, up to all that a number can say, and places around its last block: the place is compared before it is
// multiplied.
static void one_view(void) {
    size_t length = drawn() % 2 ? drawn() / 512 * 512 : some_number() * 512;
    if (drawn() % 8 == 0) length = SIZE_MAX - drawn() % 600;
    size_t blocks = length % 512 == 0 ? length / 512 : 0;
    size_t places[] = {0, blocks / 2, blocks - 1, blocks, blocks + 1, drawn(), SIZE_MAX, SIZE_MAX / 512 + 1};
    for (size_t i = 0; i < sizeof places / sizeof *places; i++) {
        size_t place = places[i];
        bool there = place < blocks;
        dock_view_answer block = dock_view_block(length, place), check = dock_view_check(length, place);
        expect(block.made == (length % 512 == 0 ? 0 : 6) && block.blocks == blocks && block.number == (there ? 0 : 20), "the numbers of a view");
        expect(check.made == block.made && check.blocks == block.blocks && check.number == block.number, "a block's view and its check's");
        expect(block.offset == (there ? place * 512 : 0) && block.length == (there ? 512 : 0), "where a block lies");
        expect(check.offset == (there ? place * 512 + 496 : 0) && check.length == (there ? 16 : 0), "where a check lies");
    }
}

// A receiver that no start made, with a schedule that no key made, accepts nothing, whatever room it is lent.
static void one_receiver(const uint8_t *block) {
    uint8_t store[960], map[3], store_before[960], map_before[3];
    dock_receiver receiver;
    fill(&receiver, sizeof receiver);
    fill(store, sizeof store);
    fill(map, sizeof map);
    memcpy(store_before, store, sizeof store);
    memcpy(map_before, map, sizeof map);
    receiver.enc.rounds = some_number();
    receiver.chk.rounds = usable(receiver.enc.rounds) ? 13 : some_number();
    receiver.receipt.count = (uint32_t)some_number();
    receiver.receipt.held = drawn() % 2 ? receiver.receipt.count : (uint32_t)some_number();
    bool room = receiver.receipt.count <= 2;
    dock_receive_answer answer = dock_receive(receiver, block, 512, store, sizeof store, map, sizeof map);
    expect(answer.number == (room ? 14 : 4) && answer.value == 0, "why a receiver without keys refuses");
    expect(memcmp(&answer.receiver, &receiver, sizeof receiver) == 0, "a refused block changes a receiver");
    expect(memcmp(store, store_before, sizeof store) == 0 && memcmp(map, map_before, sizeof map) == 0, "a refused block changes what is lent");
    answer = dock_receive(receiver, block, 511, store, sizeof store, map, sizeof map);
    expect(answer.number == 6 && memcmp(&answer.receiver, &receiver, sizeof receiver) == 0, "a block of 511 bytes");
    bool complete = receiver.receipt.count != 0 && receiver.receipt.held == receiver.receipt.count;
    expect(dock_receive_complete(receiver) == (complete ? 0 : 17), "whether a receiver is complete");
}

// A receiver with keys whose counts no receiving reaches: they stay at the largest number.
static void one_sum(uint32_t held, uint32_t bytes, uint32_t length) {
    uint8_t block[512], store[480] = {0}, map[1] = {0xff};
    dock_receiver receiver = dock_receive_start(ekey, sizeof ekey, ckey, sizeof ckey, 1, 9, store, sizeof store, map, sizeof map).receiver;
    expect(map[0] == 0, "a start clears the map");
    receiver.receipt.held = held;
    receiver.receipt.bytes = bytes;
    seal(&(header){0, 1, 9, length, 0, {0}}, block);
    dock_receipt after = dock_receive(receiver, block, sizeof block, store, sizeof store, map, sizeof map).receiver.receipt;
    expect(after.held == (held == UINT32_MAX ? held : held + 1), "the count held");
    expect(after.bytes == (bytes > UINT32_MAX - length ? UINT32_MAX : bytes + length), "the sum of lengths");
    expect(map[0] == 1, "the bit of block 0");
}

// The largest image, its blocks in a jumbled order, into memory of exactly its size: every block is accepted once and refused a second time.
static void largest(void) {
    enum { COUNT = 65535, STEP = 40504 };
    uint8_t *store = malloc((size_t)COUNT * 480), *map = malloc(8192), block[512], payload[480];
    expect(store && map, "memory for the largest image");
    memset(map, 0xff, 8192);
    expect(dock_receive_start(ekey, sizeof ekey, ckey, sizeof ckey, COUNT, 9, store, (size_t)COUNT * 480 - 1, map, 8192).number == 4, "a store one byte short");
    expect(dock_receive_start(ekey, sizeof ekey, ckey, sizeof ckey, COUNT, 9, store, (size_t)COUNT * 480, map, 8191).number == 4, "a map one byte short");
    dock_receiver receiver = dock_receive_start(ekey, sizeof ekey, ckey, sizeof ckey, COUNT, 9, store, (size_t)COUNT * 480, map, 8192).receiver;
    uint32_t number = 0;
    for (uint32_t i = 0; i < COUNT; i++) {
        expect(dock_receive_complete(receiver) == 17, "complete before the last block");
        number = (number + STEP) % COUNT;
        memset(payload, (int)(number % 251 + 1), sizeof payload);
        payload[0] = (uint8_t)(number / 256);
        expect(dock_write(ekey, sizeof ekey, ckey, sizeof ckey, number, COUNT, 9, 1, (dock_block){{0}}, payload, 480, block, 512) == 0, "a block written");
        dock_receive_answer answer = dock_receive(receiver, block, 512, store, (size_t)COUNT * 480, map, 8192);
        expect(answer.number == 0 && answer.receiver.receipt.held == i + 1, "a block of the largest image");
        receiver = answer.receiver;
        if (i % 4096 == 0)
            expect(dock_receive(receiver, block, 512, store, (size_t)COUNT * 480, map, 8192).number == 21, "a block once more");
    }
    expect(dock_receive_complete(receiver) == 0 && receiver.receipt.bytes == (uint32_t)COUNT * 480, "the largest image is complete");
    for (uint32_t n = 0; n < COUNT; n++)
        expect(store[(size_t)n * 480] == (uint8_t)(n / 256) && store[(size_t)n * 480 + 479] == (uint8_t)(n % 251 + 1), "the store of the largest image");
    for (size_t i = 0; i < 8192; i++) expect(map[i] == (i == 8191 ? 0x7f : 0xff), "the map of the largest image");
    free(store);
    free(map);
}

int main(void) {
    uint8_t block[512];
    seal(&(header){0, 1, 2, 480, 0, {0}}, block);
    for (int i = 0; i < TRIALS; i++) one_record();
    for (int i = 0; i < TRIALS; i++) one_reader(block);
    for (size_t i = 0; i < sizeof cases / sizeof *cases; i++) one_by_hand(&cases[i]);
    for (int i = 0; i < TRIALS; i++) one_drawn();
    for (int i = 0; i < TRIALS; i++) one_view();
    for (int i = 0; i < TRIALS; i++) one_receiver(block);
    static const uint32_t sums[] = {0, 1, UINT32_MAX - 480, UINT32_MAX - 479, UINT32_MAX - 1, UINT32_MAX};
    for (size_t i = 0; i < sizeof sums / sizeof *sums; i++)
        for (size_t k = 0; k < sizeof sums / sizeof *sums; k++) {
            one_sum(sums[i], sums[k], 0);
            one_sum(sums[i], sums[k], 480);
        }
    largest();
    printf("states: %ld comparisons hold\n", compared);
    return 0;
}
