// Prints, for every exported call, the stack that it takes below its caller, over three key sizes and short and long arguments.
#include "dock.h"

#include <stdio.h>
#include <stdlib.h>
#include <string.h>

enum { LIMIT = 65536, LONG = 65536, TURN = 128 };

extern void *probe_target;
extern size_t probe_depth, probe_paint;
extern void probe(void);

static uint8_t input[LONG], output[LONG], image[TURN * 512], key[32];
static size_t key_length, least, most;

// The call, with its own type, made through the probe.
#define ON(name) ((__typeof__(&name))aimed((void *)name))

static void *aimed(void *target)
{
    probe_target = target;
    return (void *)probe;
}

// After each call: it must have been answered, and its depth is one of those seen.
static void seen(int answered)
{
    if (!answered || probe_depth >= LIMIT) {
        fprintf(stderr, "stack: a call was refused, or its stack passes %d bytes\n", LIMIT);
        exit(1);
    }
    if (probe_depth < least)
        least = probe_depth;
    if (probe_depth > most)
        most = probe_depth;
}

static void on_product(void)
{
    for (int b = 0; b < 256; b++) {
        uint8_t r = ON(dock_product)(0x57, (uint8_t)b);
        seen(b != 0x13 || r == 0xfe);
    }
}

static void on_schedule(void)
{
    dock_schedule_answer a = ON(dock_schedule)(key, key_length);
    seen(a.number == 0);
}

static void on_encrypt(void)
{
    dock_block block = {{1}};
    dock_block_answer a = ON(dock_encrypt)(key, key_length, block);
    seen(a.number == 0);
}

static void on_decrypt(void)
{
    dock_block block = {{1}};
    dock_block_answer a = ON(dock_decrypt)(key, key_length, block);
    seen(a.number == 0);
}

static const size_t wholes[] = {0, 16, 32, 4096, LONG};
enum { WHOLES = sizeof wholes / sizeof wholes[0] };

#define ON_MODE(name, iv_length, answer, number)                                                              \
    static void on_##name(void)                                                                               \
    {                                                                                                         \
        for (int i = 0; i < WHOLES; i++) {                                                                    \
            answer a = ON(dock_##name)(key, key_length, input, iv_length, input, wholes[i], output, LONG);    \
            seen(number == 0);                                                                                \
        }                                                                                                     \
    }
ON_MODE(ecb_encrypt, 0, uint32_t, a)
ON_MODE(ecb_decrypt, 0, uint32_t, a)
ON_MODE(cbc_encrypt, 16, dock_chain_answer, a.number)
ON_MODE(cbc_decrypt, 16, dock_chain_answer, a.number)
ON_MODE(cfb_encrypt, 16, dock_chain_answer, a.number)
ON_MODE(cfb_decrypt, 16, dock_chain_answer, a.number)
ON_MODE(ofb, 16, dock_chain_answer, a.number)

static const size_t wides[] = {0, 1, 2, 40};
enum { WIDES = sizeof wides / sizeof wides[0] };

// So many blocks of the width.
#define ON_WIDE(name, width, iv_length, answer, number)                                                               \
    static void on_##name(void)                                                                                       \
    {                                                                                                                 \
        for (int i = 0; i < WIDES; i++) {                                                                             \
            answer a = ON(dock_##name)(key, key_length, input, iv_length, input, width * wides[i], output, LONG);     \
            seen(number == 0);                                                                                        \
        }                                                                                                             \
    }
ON_WIDE(wide24_ecb_encrypt, 24, 0, uint32_t, a)
ON_WIDE(wide24_ecb_decrypt, 24, 0, uint32_t, a)
ON_WIDE(wide24_cbc_encrypt, 24, 24, dock_chain24_answer, a.number)
ON_WIDE(wide24_cbc_decrypt, 24, 24, dock_chain24_answer, a.number)
ON_WIDE(wide32_ecb_encrypt, 32, 0, uint32_t, a)
ON_WIDE(wide32_ecb_decrypt, 32, 0, uint32_t, a)
ON_WIDE(wide32_cbc_encrypt, 32, 32, dock_chain32_answer, a.number)
ON_WIDE(wide32_cbc_decrypt, 32, 32, dock_chain32_answer, a.number)

static const size_t lengths[] = {0, 1, 16, 17, 496, 4096, LONG};
enum { LENGTHS = sizeof lengths / sizeof lengths[0] };

static void on_check(void)
{
    for (int i = 0; i < LENGTHS; i++) {
        dock_check_answer a = ON(dock_check)(key, key_length, input, lengths[i]);
        seen(a.number == 0);
    }
}

static void on_check_start(void)
{
    dock_start_answer a = ON(dock_check_start)(key, key_length);
    seen(a.number == 0);
}

static void on_check_feed(void)
{
    dock_record record = dock_check_start(key, key_length).record;
    for (int i = 0; i < LENGTHS; i++) {
        ON(dock_check_feed)(&record, input, lengths[i]);
        seen(record.rounds != 0);
    }
}

static void on_check_close(void)
{
    for (int i = 0; i < LENGTHS; i++) {
        dock_record record = dock_check_start(key, key_length).record;
        dock_check_feed(&record, input, lengths[i]);
        dock_check_answer a = ON(dock_check_close)(record);
        seen(a.number == 0);
    }
}

static void on_write(void)
{
    dock_block previous = {{1}};
    for (uint32_t i = 0; i < 8; i++) {
        size_t length = i / 2 * 160;
        uint32_t a = ON(dock_write)(key, key_length, key, key_length, 0, 1, 7, i % 2 + 1, previous, input, length, output, 512);
        seen(a == 0);
    }
}

static void on_read_start(void)
{
    dock_read_start_answer a = ON(dock_read_start)(key, key_length, key, key_length);
    seen(a.number == 0);
}

static dock_reader started(void)
{
    return dock_read_start(key, key_length, key, key_length).reader;
}

static void make_image(uint32_t edition)
{
    dock_block previous = {{0}};
    for (uint32_t j = 0; j < TURN; j++) {
        uint8_t *block = image + 512 * j;
        if (dock_write(key, key_length, key, key_length, j, TURN, 7, edition, previous, input, 480, block, 512) != 0)
            exit(1);
        memcpy(previous.bytes, block + 496, 16);
    }
}

static void on_turns(uint32_t edition)
{
    make_image(edition);
    for (size_t k = 0; k <= TURN; k = k * 2 + (k == 0)) {
        dock_turn_answer a = ON(dock_read_turn)(started(), image, k * 512, TURN, output, LONG);
        seen(a.number == 0 && a.reason == 0 && a.accepted == k);
    }
}

static void on_read_turn(void)
{
    on_turns(1);
    on_turns(2);
}

static void on_read_complete(void)
{
    make_image(1);
    dock_reader reader = dock_read_turn(started(), image, sizeof image, TURN, output, LONG).reader;
    uint32_t a = ON(dock_read_complete)(reader);
    seen(a == 0);
}

static void on_read_save(void)
{
    dock_bookmark a = ON(dock_read_save)(started(), 480);
    seen(a.bytes[38] == 1);
}

static void on_read_resume(void)
{
    dock_bookmark bookmark = dock_read_save(started(), 480);
    dock_resume_answer a = ON(dock_read_resume)(key, key_length, key, key_length, bookmark);
    seen(a.number == 0 && a.bytes == 480);
}

static uint8_t store[TURN * 480], map[TURN / 8];

static dock_receiver receiving(void)
{
    return dock_receive_start(key, key_length, key, key_length, TURN, 7, store, sizeof store, map, sizeof map).receiver;
}

static void on_receive_start(void)
{
    dock_receive_answer a =
        ON(dock_receive_start)(key, key_length, key, key_length, TURN, 7, store, sizeof store, map, sizeof map);
    seen(a.number == 0);
}

// Blocks that are accepted, the last with fill, one that is held already, and one whose check is wrong.
static void on_receive(void)
{
    make_image(1);
    dock_receiver receiver = receiving();
    for (size_t i = TURN; i-- > 0;) {
        dock_receive_answer a =
            ON(dock_receive)(receiver, image + i * 512, 512, store, sizeof store, map, sizeof map);
        seen(a.number == 0 && a.receiver.receipt.held == TURN - i);
        receiver = a.receiver;
    }
    dock_receive_answer again = ON(dock_receive)(receiver, image, 512, store, sizeof store, map, sizeof map);
    seen(again.number == DOCK_ALREADY_HELD);
    image[0] ^= 1;
    dock_receive_answer wrong = ON(dock_receive)(receiver, image, 512, store, sizeof store, map, sizeof map);
    seen(wrong.number == DOCK_CHECK_WRONG);
}

static void on_receive_complete(void)
{
    uint32_t a = ON(dock_receive_complete)(receiving());
    seen(a == DOCK_NOT_COMPLETE);
}

static void on_wrap(void)
{
    for (size_t length = 16; length <= 64; length += 8) {
        uint32_t a = ON(dock_wrap)(key, key_length, input, length, output, LONG);
        seen(a == 0);
    }
}

static void on_unwrap(void)
{
    uint8_t wrapped[72];
    for (size_t length = 16; length <= 64; length += 8) {
        dock_wrap(key, key_length, input, length, wrapped, sizeof wrapped);
        uint32_t a = ON(dock_unwrap)(key, key_length, wrapped, length + 8, output, LONG);
        seen(a == 0);
    }
}

static const size_t places[] = {0, 1, TURN - 1, TURN, SIZE_MAX};
enum { PLACES = sizeof places / sizeof places[0] };

#define ON_VIEW(name)                                                                  \
    static void on_##name(void)                                                        \
    {                                                                                  \
        for (int i = 0; i < PLACES; i++) {                                             \
            dock_view_answer a = ON(dock_##name)(sizeof image, places[i]);             \
            seen(a.number == (places[i] < TURN ? 0 : DOCK_NOT_BELOW_COUNT));           \
        }                                                                              \
    }
ON_VIEW(view_block)
ON_VIEW(view_check)

static void on_saes_encrypt(void)
{
    dock_states s = ON(dock_saes_encrypt)(0x1f56, 0x2726);
    seen(s.third == 0x2105);
}

static void on_saes_decrypt(void)
{
    dock_states s = ON(dock_saes_decrypt)(0x1f56, 0x2105);
    seen(s.third == 0x2726);
}

static const size_t messages[] = {0, 1, 16, 17, 1023, 1024}, datas[] = {0, 1, 14, 15, 64};
enum { MESSAGES = sizeof messages / sizeof messages[0], DATAS = sizeof datas / sizeof datas[0] };

static void on_ccm_seal(void)
{
    for (int i = 0; i < MESSAGES * DATAS; i++) {
        uint32_t a = ON(dock_ccm_seal)(key, key_length, input, 13, input, datas[i % DATAS], input, messages[i / DATAS], output, LONG);
        seen(a == 0);
    }
}

static void on_ccm_open(void)
{
    uint8_t sealed[1032];
    for (int i = 0; i < MESSAGES * DATAS; i++) {
        size_t length = messages[i / DATAS], ad = datas[i % DATAS];
        dock_ccm_seal(key, key_length, input, 13, input, ad, input, length, sealed, sizeof sealed);
        uint32_t a = ON(dock_ccm_open)(key, key_length, input, 13, input, ad, sealed, length + 8, output, LONG);
        seen(a == 0);
    }
}

// What a caller pushes before the call: structs by value of more than 16 bytes, and whatever comes after six numbers or pointers.
// A result of more than 16 bytes goes where the caller has room for it.
static const struct {
    const char *name;
    void (*on)(void);
    size_t pushed, result;
} calls[] = {
    {"dock_product", on_product, 0, 0},
    {"dock_schedule", on_schedule, 0, sizeof(dock_schedule_answer)},
    {"dock_encrypt", on_encrypt, 0, sizeof(dock_block_answer)},
    {"dock_decrypt", on_decrypt, 0, sizeof(dock_block_answer)},
    {"dock_ecb_encrypt", on_ecb_encrypt, 16, 0},
    {"dock_ecb_decrypt", on_ecb_decrypt, 16, 0},
    {"dock_cbc_encrypt", on_cbc_encrypt, 24, sizeof(dock_chain_answer)},
    {"dock_cbc_decrypt", on_cbc_decrypt, 24, sizeof(dock_chain_answer)},
    {"dock_cfb_encrypt", on_cfb_encrypt, 24, sizeof(dock_chain_answer)},
    {"dock_cfb_decrypt", on_cfb_decrypt, 24, sizeof(dock_chain_answer)},
    {"dock_ofb", on_ofb, 24, sizeof(dock_chain_answer)},
    {"dock_wide24_ecb_encrypt", on_wide24_ecb_encrypt, 16, 0},
    {"dock_wide24_ecb_decrypt", on_wide24_ecb_decrypt, 16, 0},
    {"dock_wide24_cbc_encrypt", on_wide24_cbc_encrypt, 24, sizeof(dock_chain24_answer)},
    {"dock_wide24_cbc_decrypt", on_wide24_cbc_decrypt, 24, sizeof(dock_chain24_answer)},
    {"dock_wide32_ecb_encrypt", on_wide32_ecb_encrypt, 16, 0},
    {"dock_wide32_ecb_decrypt", on_wide32_ecb_decrypt, 16, 0},
    {"dock_wide32_cbc_encrypt", on_wide32_cbc_encrypt, 24, sizeof(dock_chain32_answer)},
    {"dock_wide32_cbc_decrypt", on_wide32_cbc_decrypt, 24, sizeof(dock_chain32_answer)},
    {"dock_check", on_check, 0, sizeof(dock_check_answer)},
    {"dock_check_start", on_check_start, 0, sizeof(dock_start_answer)},
    {"dock_check_feed", on_check_feed, 0, 0},
    {"dock_check_close", on_check_close, sizeof(dock_record), sizeof(dock_check_answer)},
    {"dock_write", on_write, 64, 0},
    {"dock_read_start", on_read_start, 0, sizeof(dock_read_start_answer)},
    {"dock_read_turn", on_read_turn, sizeof(dock_reader), sizeof(dock_turn_answer)},
    {"dock_read_complete", on_read_complete, sizeof(dock_reader), 0},
    {"dock_read_save", on_read_save, sizeof(dock_reader), sizeof(dock_bookmark)},
    {"dock_read_resume", on_read_resume, sizeof(dock_bookmark), sizeof(dock_resume_answer)},
    {"dock_receive_start", on_receive_start, 40, sizeof(dock_receive_answer)},
    {"dock_receive", on_receive, sizeof(dock_receiver) + 8, sizeof(dock_receive_answer)},
    {"dock_receive_complete", on_receive_complete, sizeof(dock_receiver), 0},
    {"dock_wrap", on_wrap, 0, 0},
    {"dock_unwrap", on_unwrap, 0, 0},
    {"dock_view_block", on_view_block, 0, sizeof(dock_view_answer)},
    {"dock_view_check", on_view_check, 0, sizeof(dock_view_answer)},
    {"dock_saes_encrypt", on_saes_encrypt, 0, 0},
    {"dock_saes_decrypt", on_saes_decrypt, 0, 0},
    {"dock_ccm_seal", on_ccm_seal, 32, 0},
    {"dock_ccm_open", on_ccm_open, 32, 0},
};

// Two colours, since a byte that a call happens to write in the first shows in the second.
static void measure(void (*on)(void))
{
    static const uint8_t colours[] = {0xa5, 0x3c};
    least = LIMIT;
    most = 0;
    for (int c = 0; c < 2; c++)
        for (key_length = 16; key_length <= 32; key_length += 8) {
            probe_paint = colours[c];
            on();
        }
}

int main(void)
{
    for (size_t i = 0; i < sizeof input; i++)
        input[i] = (uint8_t)(i * 167 + i / 256);
    memcpy(key, input + 100, sizeof key);
    for (size_t i = 0; i < sizeof calls / sizeof calls[0]; i++) {
        measure(calls[i].on);
        printf("| %s | %zu | %zu | %zu | %zu |\n", calls[i].name, least, most, calls[i].pushed, calls[i].result);
    }
    return 0;
}
