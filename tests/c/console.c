// The console over dock.h: answers each line of docs/CONSOLE.md by the call linked from C, with every piece of memory that a call is
// lent between canaries. `console LONGEST` takes lines of that many bytes instead of 65,536. It stops if a call changes what it may
// not, or if an answer does not have the zeros, the record or the reader that dock.h promises.
#include <stdbool.h>
#include <stdio.h>
#include <stdlib.h>
#include <string.h>

#include "../../include/dock.h"
#include "lent.h"
#include "line.h"

enum { LONGEST = 65536, MOST_WORDS = 10 };

// These have no padding, so they can be compared whole.
_Static_assert(sizeof(dock_record) == 60 * 4 + 8 + 16 + 16 + 8, "the layout of a record");
_Static_assert(sizeof(dock_reader) == 2 * (60 * 4 + 8) + 4 * 4 + 16, "the layout of a reader");

_Static_assert(sizeof(dock_receiver) == 512, "the layout of a receiver");

static const dock_record zero_record;
static const dock_reader zero_reader;
static const dock_receiver zero_receiver;

// What is held from line to line.
static dock_record record;
static dock_reader reader;
static dock_receiver receiver;

typedef uint32_t mode_call(const uint8_t *, size_t, const uint8_t *, size_t, const uint8_t *, size_t, uint8_t *, size_t);
typedef dock_chain_answer chain_call(const uint8_t *, size_t, const uint8_t *, size_t, const uint8_t *, size_t, uint8_t *, size_t);
typedef dock_chain24_answer chain24_call(const uint8_t *, size_t, const uint8_t *, size_t, const uint8_t *, size_t, uint8_t *, size_t);
typedef dock_chain32_answer chain32_call(const uint8_t *, size_t, const uint8_t *, size_t, const uint8_t *, size_t, uint8_t *, size_t);
typedef uint32_t wrap_call(const uint8_t *, size_t, const uint8_t *, size_t, uint8_t *, size_t);
typedef uint32_t ccm_call(const uint8_t *, size_t, const uint8_t *, size_t, const uint8_t *, size_t, const uint8_t *, size_t,
                          uint8_t *, size_t);
typedef dock_block_answer block_call(const uint8_t *, size_t, dock_block);
typedef dock_view_answer view_call(size_t, size_t);
typedef dock_states states_call(uint16_t, uint16_t);

typedef struct form form;

struct form {
    const char *name;
    size_t words;  // behind the name
    bool (*answer)(const form *, const word *);
    union {
        mode_call *mode;
        chain_call *chain;
        chain24_call *chain24;
        chain32_call *chain32;
        wrap_call *wrap;
        ccm_call *ccm;
        block_call *block;
        view_call *view;
        states_call *states;
    } call;  // where one function answers for several calls
};

static void expect(bool holds, const char *what) {
    if (!holds) lent_stop(what);
}

// The bytes of a word in lent memory, or NULL if it is not hex.
static lent *output(word w) {
    size_t size;
    if (!word_size(w, &size)) return NULL;
    lent *l = lent_room(size, 1);
    word_bytes(w, l->bytes);
    return l;
}

static const lent *input(word w) {
    lent *l = output(w);
    if (l) lent_keep(l);
    return l;
}

// Exactly that many bytes, to be passed by value.
static bool fixed(word w, uint8_t *bytes, size_t length) {
    size_t size;
    bool right = word_size(w, &size) && size == length;
    if (right) word_bytes(w, bytes);
    return right;
}

static bool number32(word w, uint32_t *number) {
    uint64_t wide;
    bool right = word_number(w, UINT32_MAX, &wide);
    *number = (uint32_t)wide;
    return right;
}

static bool product(const form *f, const word *w) {
    (void)f;
    uint8_t a, b;
    if (!fixed(w[0], &a, 1) || !fixed(w[1], &b, 1)) return false;
    uint8_t result = dock_product(a, b);
    put_number(0);
    put_bytes(&result, 1);
    return true;
}

static void put_words(const uint32_t *words) {
    uint8_t bytes[240];
    for (size_t i = 0; i < 240; i++) bytes[i] = (uint8_t)(words[i / 4] >> (24 - i % 4 * 8));
    put_bytes(bytes, sizeof bytes);
}

static bool schedule(const form *f, const word *w) {
    (void)f;
    const lent *key = input(w[0]);
    if (!key) return false;
    dock_schedule_answer answer = dock_schedule(key->bytes, key->length);
    expect(answer.rounds == (answer.number == 0 ? key->length / 4 + 6 : 0), "the rounds of a schedule");
    put_number(answer.number);
    put_words(answer.words);
    return true;
}

static bool one_block(const form *f, const word *w) {
    const lent *key = input(w[0]);
    dock_block block;
    if (!key || !fixed(w[1], block.bytes, 16)) return false;
    dock_block_answer answer = f->call.block(key->bytes, key->length, block);
    put_number(answer.number);
    put_bytes(answer.block, 16);
    return true;
}

static bool mode(const form *f, const word *w) {
    const lent *key = input(w[0]), *iv = input(w[1]), *in = input(w[2]), *out = output(w[3]);
    if (!key || !iv || !in || !out) return false;
    put_number(f->call.mode(key->bytes, key->length, iv->bytes, iv->length, in->bytes, in->length, out->bytes, out->length));
    put_bytes(out->bytes, out->length);
    return true;
}

static bool chained(const form *f, const word *w) {
    const lent *key = input(w[0]), *iv = input(w[1]), *in = input(w[2]), *out = output(w[3]);
    if (!key || !iv || !in || !out) return false;
    dock_chain_answer answer =
        f->call.chain(key->bytes, key->length, iv->bytes, iv->length, in->bytes, in->length, out->bytes, out->length);
    put_number(answer.number);
    put_bytes(answer.next, 16);
    put_bytes(out->bytes, out->length);
    return true;
}

static bool chained24(const form *f, const word *w) {
    const lent *key = input(w[0]), *iv = input(w[1]), *in = input(w[2]), *out = output(w[3]);
    if (!key || !iv || !in || !out) return false;
    dock_chain24_answer answer =
        f->call.chain24(key->bytes, key->length, iv->bytes, iv->length, in->bytes, in->length, out->bytes, out->length);
    put_number(answer.number);
    put_bytes(answer.next, 24);
    put_bytes(out->bytes, out->length);
    return true;
}

static bool chained32(const form *f, const word *w) {
    const lent *key = input(w[0]), *iv = input(w[1]), *in = input(w[2]), *out = output(w[3]);
    if (!key || !iv || !in || !out) return false;
    dock_chain32_answer answer =
        f->call.chain32(key->bytes, key->length, iv->bytes, iv->length, in->bytes, in->length, out->bytes, out->length);
    put_number(answer.number);
    put_bytes(answer.next, 32);
    put_bytes(out->bytes, out->length);
    return true;
}

static bool check(const form *f, const word *w) {
    (void)f;
    const lent *key = input(w[0]), *message = input(w[1]);
    if (!key || !message) return false;
    dock_check_answer answer = dock_check(key->bytes, key->length, message->bytes, message->length);
    put_number(answer.number);
    put_bytes(answer.check, 16);
    return true;
}

static bool check_start(const form *f, const word *w) {
    (void)f;
    const lent *key = input(w[0]);
    if (!key) return false;
    dock_start_answer answer = dock_check_start(key->bytes, key->length);
    record = answer.record;
    expect(answer.number == 0 || memcmp(&record, &zero_record, sizeof record) == 0, "the record of a refused start");
    put_number(answer.number);
    return true;
}

// In place, and so between canaries.
static bool check_feed(const form *f, const word *w) {
    (void)f;
    const lent *part = input(w[0]);
    if (!part) return false;
    lent *spot = lent_room(sizeof record, _Alignof(dock_record));
    memcpy(spot->bytes, &record, sizeof record);
    dock_check_feed((dock_record *)(void *)spot->bytes, part->bytes, part->length);
    memcpy(&record, spot->bytes, sizeof record);
    put_number(0);
    return true;
}

static bool check_close(const form *f, const word *w) {
    (void)f;
    (void)w;
    dock_record before = record;
    dock_check_answer answer = dock_check_close(record);
    expect(memcmp(&record, &before, sizeof record) == 0, "closing changes the record");
    put_number(answer.number);
    put_bytes(answer.check, 16);
    return true;
}

static bool write_block(const form *f, const word *w) {
    (void)f;
    uint32_t number, count, release, edition;
    dock_block previous;
    const lent *ekey = input(w[0]), *ckey = input(w[1]), *payload = input(w[7]), *out = output(w[8]);
    if (!ekey || !ckey || !payload || !out) return false;
    if (!number32(w[2], &number) || !number32(w[3], &count) || !number32(w[4], &release)) return false;
    if (!number32(w[5], &edition) || !fixed(w[6], previous.bytes, sizeof previous.bytes)) return false;
    put_number(dock_write(ekey->bytes, ekey->length, ckey->bytes, ckey->length, number, count, release, edition, previous,
                          payload->bytes, payload->length, out->bytes, out->length));
    put_bytes(out->bytes, out->length);
    return true;
}

static bool read_start(const form *f, const word *w) {
    (void)f;
    const lent *ekey = input(w[0]), *ckey = input(w[1]);
    if (!ekey || !ckey) return false;
    dock_read_start_answer answer = dock_read_start(ekey->bytes, ekey->length, ckey->bytes, ckey->length);
    reader = answer.reader;
    expect(answer.number == 0 || memcmp(&reader, &zero_reader, sizeof reader) == 0, "the reader of a refused start");
    put_number(answer.number);
    return true;
}

static bool holds_value(uint32_t reason) {
    return reason >= DOCK_COUNT_RANGE && reason <= DOCK_EDITION_WRONG;
}

// What dock.h says about a turn's answer and the lines do not show.
static void look_at(const dock_turn_answer *turn, const dock_reader *before) {
    if (turn->number != 0) {
        expect(turn->reason == 0 && turn->accepted == 0 && turn->bytes == 0, "counts of a turn that was refused as a whole");
        expect(memcmp(&turn->reader, before, sizeof *before) == 0, "the reader of a turn that was refused as a whole");
    }
    expect(turn->reason != 0 || turn->place == 0, "a place where no block was refused");
    expect(holds_value(turn->reason) || turn->value == 0, "a value where the reason holds none");
    expect(turn->reader.progress.next - before->progress.next == turn->accepted, "the blocks accepted are the advance of the reader");
}

static void put_stop(const dock_turn_answer *turn) {
    if (turn->reason == 0) {
        put_text("- - -");
        return;
    }
    put_number(turn->place);
    put_number(turn->reason);
    if (holds_value(turn->reason)) put_number(turn->value);
    else put_text("-");
}

static bool read_turn(const form *f, const word *w) {
    (void)f;
    uint64_t asked;
    const lent *blocks = input(w[1]), *out = output(w[2]);
    if (!word_number(w[0], UINT64_MAX, &asked) || !blocks || !out) return false;
    dock_turn_answer turn = dock_read_turn(reader, blocks->bytes, blocks->length, asked, out->bytes, out->length);
    look_at(&turn, &reader);
    reader = turn.reader;
    put_number(turn.number);
    put_number(turn.accepted);
    put_number(turn.bytes);
    put_stop(&turn);
    put_bytes(out->bytes, out->length);
    return true;
}

static bool read_complete(const form *f, const word *w) {
    (void)f;
    (void)w;
    put_number(dock_read_complete(reader));
    return true;
}

static bool read_save(const form *f, const word *w) {
    (void)f;
    uint64_t bytes;
    if (!word_number(w[0], UINT64_MAX, &bytes)) return false;
    dock_bookmark bookmark = dock_read_save(reader, bytes);
    put_number(0);
    put_bytes(bookmark.bytes, sizeof bookmark.bytes);
    return true;
}

static bool read_resume(const form *f, const word *w) {
    (void)f;
    dock_bookmark bookmark;
    const lent *ekey = input(w[0]), *ckey = input(w[1]);
    if (!ekey || !ckey || !fixed(w[2], bookmark.bytes, sizeof bookmark.bytes)) return false;
    dock_resume_answer answer = dock_read_resume(ekey->bytes, ekey->length, ckey->bytes, ckey->length, bookmark);
    reader = answer.reader;
    expect(answer.number == 0 || memcmp(&reader, &zero_reader, sizeof reader) == 0, "the reader of a refused resume");
    put_number(answer.number);
    put_number(answer.bytes);
    return true;
}

static bool receive_start(const form *f, const word *w) {
    (void)f;
    uint32_t count, release;
    const lent *ekey = input(w[0]), *ckey = input(w[1]), *store = input(w[4]), *map = output(w[5]);
    if (!ekey || !ckey || !store || !map || !number32(w[2], &count) || !number32(w[3], &release)) return false;
    dock_receive_answer answer = dock_receive_start(ekey->bytes, ekey->length, ckey->bytes, ckey->length, count, release,
                                                    store->bytes, store->length, map->bytes, map->length);
    receiver = answer.receiver;
    expect(answer.number == 0 || memcmp(&receiver, &zero_receiver, sizeof receiver) == 0, "the receiver of a refused start");
    expect(answer.value == (answer.number == DOCK_COUNT_RANGE ? count : 0), "the value of a start");
    put_number(answer.number);
    put_bytes(store->bytes, store->length);
    put_bytes(map->bytes, map->length);
    return true;
}

static bool receive(const form *f, const word *w) {
    (void)f;
    const lent *block = input(w[0]), *store = output(w[1]), *map = output(w[2]);
    if (!block || !store || !map) return false;
    dock_receive_answer answer =
        dock_receive(receiver, block->bytes, block->length, store->bytes, store->length, map->bytes, map->length);
    expect(answer.number == 0 || memcmp(&answer.receiver, &receiver, sizeof receiver) == 0, "a refused block changes a receiver");
    expect(holds_value(answer.number) || answer.value == 0, "a value where the refusal holds none");
    receiver = answer.receiver;
    put_number(answer.number);
    if (holds_value(answer.number)) put_number(answer.value);
    else put_text("-");
    put_number(receiver.receipt.held);
    put_bytes(store->bytes, store->length);
    put_bytes(map->bytes, map->length);
    return true;
}

static bool receive_complete(const form *f, const word *w) {
    (void)f;
    (void)w;
    put_number(dock_receive_complete(receiver));
    return true;
}

static bool wrap(const form *f, const word *w) {
    const lent *key = input(w[0]), *data = input(w[1]), *out = output(w[2]);
    if (!key || !data || !out) return false;
    put_number(f->call.wrap(key->bytes, key->length, data->bytes, data->length, out->bytes, out->length));
    put_bytes(out->bytes, out->length);
    return true;
}

static bool view(const form *f, const word *w) {
    uint64_t place;
    const lent *image = input(w[0]);
    if (!image || !word_number(w[1], UINT64_MAX, &place)) return false;
    dock_view_answer answer = f->call.view(image->length, place);
    expect(answer.offset <= image->length && answer.length <= image->length - answer.offset, "what is shown lies in the image");
    expect(answer.number == 0 || (answer.offset == 0 && answer.length == 0), "nothing is shown of a place that is refused");
    put_number(answer.made);
    put_number(answer.blocks);
    put_number(answer.number);
    put_bytes(image->bytes + answer.offset, answer.length);
    return true;
}

static bool number16(word w, uint16_t *number) {
    uint8_t bytes[2];
    if (!fixed(w, bytes, 2)) return false;
    *number = (uint16_t)(bytes[0] << 8 | bytes[1]);
    return true;
}

static void put_number16(uint16_t number) {
    uint8_t bytes[2] = {(uint8_t)(number >> 8), (uint8_t)number};
    put_bytes(bytes, 2);
}

static bool apprentice(const form *f, const word *w) {
    uint16_t key, block;
    if (!number16(w[0], &key) || !number16(w[1], &block)) return false;
    dock_states states = f->call.states(key, block);
    put_number(0);
    put_number16(states.first);
    put_number16(states.second);
    put_number16(states.third);
    return true;
}

static bool ccm(const form *f, const word *w) {
    const lent *key = input(w[0]), *nonce = input(w[1]), *ad = input(w[2]), *in = input(w[3]), *out = output(w[4]);
    if (!key || !nonce || !ad || !in || !out) return false;
    put_number(f->call.ccm(key->bytes, key->length, nonce->bytes, nonce->length, ad->bytes, ad->length, in->bytes, in->length,
                           out->bytes, out->length));
    put_bytes(out->bytes, out->length);
    return true;
}

static const form forms[] = {
    {"product", 2, product, {NULL}},
    {"schedule", 1, schedule, {NULL}},
    {"encrypt", 2, one_block, {.block = dock_encrypt}},
    {"decrypt", 2, one_block, {.block = dock_decrypt}},
    {"ecb-encrypt", 4, mode, {.mode = dock_ecb_encrypt}},
    {"ecb-decrypt", 4, mode, {.mode = dock_ecb_decrypt}},
    {"cbc-encrypt", 4, chained, {.chain = dock_cbc_encrypt}},
    {"cbc-decrypt", 4, chained, {.chain = dock_cbc_decrypt}},
    {"cfb-encrypt", 4, chained, {.chain = dock_cfb_encrypt}},
    {"cfb-decrypt", 4, chained, {.chain = dock_cfb_decrypt}},
    {"ofb", 4, chained, {.chain = dock_ofb}},
    {"check", 2, check, {NULL}},
    {"check-start", 1, check_start, {NULL}},
    {"check-feed", 1, check_feed, {NULL}},
    {"check-close", 0, check_close, {NULL}},
    {"write", 9, write_block, {NULL}},
    {"read-start", 2, read_start, {NULL}},
    {"read-turn", 3, read_turn, {NULL}},
    {"read-complete", 0, read_complete, {NULL}},
    {"read-save", 1, read_save, {NULL}},
    {"read-resume", 3, read_resume, {NULL}},
    {"receive-start", 6, receive_start, {NULL}},
    {"receive", 3, receive, {NULL}},
    {"receive-complete", 0, receive_complete, {NULL}},
    {"wrap", 3, wrap, {.wrap = dock_wrap}},
    {"unwrap", 3, wrap, {.wrap = dock_unwrap}},
    {"view-block", 2, view, {.view = dock_view_block}},
    {"view-check", 2, view, {.view = dock_view_check}},
    {"saes-encrypt", 2, apprentice, {.states = dock_saes_encrypt}},
    {"saes-decrypt", 2, apprentice, {.states = dock_saes_decrypt}},
    {"ccm-seal", 5, ccm, {.ccm = dock_ccm_seal}},
    {"ccm-open", 5, ccm, {.ccm = dock_ccm_open}},
    {"wide24-ecb-encrypt", 4, mode, {.mode = dock_wide24_ecb_encrypt}},
    {"wide24-ecb-decrypt", 4, mode, {.mode = dock_wide24_ecb_decrypt}},
    {"wide24-cbc-encrypt", 4, chained24, {.chain24 = dock_wide24_cbc_encrypt}},
    {"wide24-cbc-decrypt", 4, chained24, {.chain24 = dock_wide24_cbc_decrypt}},
    {"wide32-ecb-encrypt", 4, mode, {.mode = dock_wide32_ecb_encrypt}},
    {"wide32-ecb-decrypt", 4, mode, {.mode = dock_wide32_ecb_decrypt}},
    {"wide32-cbc-encrypt", 4, chained32, {.chain32 = dock_wide32_cbc_encrypt}},
    {"wide32-cbc-decrypt", 4, chained32, {.chain32 = dock_wide32_cbc_decrypt}},
};

static const form *form_named(word name) {
    for (size_t i = 0; i < sizeof forms / sizeof *forms; i++)
        if (word_is(name, forms[i].name)) return &forms[i];
    return NULL;
}

static bool answered(word line) {
    word words[MOST_WORDS];
    if (line_too_long(line)) return false;
    size_t count = line_words(line, words, MOST_WORDS);
    const form *f = form_named(words[0]);
    return f && count == f->words + 1 && f->answer(f, words + 1);
}

int main(int count, char **text) {
    word line;
    line_limit(count > 1 ? strtoul(text[1], NULL, 10) : LONGEST);
    while (line_next(&line)) {
        if (!answered(line)) put_text("?");
        put_end();
        lent_settle();
    }
    return fflush(stdout) == 0 ? 0 : 1;
}
