// Edition 2: a reader takes the blocks in their order. The payload grows in one file, and how far it came stands in a second.
//
// A bookmark says how far the reader came, and not what the file holds. So the state is the bookmark and a check, under the check key,
// of the bookmark and then the first `bytes` bytes of the file. At a start that check is made of what is found. Where it differs, both
// go and the transfer starts anew.
//
// What is older than it should be does no harm: an older state over the same file only has blocks asked for again.
#include <stdio.h>
#include <string.h>
#include <unistd.h>

#include "cabinet.h"

typedef struct {
    dock_bookmark bookmark;
    uint8_t check[16];
} state;

// So many blocks with the right header and a wrong check, one after the other, are no damage by the radio: what is here is of another
// build. Somebody who makes up such blocks only has the transfer start anew, and could as well jam the radio.
enum { MOST_WRONG = 8 };

static dock_reader reader;
static uint64_t bytes;
static uint64_t bytes_kept;
static unsigned wrong;
static int payload;

// ---- The state

// The check of a bookmark and of so many bytes of the file. `whole` says whether the file has that many.
static bool checked(const job *j, const dock_bookmark *bookmark, uint64_t length, uint8_t check[16], bool *whole) {
    uint8_t part[4096];
    size_t got = 1;
    dock_start_answer start = dock_check_start(j->keys.check, j->keys.size);
    dock_check_feed(&start.record, bookmark->bytes, sizeof bookmark->bytes);
    bool right = start.number == DOCK_DONE;
    uint64_t done = 0;
    while (right && got > 0 && done < length) {
        size_t most = length - done < sizeof part ? (size_t)(length - done) : sizeof part;
        right = part_read(payload, PAYLOAD, part, most, done, &got);
        dock_check_feed(&start.record, part, got);
        done += got;
    }
    *whole = done == length;
    memcpy(check, dock_check_close(start.record).check, 16);
    wipe(&start, sizeof start);
    wipe(part, sizeof part);
    return right;
}

// With no early end, so that its time does not tell how many bytes agree.
static bool same(const uint8_t a[16], const uint8_t b[16]) {
    volatile int differing = 0;
    for (size_t i = 0; i < 16; i++) differing = differing | (a[i] ^ b[i]);
    return differing == 0;
}

// Every check of the file reads all of it, so the news must be worth it: 8 blocks, and in a long file one part in 64. So all of these
// checks together read the file some 64 times at most.
static bool worth_keeping(void) {
    uint64_t news = bytes - bytes_kept;
    return news >= 8 * DOCK_IMAGE_PAYLOAD && news >= bytes / 64;
}

// The payload is stored before the state that speaks of it.
static bool kept(const job *j) {
    state s;
    int file;
    bool whole;
    if (!worth_keeping()) return true;
    s.bookmark = dock_read_save(reader, bytes);
    if (!stored(payload, PAYLOAD) || !checked(j, &s.bookmark, bytes, s.check, &whole)) return false;
    if (!whole) return failed(PAYLOAD, "it is shorter than what was written: another program changes it");
    if (!file_opened(j->folder, STATE_NEW, &file)) return false;
    bool right = part_written(file, STATE_NEW, &s, sizeof s, 0) && cut(file, STATE_NEW, sizeof s) && stored(file, STATE_NEW);
    close(file);
    bytes_kept = bytes;
    return right && renamed(j->folder, STATE_NEW, STATE);
}

// ---- The start

// 0, or how the image that a reader is in is not the one that was ordered.
static uint32_t not_ordered(const job *j, const dock_progress *p) {
    if (p->count != j->order.count) return DOCK_COUNT_DIFFERS;
    if (p->release != j->order.release) return DOCK_RELEASE_DIFFERS;
    return p->edition == j->order.edition ? DOCK_DONE : DOCK_EDITION_WRONG;
}

// Keys of the sizes that a key file has are never refused.
static bool anew(const job *j) {
    dock_read_start_answer start = dock_read_start(j->keys.encryption, j->keys.size, j->keys.check, j->keys.size);
    reader = start.reader;
    wipe(&start, sizeof start);
    bytes = bytes_kept = 0;
    wrong = 0;
    return removed(j->folder, STATE) && cut(payload, PAYLOAD, 0);
}

// Whether a state fits the keys, the order and the file. What is refused is told and is no failure.
static bool fits(const job *j, const state *s, const dock_resume_answer *resumed) {
    uint8_t check[16];
    bool whole;
    uint32_t number = resumed->number != DOCK_DONE ? resumed->number : not_ordered(j, &resumed->reader.progress);
    if (number != DOCK_DONE) return refused("the state", number);
    if (!checked(j, &s->bookmark, resumed->bytes, check, &whole)) return false;
    return (whole && same(check, s->check)) || failed(STATE, "the payload is not the one that it speaks of");
}

// The state as it was found, where it is one: nothing but its size is known of it yet.
static bool state_read(const job *j, state *s) {
    uint8_t found[sizeof *s + 1] = {0};
    size_t length = 0;
    int file;
    if (!file_found(j->folder, STATE, &file)) return false;
    bool right = part_read(file, STATE, found, sizeof found, 0, &length);
    close(file);
    memcpy(s, found, sizeof *s);
    return right && (length == sizeof *s || failed(STATE, "it has not the size of a state"));
}

static bool found(const job *j) {
    state s;
    if (!file_opened(j->folder, PAYLOAD, &payload)) return false;
    if (!state_read(j, &s)) return anew(j);
    dock_resume_answer resumed =
        dock_read_resume(j->keys.encryption, j->keys.size, j->keys.check, j->keys.size, s.bookmark);
    bool right = fits(j, &s, &resumed);
    reader = resumed.reader;
    bytes = bytes_kept = resumed.bytes;
    wipe(&resumed, sizeof resumed);
    if (right) fprintf(stderr, "cabinet: going on from block %u\n", (unsigned)reader.progress.next);
    return right || anew(j);
}

// ---- The blocks

static bool complete(void) {
    return dock_read_complete(reader) == DOCK_DONE;
}

// A reader can use the next block alone. Those behind it are asked for too, since they mostly come in order.
static size_t lacking(const job *j, uint32_t *numbers, size_t most) {
    size_t count = 0;
    while (count < most && reader.progress.next + count < j->order.count) {
        numbers[count] = reader.progress.next + (uint32_t)count;
        count++;
    }
    return count;
}

// Whether a refused block has the very header that is waited for.
static bool expected(const job *j, const uint8_t *block, size_t length) {
    if (length != DOCK_IMAGE_BLOCK) return false;
    return number_at(block) == reader.progress.next && number_at(block + 4) == j->order.count && number_at(block + 8) == j->order.release;
}

// Too many of these, and the transfer starts anew.
static bool counted_wrong(const job *j, const uint8_t *block, size_t length) {
    if (reader.progress.next == 0 || !expected(j, block, length)) return true;
    wrong++;
    if (wrong < MOST_WRONG) return true;
    fprintf(stderr, "cabinet: block %u never fits what is here: starting anew\n", (unsigned)reader.progress.next);
    return anew(j);
}

// The reader goes on only once the payload is written. An empty datagram holds no block, and no refusal comes of it.
static bool taken(const job *j, const dock_turn_answer *turn, const uint8_t *plain, uint32_t *number) {
    *number = turn->accepted == 0 ? (uint32_t)DOCK_LENT_LENGTH : not_ordered(j, &turn->reader.progress);
    if (*number != DOCK_DONE) return true;
    if (!part_written(payload, PAYLOAD, plain, turn->bytes, bytes)) return false;
    reader = turn->reader;
    bytes += turn->bytes;
    wrong = 0;
    return true;
}

static bool offered(const job *j, const uint8_t *datagram, size_t length, uint32_t *number) {
    uint8_t plain[DOCK_IMAGE_PAYLOAD];
    dock_turn_answer turn = dock_read_turn(reader, datagram, length, 1, plain, sizeof plain);
    *number = turn.number != DOCK_DONE ? turn.number : turn.reason;
    bool right = true;
    if (*number == DOCK_DONE) right = taken(j, &turn, plain, number);
    else if (*number == DOCK_CHECK_WRONG) right = counted_wrong(j, datagram, length);
    wipe(&turn, sizeof turn);
    wipe(plain, sizeof plain);
    return right;
}

// The file may be longer than the payload, where one was found that was: so it is cut. The state goes last: without its payload it
// fits nothing.
static bool installed(const job *j) {
    return complete() && cut(payload, PAYLOAD, bytes) && stored(payload, PAYLOAD) && renamed(j->folder, PAYLOAD, RELEASE);
}

static void wiped(void) {
    wipe(&reader, sizeof reader);
}

const way in_order = {found, lacking, offered, kept, complete, installed, wiped};
