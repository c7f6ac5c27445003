// A dock cabinet: fetches a release over a poor radio and installs it once it is whole. It may be killed or lose power at any moment,
// and goes on when it is started again. What is installed is at every moment the old release or the new one.
//
// Build, in the repository:
//     tools/proved dock_c
//     cc -std=c11 -O2 -Wall -Wextra -Iinclude examples/c/cabinet/*.c target/staticlib/libdock.a -o cabinet
// Run; examples/c/depot.c is the other side, and `./dock radio` shows both:
//     ./cabinet KEYS FOLDER RELEASE EDITION BLOCKS SOCKET DEPOT WAIT
//         KEYS     file of the encryption key and then the check key, both of 16, 24 or 32 bytes
//         FOLDER   where FOLDER/release is put in place; what is on its way stands beside it. One cabinet works in a folder at a time
//         RELEASE, EDITION, BLOCKS   of the image, as `./dock check` prints them: nothing else is installed
//         SOCKET   the cabinet's own name, DEPOT the name of whom it asks: Unix datagram sockets
//         WAIT     milliseconds of silence after which it asks again
// Status: 0 the release is in place, 2 wrong words, 1 all else. It asks until the release is here.
//
// cabinet.c has the conversation, in_order.c edition 2, any_order.c edition 1, files.c the files and radio.c the socket.
#include <errno.h>
#include <signal.h>
#include <stdio.h>
#include <stdlib.h>
#include <string.h>

#include "cabinet.h"

// `./dock explain NUMBER` has the words.
bool refused(const char *what, uint32_t number) {
    fprintf(stderr, "cabinet: %s: refused with %u\n", what, (unsigned)number);
    return false;
}

uint32_t number_at(const uint8_t *bytes) {
    return (uint32_t)bytes[0] << 24 | (uint32_t)bytes[1] << 16 | (uint32_t)bytes[2] << 8 | bytes[3];
}

// ---- The conversation

// One datagram, where one comes. There is room for a byte more than a block, so that a longer one is not taken for a block.
static heard took(const job *j, const way *w, const radio *r, size_t *accepted) {
    uint8_t datagram[DOCK_IMAGE_BLOCK + 1];
    size_t length;
    uint32_t number;
    heard h = radio_hear(r, datagram, sizeof datagram, &length);
    if (h != HEARD) return h;
    if (!w->offered(j, datagram, length, &number)) return BROKEN;
    if (number == DOCK_DONE) (*accepted)++;
    else refused("a datagram", number);
    return HEARD;
}

// Until as many blocks were accepted as were asked for, or the radio is silent. One that is never silent must not keep the cabinet from
// asking, so the datagrams are counted too.
static bool listened(const job *j, const way *w, const radio *r, size_t wanted) {
    size_t accepted = 0;
    heard h = HEARD;
    for (size_t i = 0; i < 4 * wanted && h == HEARD && accepted < wanted; i++) h = took(j, w, r, &accepted);
    return h != BROKEN;
}

static bool transferred(const job *j, const way *w, const radio *r) {
    uint32_t numbers[MOST_WANTED];
    while (!w->complete()) {
        size_t wanted = w->lacking(j, numbers, MOST_WANTED);
        if (!radio_ask(r, numbers, wanted) || !listened(j, w, r, wanted) || !w->kept(j)) return false;
    }
    return w->installed(j);
}

// What helped on the way goes once the release is in place. A cabinet that dies before this leaves files that fit nothing.
static bool cleared(const job *j) {
    return removed(j->folder, STATE) && removed(j->folder, STATE_NEW) && removed(j->folder, BLOCKS);
}

static bool fetched(const job *j, const radio *r) {
    const way *w = j->order.edition == 2 ? &in_order : &any_order;
    bool right = w->found(j) && transferred(j, w, r);
    w->wiped();
    if (right) printf("release %u is in place\n", (unsigned)j->order.release);
    return right && cleared(j);
}

// ---- The words

static bool number_read(const char *text, uint32_t least, uint32_t most, uint32_t *number) {
    char *end;
    errno = 0;
    unsigned long value = strtoul(text, &end, 10);
    *number = (uint32_t)value;
    if (*text >= '0' && *text <= '9' && *end == 0 && errno == 0 && value >= least && value <= most) return true;
    fprintf(stderr, "cabinet: '%s': give a number from %u to %u\n", text, (unsigned)least, (unsigned)most);
    return false;
}

static bool order_read(char **text, order *o) {
    return number_read(text[0], 0, UINT32_MAX, &o->release) && number_read(text[1], 1, 2, &o->edition) &&
           number_read(text[2], 1, DOCK_MOST_BLOCKS, &o->count);
}

int main(int count, char **text) {
    job j;
    radio r;
    uint32_t wait;
    if (count != 9) {
        fputs("usage: cabinet KEYS FOLDER RELEASE EDITION BLOCKS SOCKET DEPOT WAIT\n", stderr);
        return 2;
    }
    if (!order_read(text + 3, &j.order) || !number_read(text[8], 1, 3600000, &wait)) return 2;
    // A write that fails, to a closed pipe or past a limit, is told as such and must not end the program.
    signal(SIGPIPE, SIG_IGN);
    signal(SIGXFSZ, SIG_IGN);
    bool right = streams_taken() && keys_read(text[1], &j.keys) && folder_opened(text[2], &j.folder) &&
                 radio_opened(&r, text[6], text[7], (int)wait) && fetched(&j, &r);
    wipe(&j.keys, sizeof j.keys);
    return right ? 0 : 1;
}
