// The poor radio: a relay between a cabinet and its depot, that loses, doubles, reorders, delays, cuts, lengthens and damages datagrams
// both ways, and brings blocks of other images.
#define _POSIX_C_SOURCE 200809L
#include <string.h>
#include <sys/socket.h>
#include <unistd.h>

#include "radio.h"

const char *const fate_names[FATES] = {"passed", "lost", "doubled", "late", "cut", "longer", "damaged", "strange"};
unsigned fates[FATES];

// ---- The sockets

static struct sockaddr_un named(const char *path) {
    struct sockaddr_un address = {.sun_family = AF_UNIX};
    if (strlen(path) >= sizeof address.sun_path) stop("the name of a socket is too long", path);
    strcpy(address.sun_path, path);
    return address;
}

static int bound(const char *path) {
    struct sockaddr_un own = named(path);
    int place = socket(AF_UNIX, SOCK_DGRAM | SOCK_CLOEXEC, 0);
    if (place < 0 || bind(place, (struct sockaddr *)&own, sizeof own) != 0) stop("no socket can be made", path);
    return place;
}

void relay_opened(relay *r, const char *cabinet, const char *air) {
    r->cabinet = named(cabinet);
    r->air = bound(air);
    r->wire = -1;
}

// For a new transfer. What the depot of the last one still sends finds nobody.
void relay_to(relay *r, const char *wire, const char *depot, const content *strangers) {
    if (r->wire >= 0) close(r->wire);
    r->wire = bound(wire);
    r->depot = named(depot);
    r->strangers = strangers;
    r->count = 0;
}

// ---- What becomes of a datagram

static void flies(relay *r, const datagram *d, uint64_t due) {
    if (r->count == MOST_FLYING) return;
    r->flying[r->count] = *d;
    r->flying[r->count++].due = due;
}

// One bit, one byte, a piece of 16 bytes, or everything from some place on.
static void damaged(datagram *d) {
    if (d->length == 0) return;
    size_t at = chance((uint32_t)d->length);
    size_t left = d->length - at;
    switch (chance(4)) {
    case 0: d->bytes[at] ^= (uint8_t)(1 << chance(8)); break;
    case 1: d->bytes[at] ^= (uint8_t)(1 + chance(255)); break;
    case 2: noise(d->bytes + at, left < 16 ? left : 16); break;
    default: memset(d->bytes + at, 0, left); break;
    }
}

static void longer(datagram *d) {
    size_t more = 1 + chance(one_in(2) ? 16 : (uint32_t)(MOST_LENGTH - BLOCK));
    if (d->length + more > MOST_LENGTH) more = MOST_LENGTH - d->length;
    noise(d->bytes + d->length, more);
    d->length += more;
}

// A block of another image, where there is one.
static void strange(relay *r, const datagram *d, uint64_t now) {
    datagram other = {.down = true, .length = BLOCK};
    if (!d->down || !r->strangers) return;
    memcpy(other.bytes, r->strangers->bytes + BLOCK * (size_t)chance((uint32_t)(r->strangers->length / BLOCK)), BLOCK);
    flies(r, &other, now + chance(3000));
}

static fate drawn(void) {
    static const struct {
        fate fate;
        uint32_t percent;
    } odds[] = {{LOST, 6}, {DOUBLED, 5}, {LATE, 6}, {CUT, 3}, {LONGER, 2}, {DAMAGED, 6}, {STRANGE, 4}};
    uint32_t roll = chance(100);
    for (size_t i = 0; i < sizeof odds / sizeof odds[0]; i++) {
        if (roll < odds[i].percent) return odds[i].fate;
        roll -= odds[i].percent;
    }
    return PASSED;
}

// Late datagrams are overtaken by those behind them: so they come in another order.
static void dealt(relay *r, datagram *d, uint64_t now) {
    fate f = drawn();
    uint64_t due = now;
    fates[f]++;
    switch (f) {
    case LOST: return;
    case DOUBLED: flies(r, d, now + chance(20000)); break;
    case LATE: due = now + 1000 + chance(40000); break;
    case CUT: d->length = d->length ? chance((uint32_t)d->length) : 0; break;
    case LONGER: longer(d); break;
    case DAMAGED: damaged(d); break;
    case STRANGE: strange(r, d, now); break;
    default: break;
    }
    flies(r, d, due);
}

// ---- The relay

static void takes(relay *r, int from, bool down, uint64_t now) {
    datagram d = {.down = down};
    ssize_t got;
    while ((got = recv(from, d.bytes, sizeof d.bytes, MSG_DONTWAIT)) >= 0) {
        d.length = (size_t)got;
        dealt(r, &d, now);
    }
}

void relay_takes(relay *r, uint64_t now) {
    takes(r, r->air, false, now);
    takes(r, r->wire, true, now);
}

// Where nobody is there, or the queue is full, the datagram is lost: a radio does that.
static void sent(relay *r, const datagram *d) {
    const struct sockaddr_un *to = d->down ? &r->cabinet : &r->depot;
    ssize_t done = sendto(d->down ? r->air : r->wire, d->bytes, d->length, MSG_DONTWAIT, (const struct sockaddr *)to, sizeof *to);
    if (d->down && done >= 0) r->delivered++;
}

void relay_delivers(relay *r, uint64_t now) {
    for (size_t i = 0; i < r->count;) {
        if (r->flying[i].due > now) {
            i++;
            continue;
        }
        sent(r, &r->flying[i]);
        memmove(&r->flying[i], &r->flying[i + 1], (r->count - i - 1) * sizeof r->flying[0]);
        r->count--;
    }
}

uint64_t relay_next(const relay *r) {
    uint64_t next = UINT64_MAX;
    for (size_t i = 0; i < r->count; i++)
        if (r->flying[i].due < next) next = r->flying[i].due;
    return next;
}
