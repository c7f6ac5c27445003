// The cabinet's radio: a socket that takes datagrams, and sends the numbers of the blocks that are asked for.
//
// A request is up to 64 numbers of 4 bytes, big-endian. It has no check: a damaged one only brings blocks that nobody wanted, and each
// block has its own check. Here the radio is a Unix datagram socket; for UDP only this file changes.
#define _GNU_SOURCE // statx; the rest is POSIX
#include <errno.h>
#include <fcntl.h>
#include <poll.h>
#include <string.h>
#include <sys/socket.h>
#include <sys/stat.h>
#include <sys/un.h>
#include <unistd.h>

#include "cabinet.h"

static bool named(struct sockaddr_un *address, const char *path) {
    *address = (struct sockaddr_un){.sun_family = AF_UNIX};
    if (strlen(path) >= sizeof address->sun_path) return failed(path, "the name of a socket has at most 107 bytes");
    strcpy(address->sun_path, path);
    return true;
}

// A cabinet that was killed leaves the name of its socket behind: it goes where it is a socket at which nobody answers.
static bool freed(int place, const struct sockaddr_un *own) {
    struct statx there;
    if (statx(AT_FDCWD, own->sun_path, AT_SYMLINK_NOFOLLOW, STATX_TYPE, &there) != 0)
        return errno == ENOENT || failed_by_system(own->sun_path, "it cannot be looked at");
    if (!S_ISSOCK(there.stx_mode)) return failed(own->sun_path, "it exists and is no socket: give the socket another name");
    if (connect(place, (const struct sockaddr *)own, sizeof *own) == 0) return failed(own->sun_path, "another program has this socket");
    return unlink(own->sun_path) == 0 || failed_by_system(own->sun_path, "it cannot be removed");
}

bool radio_opened(radio *r, const char *own, const char *depot, int wait) {
    struct sockaddr_un name;
    if (!named(&name, own) || !named(&r->depot, depot)) return false;
    r->wait = wait;
    r->socket = socket(AF_UNIX, SOCK_DGRAM | SOCK_CLOEXEC, 0);
    if (r->socket < 0) return failed_by_system(own, "no socket can be made");
    if (!freed(r->socket, &name)) return false;
    return bind(r->socket, (struct sockaddr *)&name, sizeof name) == 0 || failed_by_system(own, "the socket cannot be given its name");
}

// What a radio does on a bad day: nobody is there, or nobody has time.
static bool lost(int error) {
    return error == ENOENT || error == ECONNREFUSED || error == EAGAIN || error == ENOBUFS || error == EINTR;
}

bool radio_ask(const radio *r, const uint32_t *numbers, size_t count) {
    uint8_t request[4 * MOST_WANTED];
    for (size_t i = 0; i < 4 * count; i++) request[i] = (uint8_t)(numbers[i / 4] >> (24 - 8 * (i % 4)));
    ssize_t sent = sendto(r->socket, request, 4 * count, MSG_DONTWAIT, (const struct sockaddr *)&r->depot, sizeof r->depot);
    return sent >= 0 || lost(errno) || failed_by_system(r->depot.sun_path, "nothing can be sent there");
}

// One datagram, or silence. Of one that is longer than the room the front is taken.
heard radio_hear(const radio *r, uint8_t *datagram, size_t room, size_t *length) {
    struct pollfd waiting = {.fd = r->socket, .events = POLLIN};
    int ready = poll(&waiting, 1, r->wait);
    if (ready == 0 || (ready < 0 && errno == EINTR)) return SILENT;
    ssize_t got = ready < 0 ? -1 : recv(r->socket, datagram, room, MSG_DONTWAIT);
    *length = got < 0 ? 0 : (size_t)got;
    if (got >= 0) return HEARD;
    if (lost(errno)) return SILENT;
    failed_by_system("the socket", "nothing can be heard");
    return BROKEN;
}
