// A depot: holds a sealed image and sends the blocks that cabinets ask for, over a radio that may lose any of them.
//
// Build, in the repository; it needs no key and no library, since the image is sealed already (`./dock seal`):
//     cc -std=c11 -O2 -Wall -Wextra -Iinclude examples/c/depot.c -o depot
// Run; examples/c/cabinet is the other side:
//     ./depot IMAGE SOCKET
// Status: 2 wrong words, 1 all else. It answers until it is ended.
//
// A request is up to 64 numbers of blocks, 4 bytes each, big-endian, and the answer is these blocks, a datagram of 512 bytes each, to
// whoever asked. A number that the image has no block for is passed over. Nothing vouches for a request: whoever can send one gets
// sealed blocks, which are on the radio anyway.
#define _GNU_SOURCE // statx; the rest is POSIX
#include <errno.h>
#include <fcntl.h>
#include <stdbool.h>
#include <stdint.h>
#include <stdio.h>
#include <string.h>
#include <sys/socket.h>
#include <sys/stat.h>
#include <sys/time.h>
#include <sys/un.h>
#include <unistd.h>

#include "dock.h"

enum { MOST_WANTED = 64 };

typedef struct {
    int image;
    int socket;
} depot;

typedef struct {
    struct sockaddr_un name;
    socklen_t length;
} peer;

static bool failed(const char *name, const char *why) {
    fprintf(stderr, "depot: %s: %s\n", name, why);
    return false;
}

static bool failed_by_system(const char *name, const char *what) {
    int error = errno;
    fprintf(stderr, "depot: %s: %s: %s\n", name, what, strerror(error));
    return false;
}

// ---- The start

// An image that is cut can be sent, and no cabinet would ever be complete.
static bool image_opened(depot *d, const char *path) {
    d->image = open(path, O_RDONLY | O_CLOEXEC);
    if (d->image < 0) return failed_by_system(path, "it cannot be opened");
    off_t size = lseek(d->image, 0, SEEK_END);
    if (size < 0) return failed_by_system(path, "it cannot be read");
    return (size > 0 && size % DOCK_IMAGE_BLOCK == 0) || failed(path, "it is not whole blocks of 512 bytes: it is no image");
}

// A depot that was killed leaves the name of its socket behind: it goes where it is a socket at which nobody answers.
static bool freed(int place, const struct sockaddr_un *own) {
    struct statx there;
    if (statx(AT_FDCWD, own->sun_path, AT_SYMLINK_NOFOLLOW, STATX_TYPE, &there) != 0)
        return errno == ENOENT || failed_by_system(own->sun_path, "it cannot be looked at");
    if (!S_ISSOCK(there.stx_mode)) return failed(own->sun_path, "it exists and is no socket: give the socket another name");
    if (connect(place, (const struct sockaddr *)own, sizeof *own) == 0) return failed(own->sun_path, "another program has this socket");
    return unlink(own->sun_path) == 0 || failed_by_system(own->sun_path, "it cannot be removed");
}

// A cabinet that takes nothing must not hold up the others, so a datagram waits a tenth of a second at most.
static bool socket_opened(depot *d, const char *path) {
    struct sockaddr_un own = {.sun_family = AF_UNIX};
    struct timeval most = {.tv_usec = 100000};
    if (strlen(path) >= sizeof own.sun_path) return failed(path, "the name of a socket has at most 107 bytes");
    strcpy(own.sun_path, path);
    d->socket = socket(AF_UNIX, SOCK_DGRAM | SOCK_CLOEXEC, 0);
    if (d->socket < 0 || setsockopt(d->socket, SOL_SOCKET, SO_SNDTIMEO, &most, sizeof most) != 0)
        return failed_by_system(path, "no socket can be made");
    if (!freed(d->socket, &own)) return false;
    return bind(d->socket, (struct sockaddr *)&own, sizeof own) == 0 || failed_by_system(path, "the socket cannot be given its name");
}

// ---- The answers

// What a radio does on a bad day: nobody is there any more, or nobody has time.
static bool lost(int error) {
    return error == ENOENT || error == ECONNREFUSED || error == EAGAIN || error == ENOBUFS || error == EINTR;
}

// A whole block, or none: behind the end of the image there is none.
static bool block_read(const depot *d, uint32_t number, uint8_t *block, bool *whole) {
    ssize_t got;
    do got = pread(d->image, block, DOCK_IMAGE_BLOCK, (off_t)number * DOCK_IMAGE_BLOCK);
    while (got < 0 && errno == EINTR);
    *whole = got == DOCK_IMAGE_BLOCK;
    return got >= 0 || failed_by_system("the image", "it cannot be read");
}

static bool sent(const depot *d, uint32_t number, const peer *to) {
    uint8_t block[DOCK_IMAGE_BLOCK];
    bool whole;
    if (!block_read(d, number, block, &whole)) return false;
    if (!whole) return true;
    if (sendto(d->socket, block, sizeof block, 0, (const struct sockaddr *)&to->name, to->length) >= 0 || lost(errno)) return true;
    return failed_by_system("a cabinet", "nothing can be sent to it");
}

static bool answered(const depot *d, const uint8_t *request, size_t length, const peer *to) {
    bool right = true;
    for (size_t at = 0; right && at + 4 <= length; at += 4) {
        const uint8_t *n = request + at;
        right = sent(d, (uint32_t)n[0] << 24 | (uint32_t)n[1] << 16 | (uint32_t)n[2] << 8 | n[3], to);
    }
    return right;
}

// Somebody whose socket has no name cannot be answered.
static bool served(const depot *d) {
    uint8_t request[4 * MOST_WANTED];
    peer from = {.length = sizeof from.name};
    ssize_t got = recvfrom(d->socket, request, sizeof request, 0, (struct sockaddr *)&from.name, &from.length);
    if (got < 0) return lost(errno) || failed_by_system("the socket", "nothing can be heard");
    return from.length <= sizeof from.name.sun_family || answered(d, request, (size_t)got, &from);
}

int main(int count, char **text) {
    depot d;
    if (count != 3) {
        fputs("usage: depot IMAGE SOCKET\n", stderr);
        return 2;
    }
    bool right = image_opened(&d, text[1]) && socket_opened(&d, text[2]);
    while (right) right = served(&d);
    return 1;
}
