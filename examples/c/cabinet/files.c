// The cabinet's files: whole writes, reads that tell an end from a failure, and names that change only by a rename.
#define _POSIX_C_SOURCE 200809L // openat, pread, ftruncate
#include <errno.h>
#include <fcntl.h>
#include <stdio.h>
#include <string.h>
#include <sys/file.h>
#include <sys/stat.h>
#include <unistd.h>

#include "cabinet.h"

bool failed(const char *name, const char *why) {
    fprintf(stderr, "cabinet: %s: %s\n", name, why);
    return false;
}

bool failed_by_system(const char *name, const char *what) {
    int error = errno;
    fprintf(stderr, "cabinet: %s: %s: %s\n", name, what, strerror(error));
    return false;
}

// Key material must not stay in memory. The compiler may not leave out a write that is volatile.
void wipe(void *memory, size_t size) {
    volatile uint8_t *bytes = memory;
    for (size_t i = 0; i < size; i++) bytes[i] = 0;
}

// A file takes the lowest number that is free. Where a standard stream is closed that is its number, and words for people would go
// into the file. So such a number is taken by something that no one can write to.
bool streams_taken(void) {
    int place = STDIN_FILENO;
    while (place >= STDIN_FILENO && place <= STDERR_FILENO) place = open("/dev/null", O_RDONLY);
    return place >= 0 ? close(place) == 0 : failed_by_system("/dev/null", "it cannot be opened");
}

// One byte more than the longest keys is read, so that a longer file is seen.
bool keys_read(const char *path, key_pair *keys) {
    uint8_t both[2 * sizeof keys->check + 1];
    size_t length;
    int file = open(path, O_RDONLY | O_CLOEXEC);
    if (file < 0) return failed_by_system(path, "it cannot be opened");
    bool right = part_read(file, path, both, sizeof both, 0, &length);
    close(file);
    if (right && length != 32 && length != 48 && length != 64)
        right = failed(path, "it is not a key file: the encryption key and the check key, both of 16, 24 or 32 bytes");
    if (right) {
        keys->size = length / 2;
        memcpy(keys->encryption, both, keys->size);
        memcpy(keys->check, both + keys->size, keys->size);
    }
    wipe(both, sizeof both);
    return right;
}

// The lock is the system's: it ends with the process, however that ends.
static bool locked(int folder, const char *path) {
    int lock;
    if (!file_opened(folder, LOCK, &lock)) return false;
    if (flock(lock, LOCK_EX | LOCK_NB) == 0) return true;
    return errno == EWOULDBLOCK ? failed(path, "another cabinet is at work in this folder") : failed_by_system(path, "it cannot be locked");
}

bool folder_opened(const char *path, int *folder) {
    *folder = open(path, O_RDONLY | O_CLOEXEC);
    if (*folder < 0) return failed_by_system(path, "the folder cannot be opened");
    return locked(*folder, path);
}

bool file_opened(int folder, const char *name, int *file) {
    *file = openat(folder, name, O_RDWR | O_CREAT | O_CLOEXEC, S_IRUSR | S_IWUSR);
    return *file >= 0 || failed_by_system(name, "it cannot be opened");
}

// An old file, to be read. That there is none is no failure to speak of.
bool file_found(int folder, const char *name, int *file) {
    *file = openat(folder, name, O_RDONLY | O_CLOEXEC);
    return *file >= 0 || (errno != ENOENT && failed_by_system(name, "it cannot be opened"));
}

// A write may take a part only: on a disk that fills up, or where a signal comes.
bool part_written(int file, const char *name, const void *bytes, size_t length, uint64_t place) {
    const uint8_t *from = bytes;
    while (length > 0) {
        ssize_t done = pwrite(file, from, length, (off_t)place);
        if (done < 0 && errno == EINTR) continue;
        if (done <= 0) return failed_by_system(name, "it cannot be written");
        from += done;
        length -= (size_t)done;
        place += (uint64_t)done;
    }
    return true;
}

// Up to so many bytes; fewer only at the end of the file.
bool part_read(int file, const char *name, void *bytes, size_t room, uint64_t place, size_t *length) {
    uint8_t *to = bytes;
    *length = 0;
    while (*length < room) {
        ssize_t done = pread(file, to + *length, room - *length, (off_t)(place + *length));
        if (done < 0 && errno == EINTR) continue;
        if (done < 0) return failed_by_system(name, "it cannot be read");
        if (done == 0) break;
        *length += (size_t)done;
    }
    return true;
}

bool cut(int file, const char *name, uint64_t length) {
    return ftruncate(file, (off_t)length) == 0 || failed_by_system(name, "it cannot be cut");
}

bool stored(int file, const char *name) {
    return fsync(file) == 0 || failed_by_system(name, "the disk did not take it");
}

// A name is on the disk once its folder is.
bool renamed(int folder, const char *from, const char *to) {
    if (renameat(folder, from, folder, to) != 0) return failed_by_system(to, "it cannot be given its name");
    return stored(folder, "the folder");
}

bool removed(int folder, const char *name) {
    return unlinkat(folder, name, 0) == 0 || errno == ENOENT || failed_by_system(name, "it cannot be removed");
}
