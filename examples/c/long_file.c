// Encrypts or decrypts a file of any length through a buffer of 4 KiB. Each call gets the chaining value that the call before returned, so
// the result is the same as that of one call over the whole file. OFB takes a file of any size, CBC one of a multiple of 16 bytes.
//
// Build, in the repository:
//     tools/proved dock_c
//     cc -std=c11 -O2 -Wall -Wextra -Iinclude examples/c/long_file.c target/staticlib/libdock.a -o long_file
// Run. KEY is a file of 16, 24 or 32 bytes, IV one of 16 bytes; never use an IV twice under one key:
//     ./long_file cbc-encrypt KEY IV FROM TO
//     ./long_file cbc-decrypt KEY IV FROM TO
//     ./long_file ofb KEY IV FROM TO
// Status: 0 done, 2 wrong arguments, 1 anything else. Neither mode notices that a file was cut or changed; a release image does.
//
// The output is written to a temporary file next to it (.dock. and six characters), which is renamed when it is complete and stored. So a
// failure leaves no file, and an older output stays as it was; only a signal that ends the program can leave the temporary file. A new
// output can be read only by its owner (mode 0600); one that is replaced keeps its permissions. The program refuses an output that exists
// and is not a regular file, such as a link, and one that is also an input.
#define _GNU_SOURCE // statx; the rest is POSIX
#include <errno.h>
#include <fcntl.h>
#include <inttypes.h>
#include <limits.h>
#include <signal.h>
#include <stdbool.h>
#include <stdio.h>
#include <stdlib.h>
#include <string.h>
#include <sys/stat.h>
#include <unistd.h>

#include "dock.h"

enum { BUFFER = 4096 };
_Static_assert(BUFFER % 16 == 0, "every part but the last is whole pieces");

typedef dock_chain_answer mode_call(const uint8_t *, size_t, const uint8_t *, size_t, const uint8_t *, size_t, uint8_t *, size_t);

typedef struct {
    mode_call *call;
    const char *key;
    const char *iv;
    const char *from;
    const char *to;
} task;

// The contents of a small file, with room for one byte more than it may have, so that a longer one is noticed.
typedef struct {
    uint8_t bytes[33];
    size_t length;
} secret;

// An output in progress: its final name, its temporary name (empty if there is no file yet), and its permissions.
typedef struct {
    const char *path;
    char part[PATH_MAX + sizeof ".dock.XXXXXX"];
    mode_t mode;
    FILE *file;
} output;

static const char *in_words(uint32_t number) {
    switch (number) {
    case DOCK_KEY_LENGTH: return "a key is 16, 24 or 32 bytes: give another file";
    case DOCK_IV_LENGTH: return "an IV is 16 bytes: give another file";
    case DOCK_INPUT_LENGTH: return "CBC takes a multiple of 16 bytes: pad the file, or use OFB";
    case DOCK_OUTPUT_SHORT: return "the output is too short";
    default: return "a number that this program does not know";
    }
}

// Key material must not stay in memory. The compiler may not leave out a volatile write.
static void wipe(void *memory, size_t size) {
    volatile uint8_t *bytes = memory;
    for (size_t i = 0; i < size; i++) bytes[i] = 0;
}

// ---- Files

static bool failed(const char *path, const char *why) {
    fprintf(stderr, "%s: %s\n", path, why);
    return false;
}

static const char *advice(int error) {
    switch (error) {
    case ENOENT: case ENOTDIR: case EISDIR: case ELOOP: case ENAMETOOLONG: return "check the name";
    case EACCES: case EPERM: case EROFS: return "check the permissions";
    case ENOSPC: case EDQUOT: return "make room for it";
    default: return "fix that and start again";
    }
}

// The same, if the system knows why.
static bool failed_by_system(const char *path, const char *what) {
    int error = errno;
    fprintf(stderr, "%s: %s: %s: %s\n", path, what, strerror(error), advice(error));
    return false;
}

// Without a buffer of the C library, which would keep a copy of a key.
static FILE *opened(const char *path) {
    FILE *file = fopen(path, "rb");
    if (file) setvbuf(file, NULL, _IONBF, 0);
    else failed_by_system(path, "it cannot be opened");
    return file;
}

// Reads up to this many bytes. A failed read ends early too, and must not be taken for the end of the file.
static bool fetched(FILE *from, const char *path, void *bytes, size_t most, size_t *length) {
    *length = fread(bytes, 1, most, from);
    return !ferror(from) || failed_by_system(path, "it cannot be read");
}

static bool put(output *to, const void *bytes, size_t length) {
    return fwrite(bytes, 1, length, to->file) == length || failed_by_system(to->path, "it cannot be written");
}

// A file may have several names, so names are not compared.
static bool is_input(const struct statx *there, const char *path) {
    struct statx input;
    if (statx(AT_FDCWD, path, 0, STATX_BASIC_STATS, &input) != 0) return false;
    return input.stx_ino == there->stx_ino && input.stx_dev_major == there->stx_dev_major && input.stx_dev_minor == there->stx_dev_minor;
}

// A rename replaces whatever has the name, even a device or the only copy of an input. So the name is checked first. A file that another
// program makes under this name afterwards is replaced.
static bool name_allowed(output *to, const task *t) {
    struct statx there;
    size_t length = strlen(to->path);
    if (length == 0 || to->path[length - 1] == '/') return failed(to->path, "it does not name a file: give the output the name of a file");
    to->mode = S_IRUSR | S_IWUSR;
    if (statx(AT_FDCWD, to->path, AT_SYMLINK_NOFOLLOW, STATX_BASIC_STATS, &there) != 0)
        return errno == ENOENT || failed_by_system(to->path, "it cannot be looked at");
    if (!S_ISREG(there.stx_mode)) return failed(to->path, "it exists and is no regular file: give the output another name");
    if (is_input(&there, t->key) || is_input(&there, t->iv) || is_input(&there, t->from))
        return failed(to->path, "it is an input: give the output another name");
    if (access(to->path, W_OK) != 0) return failed_by_system(to->path, "it cannot be written");
    to->mode = there.stx_mode & (S_IRWXU | S_IRWXG | S_IRWXO);
    return true;
}

// A rename always works inside one folder, so the temporary file is made there. mkstemp picks a name that no file has. The name fits:
// statx has refused names of PATH_MAX bytes or more.
static bool begun(output *to) {
    const char *slash = strrchr(to->path, '/');
    int folder = slash ? (int)(slash - to->path) + 1 : 0;
    snprintf(to->part, sizeof to->part, "%.*s.dock.XXXXXX", folder, to->path);
    int place = mkstemp(to->part);
    if (place < 0) to->part[0] = 0;
    to->file = place < 0 ? NULL : fdopen(place, "wb");
    return to->file || failed_by_system(to->path, "no file can be made in its folder");
}

// The output gets its name last, when it is on the disk.
static bool kept(output *to) {
    bool stored = fflush(to->file) == 0 && fchmod(fileno(to->file), to->mode) == 0 && fsync(fileno(to->file)) == 0;
    if (!stored) return failed_by_system(to->path, "it cannot be written");
    return rename(to->part, to->path) == 0 || failed_by_system(to->path, "not kept: it cannot be given its name");
}

// A file gets the lowest free descriptor. If a standard stream is closed, that is its number, and messages would go into the file. So such
// a descriptor is first taken by something that cannot be written to.
static bool streams_taken(void) {
    int place = STDIN_FILENO;
    while (place >= STDIN_FILENO && place <= STDERR_FILENO) place = open("/dev/null", O_RDONLY);
    return place >= 0 ? close(place) == 0 : failed_by_system("/dev/null", "it cannot be opened");
}

static bool read_secret(const char *path, secret *s) {
    FILE *file = opened(path);
    if (!file) return false;
    bool right = fetched(file, path, s->bytes, sizeof s->bytes, &s->length);
    fclose(file);
    return right;
}

// ---- Encrypting and decrypting

// The message names the file that was refused.
static bool refused(const task *t, uint32_t number) {
    const char *path = number == DOCK_KEY_LENGTH ? t->key : number == DOCK_IV_LENGTH ? t->iv : t->from;
    fprintf(stderr, "%s: refusal %" PRIu32 ", %s\n", path, number, in_words(number));
    return false;
}

// One part. The IV becomes the chaining value for the next part. In OFB that is key stream, so it is wiped like the key.
static bool part_done(const task *t, const secret *key, secret *iv, const uint8_t *input, size_t length, output *to) {
    static uint8_t result[BUFFER];
    dock_chain_answer answer = t->call(key->bytes, key->length, iv->bytes, iv->length, input, length, result, sizeof result);
    bool right = answer.number == DOCK_DONE ? put(to, result, length) : refused(t, answer.number);
    memcpy(iv->bytes, answer.next, sizeof answer.next);
    wipe(&answer, sizeof answer);
    wipe(result, sizeof result);
    return right;
}

// A part shorter than the buffer is the last one; it may be empty.
static bool in_parts(const task *t, const secret *key, secret *iv, FILE *from, output *to) {
    static uint8_t input[BUFFER];
    size_t length = BUFFER;
    bool right = true;
    while (right && length == BUFFER)
        right = fetched(from, t->from, input, BUFFER, &length) && part_done(t, key, iv, input, length, to);
    wipe(input, BUFFER);
    return right && kept(to);
}

// ---- The program

static bool through_files(const task *t, const secret *key, secret *iv) {
    output to = {.path = t->to};
    FILE *from = opened(t->from);
    bool right = from && name_allowed(&to, t) && begun(&to) && in_parts(t, key, iv, from, &to);
    if (from) fclose(from);
    // Closing loses nothing: what is kept has been stored before.
    if (to.file) fclose(to.file);
    if (!right && to.part[0]) remove(to.part);
    return right;
}

static mode_call *call_named(const char *name) {
    if (strcmp(name, "cbc-encrypt") == 0) return dock_cbc_encrypt;
    if (strcmp(name, "cbc-decrypt") == 0) return dock_cbc_decrypt;
    return strcmp(name, "ofb") == 0 ? dock_ofb : NULL;
}

int main(int count, char **text) {
    mode_call *call = count == 6 ? call_named(text[1]) : NULL;
    if (!call) {
        fputs("usage: long_file cbc-encrypt|cbc-decrypt|ofb KEY IV FROM TO\n", stderr);
        return 2;
    }
    const task t = {.call = call, .key = text[2], .iv = text[3], .from = text[4], .to = text[5]};
    secret key, iv;
    // A write that fails, past a limit or to a closed pipe, is reported and must not end the program.
    signal(SIGPIPE, SIG_IGN);
    signal(SIGXFSZ, SIG_IGN);
    bool right = streams_taken() && read_secret(t.key, &key) && read_secret(t.iv, &iv) && through_files(&t, &key, &iv);
    wipe(&key, sizeof key);
    wipe(&iv, sizeof iv);
    return right ? 0 : 1;
}
