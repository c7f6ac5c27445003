// Seals a file into a release image, and reads an image back into a file. It checks every answer of the library and says it in words.
//
// Build, in the repository:
//     tools/proved dock_c
//     cc -std=c11 -O2 -Wall -Wextra -Iinclude examples/c/seal_and_read.c target/staticlib/libdock.a -o seal_and_read
// Run. KEYS is a file of 32 bytes, an encryption key and a check key of 16 bytes each; use samples/keys for trials:
//     ./seal_and_read seal KEYS RELEASE EDITION FILE IMAGE
//     ./seal_and_read read KEYS IMAGE FILE
// Status: 0 done, 2 wrong arguments, 1 anything else.
//
// The output is written to a temporary file next to it (.dock. and six characters), which is renamed when it is complete and stored. So a
// failure leaves no file, and an older output stays as it was; only a signal that ends the program can leave the temporary file. A new
// output can be read only by its owner (mode 0600); one that is replaced keeps its permissions. The program refuses an output that exists
// and is not a regular file, such as a link, and one that is also an input.
#define _GNU_SOURCE // statx; the rest is POSIX
#include <errno.h>
#include <fcntl.h>
#include <inttypes.h>
#include <limits.h>
#include <signal.h>
#include <stdbool.h>
#include <stdio.h>
#include <stdlib.h>
#include <string.h>
#include <sys/stat.h>
#include <unistd.h>

#include "dock.h"

enum { MOST_PAYLOAD = DOCK_MOST_BLOCKS * DOCK_IMAGE_PAYLOAD };

typedef struct {
    uint8_t encryption[16];
    uint8_t check[16];
} key_pair;

typedef struct {
    bool sealing;
    uint32_t release;
    uint32_t edition;
    const char *keys;
    const char *from;
    const char *to;
} task;

// An output in progress: its final name, its temporary name (empty if there is no file yet), and its permissions.
typedef struct {
    const char *path;
    char part[PATH_MAX + sizeof ".dock.XXXXXX"];
    mode_t mode;
    FILE *file;
} output;

static const char *in_words(uint32_t number) {
    switch (number) {
    case DOCK_DONE: return "done";
    case DOCK_KEY_LENGTH: return "a key is not 16, 24 or 32 bytes";
    case DOCK_IV_LENGTH: return "the IV has a wrong length for the mode";
    case DOCK_INPUT_LENGTH: return "the input is not a multiple of 16 bytes";
    case DOCK_OUTPUT_SHORT: return "the output is too short";
    case DOCK_ASKED_NUMBER: return "the number of blocks asked for is not 1 to 128";
    case DOCK_LENT_LENGTH: return "the bytes are not whole blocks of 512";
    case DOCK_COUNT_RANGE: return "the count is not 1 to 65,535";
    case DOCK_BLOCK_NUMBER: return "the number of the block is wrong";
    case DOCK_COUNT_DIFFERS: return "the count is not that of the first block";
    case DOCK_RELEASE_DIFFERS: return "the release is not that of the first block";
    case DOCK_PAYLOAD_LENGTH: return "the payload length is wrong for its place";
    case DOCK_EDITION_WRONG: return "the edition is wrong";
    case DOCK_CHECK_WRONG: return "the check is wrong";
    case DOCK_FILL_NOT_ZERO: return "the fill is not zero";
    case DOCK_AFTER_LAST: return "the block comes after the last";
    case DOCK_NOT_COMPLETE: return "the last block has not been accepted";
    case DOCK_WRAP_LENGTH: return "the data has a wrong length";
    case DOCK_INITIAL_VALUE: return "the data was not wrapped under this key";
    case DOCK_NOT_BELOW_COUNT: return "a place or number is not below the count";
    case DOCK_ALREADY_HELD: return "the block is held already";
    case DOCK_CCM_LENGTH: return "a length is outside the profile";
    case DOCK_CCM_TAG: return "the tag is wrong";
    case DOCK_NOT_A_BOOKMARK: return "not a bookmark under this check key";
    default: return "a number that this program does not know";
    }
}

// Key material must not stay in memory. The compiler may not leave out a volatile write.
static void wipe(void *memory, size_t size) {
    volatile uint8_t *bytes = memory;
    for (size_t i = 0; i < size; i++) bytes[i] = 0;
}

// ---- Files

static bool failed(const char *path, const char *why) {
    fprintf(stderr, "%s: %s\n", path, why);
    return false;
}

static const char *advice(int error) {
    switch (error) {
    case ENOENT: case ENOTDIR: case EISDIR: case ELOOP: case ENAMETOOLONG: return "check the name";
    case EACCES: case EPERM: case EROFS: return "check the permissions";
    case ENOSPC: case EDQUOT: return "make room for it";
    default: return "fix that and start again";
    }
}

// The same, if the system knows why.
static bool failed_by_system(const char *path, const char *what) {
    int error = errno;
    fprintf(stderr, "%s: %s: %s: %s\n", path, what, strerror(error), advice(error));
    return false;
}

// Without a buffer of the C library, which would keep a copy of a key.
static FILE *opened(const char *path) {
    FILE *file = fopen(path, "rb");
    if (file) setvbuf(file, NULL, _IONBF, 0);
    else failed_by_system(path, "it cannot be opened");
    return file;
}

// Reads up to this many bytes. A failed read ends early too, and must not be taken for the end of the file.
static bool fetched(FILE *from, const char *path, void *bytes, size_t most, size_t *length) {
    *length = fread(bytes, 1, most, from);
    return !ferror(from) || failed_by_system(path, "it cannot be read");
}

static bool put(output *to, const void *bytes, size_t length) {
    return fwrite(bytes, 1, length, to->file) == length || failed_by_system(to->path, "it cannot be written");
}

// A file may have several names, so names are not compared.
static bool is_input(const struct statx *there, const char *path) {
    struct statx input;
    if (statx(AT_FDCWD, path, 0, STATX_BASIC_STATS, &input) != 0) return false;
    return input.stx_ino == there->stx_ino && input.stx_dev_major == there->stx_dev_major && input.stx_dev_minor == there->stx_dev_minor;
}

// A rename replaces whatever has the name, even a device or the only copy of an input. So the name is checked first. A file that another
// program makes under this name afterwards is replaced.
static bool name_allowed(output *to, const task *t) {
    struct statx there;
    size_t length = strlen(to->path);
    if (length == 0 || to->path[length - 1] == '/') return failed(to->path, "it does not name a file: give the output the name of a file");
    to->mode = S_IRUSR | S_IWUSR;
    if (statx(AT_FDCWD, to->path, AT_SYMLINK_NOFOLLOW, STATX_BASIC_STATS, &there) != 0)
        return errno == ENOENT || failed_by_system(to->path, "it cannot be looked at");
    if (!S_ISREG(there.stx_mode)) return failed(to->path, "it exists and is no regular file: give the output another name");
    if (is_input(&there, t->keys) || is_input(&there, t->from)) return failed(to->path, "it is an input: give the output another name");
    if (access(to->path, W_OK) != 0) return failed_by_system(to->path, "it cannot be written");
    to->mode = there.stx_mode & (S_IRWXU | S_IRWXG | S_IRWXO);
    return true;
}

// A rename always works inside one folder, so the temporary file is made there. mkstemp picks a name that no file has. The name fits:
// statx has refused names of PATH_MAX bytes or more.
static bool begun(output *to) {
    const char *slash = strrchr(to->path, '/');
    int folder = slash ? (int)(slash - to->path) + 1 : 0;
    snprintf(to->part, sizeof to->part, "%.*s.dock.XXXXXX", folder, to->path);
    int place = mkstemp(to->part);
    if (place < 0) to->part[0] = 0;
    to->file = place < 0 ? NULL : fdopen(place, "wb");
    return to->file || failed_by_system(to->path, "no file can be made in its folder");
}

// The output gets its name last, when it is on the disk and the message about it has been written.
static bool kept(output *to, const char *words) {
    bool stored = fflush(to->file) == 0 && fchmod(fileno(to->file), to->mode) == 0 && fsync(fileno(to->file)) == 0;
    if (!stored) return failed_by_system(to->path, "it cannot be written");
    if (puts(words) == EOF || fflush(stdout) != 0 || ferror(stdout)) return failed(to->path, "not kept: standard output cannot be written");
    return rename(to->part, to->path) == 0 || failed_by_system(to->path, "not kept: it cannot be given its name");
}

// A file gets the lowest free descriptor. If a standard stream is closed, that is its number, and messages would go into the file. So such
// a descriptor is first taken by something that cannot be written to.
static bool streams_taken(void) {
    int place = STDIN_FILENO;
    while (place >= STDIN_FILENO && place <= STDERR_FILENO) place = open("/dev/null", O_RDONLY);
    return place >= 0 ? close(place) == 0 : failed_by_system("/dev/null", "it cannot be opened");
}

static bool read_keys(const char *path, key_pair *keys) {
    FILE *file = opened(path);
    if (!file) return false;
    uint8_t more;
    size_t length, rest;
    bool right = fetched(file, path, keys, sizeof *keys, &length) && fetched(file, path, &more, sizeof more, &rest);
    if (right && (length != sizeof *keys || rest != 0))
        right = failed(path, "it is not 32 bytes, encryption key and check key of 16 each: give another file of keys");
    fclose(file);
    return right;
}

// ---- Sealing

// An empty file is one block with no payload.
static uint32_t blocks_for(size_t size) {
    return size == 0 ? 1 : (uint32_t)((size + DOCK_IMAGE_PAYLOAD - 1) / DOCK_IMAGE_PAYLOAD);
}

// Each block takes the check of the one before, its last 16 bytes. Edition 1 and block 0 do not use it.
static bool seal_blocks(const task *t, const key_pair *keys, const uint8_t *payload, size_t size, output *to) {
    uint8_t block[DOCK_IMAGE_BLOCK] = {0};
    uint32_t count = blocks_for(size);
    for (uint32_t number = 0; number < count; number++) {
        size_t at = (size_t)number * DOCK_IMAGE_PAYLOAD;
        size_t length = size - at < DOCK_IMAGE_PAYLOAD ? size - at : DOCK_IMAGE_PAYLOAD;
        dock_block previous;
        memcpy(previous.bytes, block + sizeof block - sizeof previous.bytes, sizeof previous.bytes);
        uint32_t answer = dock_write(keys->encryption, sizeof keys->encryption, keys->check, sizeof keys->check, number, count,
                                     t->release, t->edition, previous, payload + at, length, block, sizeof block);
        if (answer != DOCK_DONE) {
            printf("block %" PRIu32 " was not sealed: refusal %" PRIu32 ", %s\n", number, answer, in_words(answer));
            return false;
        }
        if (!put(to, block, sizeof block)) return false;
    }
    return true;
}

// The first block holds the count, so the whole file is read first. Its size is the number of bytes read, even if the file changes later.
static bool seal(const task *t, const key_pair *keys, FILE *from, output *to) {
    static uint8_t payload[MOST_PAYLOAD + 1];
    size_t size;
    bool right = fetched(from, t->from, payload, sizeof payload, &size);
    if (right && size > MOST_PAYLOAD) right = failed(t->from, "it is more than an image holds, 31,456,800 bytes: give a smaller file");
    right = right && seal_blocks(t, keys, payload, size, to);
    wipe(payload, size);
    char words[128];
    snprintf(words, sizeof words, "sealed %zu bytes as release %" PRIu32 ", edition %" PRIu32 ", in %" PRIu32 " blocks", size, t->release,
             t->edition, blocks_for(size));
    return right && kept(to, words);
}

// ---- Reading

// Prints how a turn ended. Returns whether it was carried out to its end.
static bool told(const dock_turn_answer *turn, uint32_t first) {
    uint32_t next = turn->reader.progress.next;
    if (turn->accepted > 0) printf("blocks %" PRIu32 " to %" PRIu32 " accepted: %zu bytes\n", first, next - 1, turn->bytes);
    if (turn->number != DOCK_DONE) {
        printf("the turn from block %" PRIu32 " on was refused: refusal %" PRIu32 ", %s\n", first, turn->number, in_words(turn->number));
        return false;
    }
    if (turn->reason == DOCK_DONE) return true;
    printf("the block offered as number %" PRIu32 " was refused: refusal %" PRIu32 ", %s", next, turn->reason, in_words(turn->reason));
    if (turn->reason >= DOCK_COUNT_RANGE && turn->reason <= DOCK_EDITION_WRONG) printf(" (found: %" PRIu32 ")", turn->value);
    printf("\n");
    return false;
}

// What a turn accepted is written first, because a turn that stopped may have accepted blocks too. Every block before the last is full, so
// the payload of a turn is in one piece at the front of the output.
static bool offered(dock_reader *reader, const uint8_t *bytes, size_t length, output *to) {
    static uint8_t payload[DOCK_MOST_ASKED * DOCK_IMAGE_PAYLOAD];
    if (length == 0) return true;
    uint32_t first = reader->progress.next;
    dock_turn_answer turn = dock_read_turn(*reader, bytes, length, DOCK_MOST_ASKED, payload, sizeof payload);
    *reader = turn.reader;
    bool right = put(to, payload, turn.bytes);
    if (!told(&turn, first)) right = false;
    wipe(payload, sizeof payload);
    wipe(&turn, sizeof turn);
    return right;
}

// Reads to the end of the file, or to the first refusal. Bytes after the last whole block are offered by themselves, because the library
// refuses a whole turn with such bytes. Returns whether the file ended and every byte of it was accepted.
static bool read_turns(const task *t, dock_reader *reader, FILE *from, output *to) {
    static uint8_t blocks[DOCK_MOST_ASKED * DOCK_IMAGE_BLOCK];
    size_t length;
    do {
        if (!fetched(from, t->from, blocks, sizeof blocks, &length)) return false;
        size_t whole = length - length % DOCK_IMAGE_BLOCK;
        if (!offered(reader, blocks, whole, to) || !offered(reader, blocks + whole, length - whole, to)) return false;
    } while (length == sizeof blocks);
    return true;
}

// An image is whole if the library calls it complete and the file has nothing else in it.
static bool judged(const dock_reader *reader, bool clean, output *to) {
    const dock_progress *p = &reader->progress;
    char words[128];
    uint32_t answer = dock_read_complete(*reader);
    if (answer != DOCK_DONE) {
        printf("the image is not complete: %" PRIu32 ", %s. Install nothing of it\n", answer, in_words(answer));
        return false;
    }
    if (!clean) {
        printf("a complete image of %" PRIu32 " blocks, then more after it: nothing was kept. Find out why more came\n", p->count);
        return false;
    }
    snprintf(words, sizeof words, "the image is complete: release %" PRIu32 ", edition %" PRIu32 ", %" PRIu32 " blocks", p->release,
             p->edition, p->count);
    return kept(to, words);
}

static bool read_image(const task *t, const key_pair *keys, FILE *from, output *to) {
    dock_read_start_answer start = dock_read_start(keys->encryption, sizeof keys->encryption, keys->check, sizeof keys->check);
    if (start.number != DOCK_DONE) {
        printf("no reading was started: refusal %" PRIu32 ", %s\n", start.number, in_words(start.number));
        return false;
    }
    bool clean = read_turns(t, &start.reader, from, to);
    // If the file could not be read, nothing is known about the image.
    bool right = !ferror(from) && !ferror(to->file) && judged(&start.reader, clean, to);
    wipe(&start, sizeof start);
    return right;
}

// ---- The program

static bool through_files(const task *t, const key_pair *keys) {
    output to = {.path = t->to};
    FILE *from = opened(t->from);
    bool right = from && name_allowed(&to, t) && begun(&to) && (t->sealing ? seal : read_image)(t, keys, from, &to);
    if (from) fclose(from);
    // Closing loses nothing: what is kept has been stored before.
    if (to.file) fclose(to.file);
    if (!right && to.part[0]) remove(to.part);
    return right;
}

// The library says which editions exist.
static bool read_number(const char *text, uint32_t *number) {
    char *end;
    errno = 0;
    unsigned long value = strtoul(text, &end, 10);
    bool right = *text >= '0' && *text <= '9' && *end == 0 && errno == 0 && value <= UINT32_MAX;
    *number = (uint32_t)value;
    return right || failed(text, "it is no number: give a release or an edition as digits, 4294967295 at most");
}

static int usage(void) {
    fputs("usage: seal_and_read seal KEYS RELEASE EDITION FILE IMAGE\n       seal_and_read read KEYS IMAGE FILE\n", stderr);
    return 2;
}

int main(int count, char **text) {
    key_pair keys;
    task t = {.sealing = count == 7 && strcmp(text[1], "seal") == 0};
    if (!t.sealing && !(count == 5 && strcmp(text[1], "read") == 0)) return usage();
    if (t.sealing && !(read_number(text[3], &t.release) && read_number(text[4], &t.edition))) return 2;
    t.keys = text[2];
    t.from = text[count - 2];
    t.to = text[count - 1];
    // A write that fails, to a closed pipe or past a limit, is reported and must not end the program.
    signal(SIGPIPE, SIG_IGN);
    signal(SIGXFSZ, SIG_IGN);
    bool right = streams_taken() && read_keys(t.keys, &keys) && through_files(&t, &keys);
    wipe(&keys, sizeof keys);
    return right ? 0 : 1;
}
