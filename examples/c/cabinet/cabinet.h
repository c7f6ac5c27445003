// What the parts of the cabinet know of each other. cabinet.c says what the program does and how it is built.
#ifndef CABINET_H
#define CABINET_H

#include <stdbool.h>
#include <stddef.h>
#include <stdint.h>
#include <sys/socket.h>
#include <sys/un.h>

#include "dock.h"

// Both keys come from one file, and are of one size.
typedef struct {
    uint8_t encryption[32];
    uint8_t check[32];
    size_t size;
} key_pair;

// What is to be fetched, as `./dock check` prints it of the image. An older release is whole too, so the cabinet must be told.
typedef struct {
    uint32_t release;
    uint32_t edition;
    uint32_t count;
} order;

typedef struct {
    key_pair keys;
    order order;
    int folder;
} job;

// How an image is taken: in order by a reader (edition 2), or in any order by a receiver (edition 1). Where a call answers false, a file
// or the memory failed, and it has said so; a block that is refused is no failure.
typedef struct {
    bool (*found)(const job *j);                                     // goes on with what the folder holds, or starts anew
    size_t (*lacking)(const job *j, uint32_t *numbers, size_t most); // numbers of blocks that are to be asked for
    bool (*offered)(const job *j, const uint8_t *datagram, size_t length, uint32_t *number); // number: 0 accepted, else the refusal
    bool (*kept)(const job *j);                                      // what was accepted is to outlive a crash
    bool (*complete)(void);                                          // the library's word, and nobody else's
    bool (*installed)(const job *j);
    void (*wiped)(void);
} way;

extern const way in_order;
extern const way any_order;

// ---- cabinet.c

bool refused(const char *what, uint32_t number); // says so, and is always false
uint32_t number_at(const uint8_t *bytes);        // 4 bytes, big-endian

// ---- files.c. Where a call answers false it has said on standard error what failed.

// The names in the folder. RELEASE is what the cabinet runs, and only a rename writes it.
#define LOCK "lock"
#define PAYLOAD "payload"
#define STATE "state"
#define STATE_NEW "state.new"
#define BLOCKS "blocks"
#define RELEASE "release"

bool failed(const char *name, const char *why);            // always false
bool failed_by_system(const char *name, const char *what); // the same, with the reason that the system gives
void wipe(void *memory, size_t size);
bool streams_taken(void);
bool keys_read(const char *path, key_pair *keys);
bool folder_opened(const char *path, int *folder);
bool file_opened(int folder, const char *name, int *file);
bool file_found(int folder, const char *name, int *file);
bool part_written(int file, const char *name, const void *bytes, size_t length, uint64_t place);
bool part_read(int file, const char *name, void *bytes, size_t room, uint64_t place, size_t *length);
bool cut(int file, const char *name, uint64_t length);
bool stored(int file, const char *name);
bool renamed(int folder, const char *from, const char *to);
bool removed(int folder, const char *name);

// ---- radio.c

// The most blocks that one request asks for. Few are lost where the queue of a socket is short: Linux gives it 10 datagrams.
enum { MOST_WANTED = 8 };

typedef struct {
    int socket;
    struct sockaddr_un depot;
    int wait;
} radio;

typedef enum { HEARD, SILENT, BROKEN } heard;

bool radio_opened(radio *r, const char *own, const char *depot, int wait);
bool radio_ask(const radio *r, const uint32_t *numbers, size_t count);
heard radio_hear(const radio *r, uint8_t *datagram, size_t room, size_t *length);

#endif
