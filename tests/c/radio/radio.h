// What the parts of the radio test know of each other. radio.c says what the test does.
#ifndef RADIO_H
#define RADIO_H

#include <stdbool.h>
#include <stddef.h>
#include <stdint.h>
#include <sys/un.h>

// ---- chance.c: numbers that follow from a seed, and the clock

void chance_begins(uint64_t seed);
uint32_t chance(uint32_t below); // 0 to below - 1
bool one_in(uint32_t many);
void noise(uint8_t *bytes, size_t length);
uint64_t microseconds(void);

// ---- files.c: whole files

typedef struct {
    bool there;
    size_t length;
    uint8_t *bytes;
} content;

void stop(const char *what, const char *name); // a failure of the test itself
content file_read(const char *path);
void file_write(const char *path, const uint8_t *bytes, size_t length);
void file_remove(const char *path);
void put_back(const char *path, const content *c); // as it was: not there, where it was not
content copied(const content *c);
void forget(content *c);
bool equal(const content *a, const content *b);

// ---- relay.c: the poor radio between a cabinet and a depot

enum { MOST_FLYING = 64, MOST_LENGTH = 1024, BLOCK = 512 };

typedef struct {
    uint64_t due;
    bool down; // to the cabinet, and not to the depot
    size_t length;
    uint8_t bytes[MOST_LENGTH];
} datagram;

typedef struct {
    int air;  // on the cabinet's side
    int wire; // on the depot's side
    struct sockaddr_un cabinet;
    struct sockaddr_un depot;
    datagram flying[MOST_FLYING];
    size_t count;
    unsigned delivered;       // to the cabinet
    const content *strangers; // an image whose blocks come between
} relay;

typedef enum { PASSED, LOST, DOUBLED, LATE, CUT, LONGER, DAMAGED, STRANGE, FATES } fate;
extern const char *const fate_names[FATES];
extern unsigned fates[FATES];

void relay_opened(relay *r, const char *cabinet, const char *air);
void relay_to(relay *r, const char *wire, const char *depot, const content *strangers);
void relay_takes(relay *r, uint64_t now);
void relay_delivers(relay *r, uint64_t now);
uint64_t relay_next(const relay *r); // when the next datagram is due

// ---- images.c: the releases that are sent, and the programs of both sides

typedef struct {
    const char *name;
    uint32_t size;
    uint32_t release;
    unsigned keys; // whose: of cabinet 0 or 1
    uint32_t edition;
    uint32_t blocks;
    content payload;
    content image;
    char depot[16];
    int process;
} release;

// The words before a program for x86-64, and the programs.
typedef struct {
    char **runner;
    const char *seal;
    const char *depot;
    const char *cabinet;
} programs;

enum { IMAGES = 16 };
extern release images[IMAGES];

void image_made(const programs *p, int number);
void depot_started(const programs *p, int number);
void depots_ended(void);
int cabinet_started(const programs *p, const release *i, const char *folder, const char *socket, const char *depot, const char *log);
bool alike(const release *a, const release *b); // of one release number, count and edition, under the same keys

// ---- flash.c: what a cabinet finds when it is started again

typedef struct {
    const char *name;
    uint32_t edition;
    bool (*put)(const char *folder, int image); // false where there is nothing to change so
    unsigned times;
} change;

enum { CHANGES = 30 };
extern change changes[CHANGES];

void flash_began(const char *folder);
void flash_seen(const char *folder, int image); // remembers what a killed cabinet left
const char *flash_changed(const char *folder, int image);

#endif
