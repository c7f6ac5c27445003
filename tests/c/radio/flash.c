// What a cabinet finds when it is started again: files that are torn, cut, zeroed, longer, older, or of another release, build or cabinet.
// A kill loses no write that was made. What a power cut would lose is here: an older payload under a newer state, and torn files.
#include <stdio.h>
#include <stdlib.h>
#include <string.h>

#include "radio.h"

typedef struct {
    int image;
    content state;
    content payload;
    content blocks;
} snapshot;

enum { MOST_SEEN = 48, MOST_OLDER = 6, STATE_SIZE = 72 };

// Of all cabinets, and of the one at work in each folder.
static snapshot seen[MOST_SEEN];
static size_t times_seen;

typedef struct {
    char folder[16];
    size_t count;
    snapshot older[MOST_OLDER];
} history;

static history histories[16];

// ---- The files of a folder

static const char *in(const char *folder, const char *name) {
    static char path[64];
    snprintf(path, sizeof path, "%s/%s", folder, name);
    return path;
}

static content has(const char *folder, const char *name) {
    return file_read(in(folder, name));
}

static void puts_back(const char *folder, const char *name, content *c) {
    put_back(in(folder, name), c);
    forget(c);
}

static uint64_t number(const uint8_t *bytes, size_t length) {
    uint64_t n = 0;
    for (size_t i = 0; i < length; i++) n = n << 8 | bytes[i];
    return n;
}

// ---- Snapshots

static snapshot taken(const char *folder, int image) {
    return (snapshot){image, has(folder, "state"), has(folder, "payload"), has(folder, "blocks")};
}

static void dropped(snapshot *s) {
    forget(&s->state);
    forget(&s->payload);
    forget(&s->blocks);
}

static history *of(const char *folder) {
    history *h = histories;
    while (h->folder[0] && strcmp(h->folder, folder) != 0) h++;
    snprintf(h->folder, sizeof h->folder, "%s", folder);
    return h;
}

void flash_began(const char *folder) {
    history *h = of(folder);
    while (h->count > 0) dropped(&h->older[--h->count]);
}

// Worth being put back: blocks, or a state with its payload. A complete state of another build is not: that build is whole, and which of
// two whole builds under one release number is the right one no edition says.
static bool worth(const snapshot *s) {
    return s->blocks.length > 0 || (s->state.length == STATE_SIZE && number(s->state.bytes, 4) < images[s->image].blocks);
}

void flash_seen(const char *folder, int image) {
    history *h = of(folder);
    snapshot now = taken(folder, image);
    if (!worth(&now)) {
        dropped(&now);
        return;
    }
    dropped(&seen[times_seen % MOST_SEEN]);
    seen[times_seen++ % MOST_SEEN] = now;
    if (h->count < MOST_OLDER) h->older[h->count++] = taken(folder, image);
}

// An older one of this transfer, where there is one.
static const snapshot *older(const char *folder) {
    const history *h = of(folder);
    return h->count > 1 ? &h->older[chance((uint32_t)h->count - 1)] : NULL;
}

// One of another image, for which `fits` holds.
static const snapshot *other(int image, bool (*fits)(const release *own, const release *other)) {
    size_t count = times_seen < MOST_SEEN ? times_seen : MOST_SEEN;
    size_t first = count ? chance((uint32_t)count) : 0;
    for (size_t i = 0; i < count; i++) {
        const snapshot *s = &seen[(first + i) % count];
        if (images[s->image].edition == images[image].edition && fits(&images[image], &images[s->image])) return s;
    }
    return NULL;
}

static bool of_release(const release *own, const release *o) {
    return own->keys == o->keys && own->release != o->release;
}

// In edition 1 builds of one release number and one count mix, so there the other build has another count.
static bool of_build(const release *own, const release *o) {
    return own != o && own->keys == o->keys && own->release == o->release && (own->edition == 1 || own->blocks == o->blocks);
}

static bool of_cabinet(const release *own, const release *o) {
    return own->keys != o->keys;
}

static bool all_put(const char *folder, const snapshot *s) {
    if (!s) return false;
    put_back(in(folder, "state"), &s->state);
    put_back(in(folder, "payload"), &s->payload);
    put_back(in(folder, "blocks"), &s->blocks);
    return true;
}

static bool other_release(const char *folder, int image) {
    return all_put(folder, other(image, of_release));
}

static bool other_build(const char *folder, int image) {
    return all_put(folder, other(image, of_build));
}

static bool other_cabinet(const char *folder, int image) {
    return all_put(folder, other(image, of_cabinet));
}

static bool all_older(const char *folder, int image) {
    (void)image;
    return all_put(folder, older(folder));
}

// ---- One file changed

// edited FOLDER NAME EDIT: false where there is no such file, it is empty, or the edit leaves it as it was.
static bool edited(const char *folder, const char *name, int image, void (*edit)(content *c, int image)) {
    content now = has(folder, name);
    content before = copied(&now);
    bool done = false;
    if (now.length > 0) {
        edit(&now, image);
        done = !equal(&now, &before);
    }
    if (done) put_back(in(folder, name), &now);
    forget(&before);
    forget(&now);
    return done;
}

static void cut(content *c, int image) {
    (void)image;
    c->length = chance((uint32_t)c->length);
}

static void zeroed(content *c, int image) {
    (void)image;
    memset(c->bytes, 0, c->length);
}

static void flipped(content *c, int image) {
    (void)image;
    c->bytes[chance((uint32_t)c->length)] ^= (uint8_t)(1 << chance(8));
}

// Some bytes from some place on are not what was written: zeros or noise.
static void torn(content *c, int image) {
    (void)image;
    size_t at = chance((uint32_t)c->length);
    size_t length = 1 + chance((uint32_t)(c->length - at));
    if (one_in(2)) memset(c->bytes + at, 0, length);
    else noise(c->bytes + at, length);
}

static void grown(content *c, size_t length, bool zeros) {
    if (c->length >= length) return;
    c->bytes = realloc(c->bytes, length);
    if (!c->bytes) stop("there is no memory for it", "a file");
    if (zeros) memset(c->bytes + c->length, 0, length - c->length);
    else noise(c->bytes + c->length, length - c->length);
    c->length = length;
}

// The whole size from the start, as the transfer has it that began all this.
static void whole_size(content *c, int image) {
    grown(c, images[image].size + (one_in(2) ? 0 : chance(2000)), one_in(2));
}

static void all_blocks(content *c, int image) {
    grown(c, (size_t)BLOCK * images[image].blocks, one_in(2));
}

// The bookmark says that every block was accepted.
static void forged(content *c, int image) {
    if (c->length == STATE_SIZE) memcpy(c->bytes, images[image].image.bytes + 4, 4);
}

// Two blocks change places.
static void shuffled(content *c, int image) {
    (void)image;
    uint8_t kept[BLOCK];
    uint32_t blocks = (uint32_t)(c->length / BLOCK);
    if (blocks < 2) return;
    uint8_t *a = c->bytes + BLOCK * (size_t)chance(blocks);
    uint8_t *b = c->bytes + BLOCK * (size_t)chance(blocks);
    memcpy(kept, a, BLOCK);
    memmove(a, b, BLOCK);
    memcpy(b, kept, BLOCK);
}

// A payload matters where a state speaks of it: otherwise the cabinet starts anew in any case.
static bool spoken_of(const char *folder) {
    content state = has(folder, "state");
    bool whole = state.length == STATE_SIZE;
    forget(&state);
    return whole;
}

static bool payload_edited(const char *folder, int image, void (*edit)(content *c, int image)) {
    return spoken_of(folder) && edited(folder, "payload", image, edit);
}

static bool state_cut(const char *folder, int image) { return edited(folder, "state", image, cut); }
static bool state_zeroed(const char *folder, int image) { return edited(folder, "state", image, zeroed); }
static bool state_flipped(const char *folder, int image) { return edited(folder, "state", image, flipped); }
static bool state_torn(const char *folder, int image) { return edited(folder, "state", image, torn); }
static bool state_forged(const char *folder, int image) { return edited(folder, "state", image, forged); }
static bool payload_cut(const char *folder, int image) { return payload_edited(folder, image, cut); }
static bool payload_zeroed(const char *folder, int image) { return payload_edited(folder, image, zeroed); }
static bool payload_torn(const char *folder, int image) { return payload_edited(folder, image, torn); }
static bool payload_whole_size(const char *folder, int image) { return payload_edited(folder, image, whole_size); }
static bool blocks_cut(const char *folder, int image) { return edited(folder, "blocks", image, cut); }
static bool blocks_zeroed(const char *folder, int image) { return edited(folder, "blocks", image, zeroed); }
static bool blocks_torn(const char *folder, int image) { return edited(folder, "blocks", image, torn); }
static bool blocks_all(const char *folder, int image) { return edited(folder, "blocks", image, all_blocks); }
static bool blocks_shuffled(const char *folder, int image) { return edited(folder, "blocks", image, shuffled); }

// ---- One file of another time, or none

static bool gone(const char *folder, const char *name) {
    content now = has(folder, name);
    bool there = now.there;
    forget(&now);
    if (there) file_remove(in(folder, name));
    return there;
}

static bool state_gone(const char *folder, int image) {
    (void)image;
    return gone(folder, "state");
}

static bool payload_gone(const char *folder, int image) {
    (void)image;
    return spoken_of(folder) && gone(folder, "payload");
}

static bool blocks_gone(const char *folder, int image) {
    (void)image;
    return gone(folder, "blocks");
}

static bool state_older(const char *folder, int image) {
    const snapshot *s = older(folder);
    (void)image;
    if (!s || !s->state.there) return false;
    put_back(in(folder, "state"), &s->state);
    return true;
}

static bool payload_older(const char *folder, int image) {
    const snapshot *s = older(folder);
    (void)image;
    if (!s || !s->payload.there || !spoken_of(folder)) return false;
    put_back(in(folder, "payload"), &s->payload);
    return true;
}

static bool payload_other(const char *folder, int image) {
    const snapshot *s = other(image, of_release);
    if (!s || !s->payload.there || !spoken_of(folder)) return false;
    put_back(in(folder, "payload"), &s->payload);
    return true;
}

// What a rename that never came leaves.
static bool left(const char *folder, const char *name, size_t length) {
    content c = {true, length, malloc(length + 1)};
    noise(c.bytes, length);
    puts_back(folder, name, &c);
    return true;
}

static bool new_left(const char *folder, int image) {
    (void)image;
    return left(folder, "state.new", chance(200));
}

static bool payload_left(const char *folder, int image) {
    return left(folder, "payload", images[image].size + chance(600));
}

// ---- The table

change changes[CHANGES] = {
    {"state torn", 2, state_torn, 0},
    {"state cut", 2, state_cut, 0},
    {"state zeroed", 2, state_zeroed, 0},
    {"state with a bit flipped", 2, state_flipped, 0},
    {"state forged to be complete", 2, state_forged, 0},
    {"state gone", 2, state_gone, 0},
    {"state older", 2, state_older, 0},
    {"new state left", 2, new_left, 0},
    {"payload torn", 2, payload_torn, 0},
    {"payload cut", 2, payload_cut, 0},
    {"payload zeroed", 2, payload_zeroed, 0},
    {"payload of the whole size", 2, payload_whole_size, 0},
    {"payload gone", 2, payload_gone, 0},
    {"payload older", 2, payload_older, 0},
    {"payload of another release", 2, payload_other, 0},
    {"state and payload older", 2, all_older, 0},
    {"state and payload of another release", 2, other_release, 0},
    {"state and payload of another build", 2, other_build, 0},
    {"state and payload of another cabinet", 2, other_cabinet, 0},
    {"blocks torn", 1, blocks_torn, 0},
    {"blocks cut", 1, blocks_cut, 0},
    {"blocks zeroed", 1, blocks_zeroed, 0},
    {"blocks of the whole size", 1, blocks_all, 0},
    {"blocks shuffled", 1, blocks_shuffled, 0},
    {"blocks gone", 1, blocks_gone, 0},
    {"blocks older", 1, all_older, 0},
    {"blocks of another release", 1, other_release, 0},
    {"blocks of another build", 1, other_build, 0},
    {"blocks of another cabinet", 1, other_cabinet, 0},
    {"payload left", 1, payload_left, 0},
};

// One change that can be made of what is there, by chance; those made least often come first, so that each is made.
const char *flash_changed(const char *folder, int image) {
    uint32_t first = chance(CHANGES);
    for (unsigned often = 0; often < 1000; often++)
        for (uint32_t i = 0; i < CHANGES; i++) {
            change *c = &changes[(first + i) % CHANGES];
            if (c->edition != images[image].edition || c->times != often || !c->put(folder, image)) continue;
            c->times++;
            return c->name;
        }
    return NULL;
}
