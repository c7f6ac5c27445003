// Memory between canaries.
#include "lent.h"

#include <stdio.h>
#include <stdlib.h>
#include <string.h>

enum { PIECES = 8, CANARY = 64, SHIFTS = 16 };

typedef struct {
    lent lent;
    uint8_t *memory;  // room for a shift, a canary, the bytes, and a canary
    uint8_t *kept;    // what an input was
    size_t size;      // of each of the two
    int is_kept;
    unsigned pattern;
} piece;

static piece pieces[PIECES];
static size_t used;
static unsigned lendings;

void lent_stop(const char *what) {
    fprintf(stderr, "canaries: %s\n", what);
    exit(1);
}

// Neighbouring bytes of a canary differ, and the same byte differs from one lending to the next.
static uint8_t canary(const piece *p, size_t i) {
    return (uint8_t)(p->pattern * 59 + i * 7 + 1);
}

static void *made(size_t size) {
    void *memory = malloc(size);
    if (!memory) lent_stop("no memory is left");
    return memory;
}

static void grow(piece *p, size_t length) {
    size_t size = SHIFTS + CANARY + length + CANARY;
    if (size <= p->size) return;
    free(p->memory);
    free(p->kept);
    p->memory = made(size);
    p->kept = made(size);
    p->size = size;
}

lent *lent_room(size_t length, size_t alignment) {
    if (used == PIECES) lent_stop("more is lent than there are pieces");
    piece *p = &pieces[used++];
    grow(p, length);
    p->is_kept = 0;
    p->pattern = ++lendings;
    // 11 goes to all the shifts in turn, and malloc's memory begins at a multiple of 16.
    p->lent.bytes = p->memory + CANARY + lendings * 11 % SHIFTS / alignment * alignment;
    p->lent.length = length;
    for (size_t i = 0; i < CANARY; i++) {
        p->lent.bytes[(ptrdiff_t)i - CANARY] = canary(p, i);
        p->lent.bytes[length + i] = canary(p, CANARY + i);
    }
    return &p->lent;
}

void lent_keep(const lent *l) {
    piece *p = (piece *)l;  // it is the first part of one
    memcpy(p->kept, l->bytes, l->length);
    p->is_kept = 1;
}

static void look_at(const piece *p) {
    const lent *l = &p->lent;
    for (size_t i = 0; i < CANARY; i++) {
        if (l->bytes[(ptrdiff_t)i - CANARY] != canary(p, i)) lent_stop("a byte before lent memory has changed");
        if (l->bytes[l->length + i] != canary(p, CANARY + i)) lent_stop("a byte behind lent memory has changed");
    }
    if (p->is_kept && memcmp(p->kept, l->bytes, l->length) != 0) lent_stop("an input has changed");
}

void lent_settle(void) {
    for (size_t i = 0; i < used; i++) look_at(&pieces[i]);
    used = 0;
}
