// Memory that is lent to a call: between canaries, at an address that changes, and checked afterwards.
#ifndef LENT_H
#define LENT_H

#include <stddef.h>
#include <stdint.h>

typedef struct {
    uint8_t *bytes;
    size_t length;
} lent;

// Stops the program: what the message says must not happen.
_Noreturn void lent_stop(const char *what);

// Room for that many bytes, at a multiple of `alignment`, a power of two up to 16.
lent *lent_room(size_t length, size_t alignment);

// From here on the bytes may not change: they are an input.
void lent_keep(const lent *piece);

// Checks everything that was lent since the last time, and takes it back. Stops if a canary or an input has changed.
void lent_settle(void);

#endif
