// The cells of the speed table: what is timed, for ours and for each peer. What a call finds prepared, prepare has made.
#ifndef CELLS_H
#define CELLS_H
#include "peers.h"

enum { LONG = 1 << 20, TURN = 128, BLOCK = 512, PAYLOAD = 480, MESSAGE = 496, DATA = 20 };

typedef struct {
    const char *name;
    const char *unit;  // how ours is shown: ns a call, or MB/s
    size_t result;     // bytes that a call puts out
} cell;

// Two cells of one block, two of each mode but OFB, which has one and stands last, the check, the writer, the reader, and a message each way.
enum { ONE_BLOCK = 0, WHOLE = ONE_BLOCK + WAYS, CHECK = WHOLE + OFB * WAYS + 1, WRITE, READ, READ_TURN, SEAL, OPEN, CELLS };
extern const cell cells[CELLS];

// Where every call puts its result.
extern uint8_t output[LONG];

// Fills the inputs. The peer given seals the blocks that the readers are offered.
void make_inputs(const peer *sealer, size_t key_length);

// Ours where no peer is given.
void prepare(const peer *p, int at, size_t key_length);
void call(const peer *p, int at, size_t key_length);
#endif
