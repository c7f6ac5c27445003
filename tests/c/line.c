// Lines, words, hex digits and numbers.
#include "line.h"

#include <inttypes.h>
#include <stdio.h>
#include <stdlib.h>
#include <string.h>

static size_t longest;
static uint8_t *line_memory;

static uint8_t chunk[65536];
static size_t chunk_at, chunk_end;

void line_limit(size_t limit) {
    longest = limit;
    line_memory = malloc(limit + 1);
    if (!line_memory) exit(1);
}

static bool chunk_filled(void) {
    if (chunk_at == chunk_end) {
        chunk_at = 0;
        chunk_end = fread(chunk, 1, sizeof chunk, stdin);
    }
    return chunk_at < chunk_end;
}

// Of a line that is too long one byte too many is kept.
static size_t appended(size_t length, const uint8_t *part, size_t size) {
    size_t room = longest + 1 - length;
    if (size > room) size = room;
    memcpy(line_memory + length, part, size);
    return length + size;
}

bool line_next(word *line) {
    size_t length = 0;
    bool any = false, ended = false;
    while (!ended && chunk_filled()) {
        any = true;
        const uint8_t *from = chunk + chunk_at;
        const uint8_t *feed = memchr(from, '\n', chunk_end - chunk_at);
        size_t size = feed ? (size_t)(feed - from) : chunk_end - chunk_at;
        length = appended(length, from, size);
        ended = feed != NULL;
        chunk_at += size + ended;
    }
    *line = (word){line_memory, length};
    return any;
}

bool line_too_long(word line) {
    return line.length > longest;
}

size_t line_words(word line, word *words, size_t most) {
    size_t count = 0;
    const uint8_t *at = line.text, *end = line.text + line.length, *space = at;
    while (space && count <= most) {
        space = memchr(at, ' ', (size_t)(end - at));
        const uint8_t *to = space ? space : end;
        if (count < most) words[count] = (word){at, (size_t)(to - at)};
        count++;
        at = to + 1;
    }
    return count;
}

bool word_is(word w, const char *text) {
    return w.length == strlen(text) && memcmp(w.text, text, w.length) == 0;
}

// The value of each digit and 1, or 0.
static const uint8_t digits[256] = {
    ['0'] = 1, ['1'] = 2, ['2'] = 3, ['3'] = 4, ['4'] = 5, ['5'] = 6, ['6'] = 7, ['7'] = 8, ['8'] = 9, ['9'] = 10,
    ['a'] = 11, ['b'] = 12, ['c'] = 13, ['d'] = 14, ['e'] = 15, ['f'] = 16,
    ['A'] = 11, ['B'] = 12, ['C'] = 13, ['D'] = 14, ['E'] = 15, ['F'] = 16,
};

bool word_size(word w, size_t *size) {
    *size = w.length / 2;
    if (word_is(w, "-")) return true;
    bool right = w.length > 0 && w.length % 2 == 0;
    for (size_t i = 0; i < w.length; i++) right &= digits[w.text[i]] != 0;
    return right;
}

void word_bytes(word w, uint8_t *bytes) {
    for (size_t i = 0; i < w.length / 2; i++)
        bytes[i] = (uint8_t)((digits[w.text[2 * i]] - 1) << 4 | (digits[w.text[2 * i + 1]] - 1));
}

bool word_number(word w, uint64_t most, uint64_t *number) {
    uint64_t value = 0;
    bool right = w.length > 0;
    for (size_t i = 0; right && i < w.length; i++) {
        uint64_t digit = (uint64_t)w.text[i] - '0';
        right = digit <= 9 && value <= (UINT64_MAX - digit) / 10;
        value = value * 10 + digit;
    }
    *number = value;
    return right && value <= most;
}

static bool inside;

static void put_space(void) {
    if (inside) putchar(' ');
    inside = true;
}

void put_number(uint64_t number) {
    put_space();
    printf("%" PRIu64, number);
}

void put_text(const char *text) {
    put_space();
    fputs(text, stdout);
}

void put_bytes(const uint8_t *bytes, size_t length) {
    char hex[1024];
    put_space();
    if (length == 0) putchar('-');
    size_t filled = 0;
    for (size_t i = 0; i < length; i++) {
        hex[filled++] = "0123456789abcdef"[bytes[i] >> 4];
        hex[filled++] = "0123456789abcdef"[bytes[i] & 15];
        if (filled == sizeof hex || i + 1 == length) {
            fwrite(hex, 1, filled, stdout);
            filled = 0;
        }
    }
}

void put_end(void) {
    putchar('\n');
    inside = false;
}
