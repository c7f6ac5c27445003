// Lines of the console (docs/CONSOLE.md): read from standard input, split into words, and answered on standard output.
#ifndef LINE_H
#define LINE_H

#include <stdbool.h>
#include <stddef.h>
#include <stdint.h>

typedef struct {
    const uint8_t *text;
    size_t length;
} word;

// Lines may have that many bytes, without the line feed.
void line_limit(size_t longest);

// The next line, or false at the end of the input. A line that is too long is given as its first byte too many shows it.
bool line_next(word *line);
bool line_too_long(word line);

// Splits at single spaces. Returns how many words there are, or `most` + 1 if there are more.
size_t line_words(word line, word *words, size_t most);

bool word_is(word w, const char *text);

// How many bytes a word of hex digits means; false if it is not such a word. `-` means no bytes.
bool word_size(word w, size_t *size);
void word_bytes(word w, uint8_t *bytes);

// Only decimal digits, for a number up to `most`.
bool word_number(word w, uint64_t most, uint64_t *number);

// Parts of an answer. Each but the first has a space before it.
void put_number(uint64_t number);
void put_bytes(const uint8_t *bytes, size_t length);
void put_text(const char *text);
void put_end(void);

#endif
