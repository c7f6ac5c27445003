// The releases that are sent: eight of each edition, so that there is another release, another build and another cabinet's beside each.
// And the programs of both sides, each a process of its own.
#define _POSIX_C_SOURCE 200809L
#include <fcntl.h>
#include <signal.h>
#include <stdio.h>
#include <stdlib.h>
#include <string.h>
#include <sys/wait.h>
#include <unistd.h>

#include "radio.h"

enum { MOST_WORDS = 32 };

// Builds of one release number and one count mix in edition 1, so there the second build has another count.
release images[IMAGES] = {
    {.name = "release 7", .size = 9000, .release = 7, .edition = 1},
    {.name = "release 7, another build", .size = 5500, .release = 7, .edition = 1},
    {.name = "release 8", .size = 8700, .release = 8, .edition = 1},
    {.name = "release 8, longer", .size = 19200, .release = 8, .edition = 1},
    {.name = "release 7 of another cabinet", .size = 9000, .release = 7, .keys = 1, .edition = 1},
    {.name = "an empty release", .size = 0, .release = 9, .edition = 1},
    {.name = "one full block", .size = 480, .release = 10, .edition = 1},
    {.name = "one byte more than a block", .size = 481, .release = 0, .edition = 1},
    {.name = "release 7", .size = 19000, .release = 7, .edition = 2},
    {.name = "release 7, another build", .size = 19000, .release = 7, .edition = 2},
    {.name = "release 8", .size = 18900, .release = 8, .edition = 2},
    {.name = "release 8, longer", .size = 28800, .release = 8, .edition = 2},
    {.name = "release 7 of another cabinet", .size = 19000, .release = 7, .keys = 1, .edition = 2},
    {.name = "an empty release", .size = 0, .release = 9, .edition = 2},
    {.name = "one full block", .size = 480, .release = 10, .edition = 2},
    {.name = "the largest number", .size = 12000, .release = UINT32_MAX, .edition = 2},
};

bool alike(const release *a, const release *b) {
    return a->release == b->release && a->blocks == b->blocks && a->edition == b->edition && a->keys == b->keys;
}

// ---- Processes

static void becomes(char **runner, const char *const *words, const char *log) {
    char *all[MOST_WORDS];
    size_t count = 0;
    int file = open(log, O_WRONLY | O_CREAT | O_APPEND, 0600);
    if (file < 0 || dup2(file, 1) < 0 || dup2(file, 2) < 0) _exit(126);
    for (; *runner && count < MOST_WORDS / 2; runner++) all[count++] = *runner;
    for (; *words && count < MOST_WORDS - 1; words++) all[count++] = (char *)*words;
    all[count] = NULL;
    execv(all[0], all);
    _exit(127);
}

static int process(char **runner, const char *const *words, const char *log) {
    int child = fork();
    if (child < 0) stop("it cannot be started", words[0]);
    if (child == 0) becomes(runner, words, log);
    return child;
}

static void keys_made(const char *path, unsigned which) {
    uint8_t keys[32];
    noise(keys, sizeof keys);
    keys[0] = (uint8_t)which;
    file_write(path, keys, sizeof keys);
}

static void key_name(char name[8], const release *i) {
    snprintf(name, 8, "keys%u", i->keys);
    if (access(name, F_OK) != 0) keys_made(name, i->keys);
}

int cabinet_started(const programs *p, const release *i, const char *folder, const char *socket, const char *depot, const char *log) {
    char keys[8], number[12], edition[12], blocks[12];
    key_name(keys, i);
    snprintf(number, sizeof number, "%u", i->release);
    snprintf(edition, sizeof edition, "%u", i->edition);
    snprintf(blocks, sizeof blocks, "%u", i->blocks);
    const char *words[] = {p->cabinet, keys, folder, number, edition, blocks, socket, depot, "30", NULL};
    return process(p->runner, words, log);
}

// ---- Images and depots

static void sealed(const programs *p, const release *i) {
    char keys[8], number[12], edition[12];
    int status;
    key_name(keys, i);
    snprintf(number, sizeof number, "%u", i->release);
    snprintf(edition, sizeof edition, "%u", i->edition);
    const char *words[] = {p->seal, "seal", keys, number, edition, "file", "image", NULL};
    waitpid(process(p->runner, words, "seal.log"), &status, 0);
    if (status != 0) stop("it was not sealed: see seal.log", i->name);
}

void image_made(const programs *p, int number) {
    release *i = &images[number];
    i->blocks = i->size ? (i->size + 479) / 480 : 1;
    uint8_t *bytes = malloc(i->size + 1);
    noise(bytes, i->size);
    file_write("file", bytes, i->size);
    free(bytes);
    sealed(p, i);
    i->payload = file_read("file");
    i->image = file_read("image");
    if (i->image.length != (size_t)BLOCK * i->blocks) stop("its image has another length", i->name);
}

void depot_started(const programs *p, int number) {
    release *i = &images[number];
    char image[16];
    snprintf(image, sizeof image, "image%d", number);
    snprintf(i->depot, sizeof i->depot, "depot%d", number);
    put_back(image, &i->image);
    const char *words[] = {p->depot, image, i->depot, NULL};
    i->process = process(p->runner, words, "depot.log");
}

void depots_ended(void) {
    for (int i = 0; i < IMAGES; i++) {
        if (images[i].process == 0) continue;
        kill(images[i].process, SIGKILL);
        waitpid(images[i].process, NULL, 0);
        images[i].process = 0;
    }
}
