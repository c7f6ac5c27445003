// growth BLOCKS REPEATS PROGRAM ARG..: makes an image of that many blocks, has the listing program read it, and prints the least
// processor time in seconds and the peak of its memory in KiB. The image is sealed by the byte-wise cipher, so nothing need be
// installed.
#include "image.h"

#include <fcntl.h>
#include <stdio.h>
#include <stdlib.h>
#include <string.h>
#include <sys/resource.h>
#include <sys/wait.h>
#include <unistd.h>

void must(int holds, const char *what)
{
    if (holds)
        return;
    fprintf(stderr, "growth: failed: %s\n", what);
    exit(1);
}

static FILE *temporary(void)
{
    FILE *f = tmpfile();
    must(f != NULL, "tmpfile");
    return f;
}

// Block by block: what this program holds in memory would count in the peak of the program that it starts.
static FILE *make_image(uint32_t count)
{
    uint8_t keys[32], payload[480], block[512];
    FILE *f = temporary();
    for (int i = 0; i < 32; i++)
        keys[i] = (uint8_t)i;
    fwrite(keys, 1, sizeof keys, f);
    bytewise_peer.set(CBC, ENCRYPT, keys, 16);
    bytewise_peer.set_check(keys + 16, 16);
    for (uint32_t j = 0; j < count; j++) {
        image_place place = {j, count, 7};
        memset(payload, (int)(j % 251), sizeof payload);
        image_seal(&bytewise_peer, place, payload, block);
        fwrite(block, 1, sizeof block, f);
    }
    must(fflush(f) == 0, "writing the image");
    return f;
}

static double seconds(struct timeval t)
{
    return (double)t.tv_sec + (double)t.tv_usec / 1e6;
}

static struct rusage run(FILE *image, FILE *listing, char **program)
{
    struct rusage used;
    int status;
    lseek(fileno(image), 0, SEEK_SET);
    must(ftruncate(fileno(listing), 0) == 0, "ftruncate");
    lseek(fileno(listing), 0, SEEK_SET);
    pid_t child = fork();
    must(child >= 0, "fork");
    if (child == 0) {
        dup2(fileno(image), 0);
        dup2(fileno(listing), 1);
        execvp(program[0], program);
        _exit(127);
    }
    must(wait4(child, &status, 0, &used) == child && status == 0, program[0]);
    return used;
}

// A listing that is cut, or of a refused image, measures nothing.
static void see_end(FILE *listing, uint32_t count)
{
    char wanted[32], found[32] = {0};
    int length = snprintf(wanted, sizeof wanted, "\nend 0 %u\n", count);
    must(fseek(listing, -length, SEEK_END) == 0 && fread(found, 1, (size_t)length, listing) == (size_t)length, "reading the listing");
    must(strcmp(wanted, found) == 0, "the listing's last line");
}

int main(int words, char **word)
{
    must(words >= 4, "usage: growth BLOCKS REPEATS PROGRAM ARG..");
    uint32_t count = (uint32_t)strtoul(word[1], NULL, 10);
    FILE *image = make_image(count), *listing = temporary();
    double best = 0;
    long peak = 0;
    for (long i = strtol(word[2], NULL, 10); i > 0; i--) {
        struct rusage used = run(image, listing, word + 3);
        double took = seconds(used.ru_utime) + seconds(used.ru_stime);
        see_end(listing, count);
        if (best == 0 || took < best)
            best = took;
        if (used.ru_maxrss > peak)
            peak = used.ru_maxrss;
    }
    printf("%u %.4f %ld\n", count, best, peak);
    return 0;
}
