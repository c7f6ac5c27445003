// The poor radio: cabinets fetch releases from depots through a relay that loses, doubles, reorders, delays, cuts and damages datagrams.
// They are killed at random moments and started again, and find other files than they left. Every transfer must end with the release in
// place, and what is installed must be the old release or the new one at every look.
//
//     radio test SEED TRANSFERS FOLDER SEAL DEPOT CABINET RUNNER..     the test; test1 and test2 take one edition alone
//     radio story SEED 1 FOLDER SEAL DEPOT CABINET RUNNER..            one transfer, told as it goes
// FOLDER is empty. SEAL, DEPOT and CABINET are examples/c/seal_and_read.c, depot.c and cabinet, by whole names; RUNNER.. are the words
// before a program for x86-64, none on such a processor. The choices follow from the seed; which event gets which is up to the machine.
// Status: 0 all went well, 1 a cabinet did wrong, 2 wrong words, 3 the test itself failed.
//
// radio.c has the transfers, relay.c the radio, flash.c what a cabinet finds, images.c releases and programs.
#define _POSIX_C_SOURCE 200809L
#include <errno.h>
#include <poll.h>
#include <signal.h>
#include <stdarg.h>
#include <stdio.h>
#include <stdlib.h>
#include <string.h>
#include <sys/stat.h>
#include <sys/wait.h>
#include <unistd.h>

#include "radio.h"

enum { LANES = 6, MOST_SECONDS = 60, MOST_REFUSALS = 64, STORY = 11 };

// One folder with its cabinet: one transfer after the other.
typedef struct {
    char folder[16];
    char socket[24];
    char air[24];
    char log[24];
    relay relay;
    int image;
    int process; // 0 where no cabinet is at work
    unsigned number;
    unsigned kills;      // still to come
    unsigned kill_after; // datagrams
    uint64_t kill_at;
    uint64_t began;
    uint64_t life_began;
    content old;
    struct stat last; // as the installed file was when it was last read
    bool looked;
    bool placed; // the new release was installed then
    long told; // so much of the log
} lane;

static lane lanes[LANES];
static programs program;
static bool story;
static int first_image;
static int image_count = IMAGES;
static unsigned wanted, begun, ended, killed, killed_late, changed, looks;
static unsigned by_edition[3];
static uint64_t first; // when all began
static volatile sig_atomic_t signalled;

// The cabinets and depots end with the test.
static void on_signal(int number) {
    signalled = number;
}

static void told(const char *form, ...) {
    va_list words;
    if (!story) return;
    va_start(words, form);
    vprintf(form, words);
    va_end(words);
    if (fflush(stdout) != 0) stop("it cannot be written", "standard output");
}

// ---- What is seen

static void all_ended(void) {
    for (int i = 0; i < LANES; i++) {
        if (lanes[i].process == 0) continue;
        kill(lanes[i].process, SIGKILL);
        waitpid(lanes[i].process, NULL, 0);
        lanes[i].process = 0;
    }
    depots_ended();
}

static void wrong(const lane *l, const char *what) {
    printf("radio: transfer %u, %s, edition %u: %s (%s)\n", l->number, images[l->image].name, images[l->image].edition, what, l->log);
    exit(1);
}

static bool unchanged(const struct stat *a, const struct stat *b) {
    return a->st_ino == b->st_ino && a->st_size == b->st_size && a->st_mtim.tv_sec == b->st_mtim.tv_sec &&
           a->st_mtim.tv_nsec == b->st_mtim.tv_nsec;
}

// The installed file is the old release or the new one. It is read where it is another file or was written since the last look; and
// every few looks in any case, since the clock of files is coarse.
static void look(lane *l) {
    char path[32];
    struct stat now = {0};
    snprintf(path, sizeof path, "%s/release", l->folder);
    if (stat(path, &now) != 0 && errno != ENOENT) stop("it cannot be looked at", path);
    looks++;
    if (l->looked && looks % 16 != 0 && unchanged(&now, &l->last)) return;
    content installed = file_read(path);
    l->placed = equal(&installed, &images[l->image].payload);
    if (!l->placed && !equal(&installed, &l->old)) wrong(l, "what is installed is neither release");
    forget(&installed);
    l->last = now;
    l->looked = true;
}

// What the cabinet said but for its refusals, which are counted at the end.
static void log_told(lane *l) {
    char line[256];
    FILE *file = story ? fopen(l->log, "r") : NULL;
    if (!file) return;
    fseek(file, l->told, SEEK_SET);
    while (fgets(line, sizeof line, file))
        if (!strstr(line, "a datagram: refused with")) told("    %s", line);
    l->told = ftell(file);
    fclose(file);
}

// ---- A cabinet's lives

static void life_begins(lane *l, uint64_t now) {
    const release *i = &images[l->image];
    l->relay.delivered = 0;
    l->kill_after = story ? i->blocks * 2 / 3 + chance(8) : chance(i->blocks * (1 + chance(2)) + 6);
    l->kill_at = UINT64_MAX;
    l->life_began = now;
    l->process = cabinet_started(&program, i, l->folder, l->socket, l->air, l->log);
}

// Another release that only its number tells from this one.
static bool near(const release *own, const release *other) {
    return other->release != own->release && other->blocks == own->blocks && other->edition == own->edition && other->keys == own->keys;
}

static bool strange(const release *own, const release *other) {
    return !alike(own, other);
}

static const content *one_of(const release *own, bool (*fits)(const release *own, const release *other)) {
    uint32_t first = chance(IMAGES);
    for (uint32_t i = 0; i < IMAGES; i++) {
        const release *other = &images[(first + i) % IMAGES];
        if (other->image.there && fits(own, other)) return &other->image;
    }
    return NULL;
}

// An image whose blocks come between.
static const content *strangers(const release *own) {
    const content *found = one_in(2) ? one_of(own, near) : NULL;
    return found ? found : one_of(own, strange);
}

static void transfer_begins(lane *l, uint64_t now) {
    char wire[32];
    l->number = begun++;
    l->image = first_image + (int)(l->number % (unsigned)image_count);
    l->kills = story ? 2 : chance(7);
    l->began = now;
    l->looked = false;
    const release *i = &images[l->image];
    snprintf(wire, sizeof wire, "%s.wire%u", l->folder, l->number);
    relay_to(&l->relay, wire, i->depot, strangers(i));
    flash_began(l->folder);
    told("release %u, %u blocks of edition %u, is to replace an older one, over a poor radio\n", i->release, i->blocks, i->edition);
    life_begins(l, now);
}

static void transfer_ends(lane *l, int status) {
    char path[32];
    l->process = 0;
    log_told(l);
    if (!WIFEXITED(status) || WEXITSTATUS(status) != 0) wrong(l, "the cabinet ended by itself, and not with 0");
    snprintf(path, sizeof path, "%s/release", l->folder);
    content installed = file_read(path);
    if (!equal(&installed, &images[l->image].payload)) wrong(l, "what is installed at the end is not the release");
    forget(&l->old);
    l->old = installed;
    ended++;
    by_edition[images[l->image].edition]++;
}

static void killing(lane *l, uint64_t now) {
    kill(l->process, SIGKILL);
    waitpid(l->process, NULL, 0);
    l->process = 0;
    l->kills--;
    killed++;
    log_told(l);
    told("the cabinet is killed after %u datagrams\n", l->relay.delivered);
    look(l);
    if (l->placed) killed_late++;
    flash_seen(l->folder, l->image);
    bool change = story ? l->kills == 0 : !one_in(4);
    const char *what = change ? flash_changed(l->folder, l->image) : NULL;
    if (what) changed++;
    // That it is of another build shows after many blocks only.
    if (what && strstr(what, "payload of another build")) l->kills = 0;
    told("it is started again%s%s\n", what ? ", and finds this: " : "", what ? what : "");
    life_begins(l, now);
}

// A moment after so many datagrams, or half a second later where they do not come.
static bool to_be_killed(lane *l, uint64_t now) {
    if (l->kills == 0) return false;
    if (l->kill_at == UINT64_MAX && l->relay.delivered >= l->kill_after) l->kill_at = now + chance(one_in(2) ? 600 : 12000);
    return now >= l->kill_at || (!story && now > l->life_began + 1500000);
}

static void lane_goes_on(lane *l, uint64_t now) {
    int status;
    if (l->process == 0 && begun < wanted) transfer_begins(l, now);
    if (l->process == 0) return;
    relay_takes(&l->relay, now);
    relay_delivers(&l->relay, now);
    look(l);
    if (waitpid(l->process, &status, WNOHANG) == l->process) transfer_ends(l, status);
    else if (to_be_killed(l, now)) killing(l, now);
    else if (now > l->began + MOST_SECONDS * 1000000ull) wrong(l, "the transfer does not end");
}

// ---- All of them

static void lane_made(int n) {
    lane *l = &lanes[n];
    char path[32];
    uint8_t before[700];
    snprintf(l->folder, sizeof l->folder, "cabinet%d", n);
    snprintf(l->socket, sizeof l->socket, "cabinet%d.socket", n);
    snprintf(l->air, sizeof l->air, "cabinet%d.air", n);
    snprintf(l->log, sizeof l->log, "cabinet%d.log", n);
    if (mkdir(l->folder, 0700) != 0) stop("it cannot be made", l->folder);
    relay_opened(&l->relay, l->socket, l->air);
    if (n == 1) return; // a cabinet with nothing installed yet
    noise(before, sizeof before);
    snprintf(path, sizeof path, "%s/release", l->folder);
    file_write(path, before, sizeof before);
    l->old = file_read(path);
}

// Until a datagram comes or one is due; a millisecond at most, since cabinets are looked at meanwhile.
static void waited(void) {
    struct pollfd all[2 * LANES];
    nfds_t count = 0;
    uint64_t now = microseconds(), next = now + 1000;
    for (int i = 0; i < LANES; i++) {
        if (lanes[i].process == 0) continue;
        uint64_t due = relay_next(&lanes[i].relay);
        if (due < next) next = due;
        all[count++] = (struct pollfd){.fd = lanes[i].relay.air, .events = POLLIN};
        all[count++] = (struct pollfd){.fd = lanes[i].relay.wire, .events = POLLIN};
    }
    poll(all, count, next > now ? 1 : 0);
}

static void all_go_on(void) {
    int most = story ? 1 : LANES;
    for (int i = 0; i < most; i++) lane_made(i);
    while (ended < wanted) {
        if (signalled) exit(3);
        for (int i = 0; i < most; i++) lane_goes_on(&lanes[i], microseconds());
        waited();
    }
}

// ---- What was met

static void log_counted(const char *path, unsigned *refusals, unsigned *anew) {
    char line[256];
    FILE *file = fopen(path, "r");
    if (!file) return;
    while (fgets(line, sizeof line, file)) {
        const char *at = strstr(line, "refused with ");
        unsigned number = at ? (unsigned)atoi(at + 13) : 0;
        if (at && number < MOST_REFUSALS) refusals[number]++;
        if (strstr(line, "is not the one that it speaks of")) anew[0]++;
        if (strstr(line, "never fits")) anew[1]++;
    }
    fclose(file);
}

static void fates_said(void) {
    printf("radio: datagrams:");
    for (int i = 0; i < FATES; i++) printf(" %u %s%s", fates[i], fate_names[i], i + 1 < FATES ? "," : "\n");
}

static void changes_said(void) {
    printf("radio: found by cabinets:");
    for (int i = 0; i < CHANGES; i++) printf(" %s %u%s", changes[i].name, changes[i].times, i + 1 < CHANGES ? "," : "\n");
}

static void refusals_said(const unsigned *refusals) {
    const char *between = "";
    for (int i = 0; i < MOST_REFUSALS; i++) {
        if (refusals[i] == 0) continue;
        printf("%s with %d: %u", between, i, refusals[i]);
        between = ",";
    }
    printf("\n");
}

static void counts_said(const unsigned *refusals, const unsigned *anew) {
    fates_said();
    changes_said();
    printf("radio: %u states did not fit their payload, %u were of another build; %u kills came when the new release was just in place\n",
           anew[0], anew[1], killed_late);
    printf("radio: %u transfers (%u of edition 1, %u of edition 2), %u kills, %u changed states, %u looks in %u s; refused", ended,
           by_edition[1], by_edition[2], killed, changed, looks, (unsigned)((microseconds() - first) / 1000000));
    refusals_said(refusals);
}

// A test that tries too little shows nothing: every change was made, and each refusal that a cabinet can meet here was met.
static bool enough(const unsigned *refusals, const unsigned *anew) {
    static const int expected[] = {6, 9, 10, 14, 21, 25};
    bool all = killed >= wanted && anew[0] > 0 && anew[1] > 0;
    if (!all) printf("radio: there were too few kills, or states that start anew\n");
    for (size_t i = 0; i < sizeof expected / sizeof expected[0]; i++) {
        if (refusals[expected[i]] > 0) continue;
        printf("radio: refusal %d was never met\n", expected[i]);
        all = false;
    }
    for (int i = 0; i < CHANGES; i++) {
        if (changes[i].times > 0) continue;
        printf("radio: no cabinet found this: %s\n", changes[i].name);
        all = false;
    }
    return all;
}

static int said(void) {
    unsigned refusals[MOST_REFUSALS] = {0}, anew[2] = {0};
    for (int i = 0; i < LANES; i++) log_counted(lanes[i].log, refusals, anew);
    if (!story) {
        counts_said(refusals, anew);
        return enough(refusals, anew) ? 0 : 1;
    }
    fates_said();
    printf("radio: refused");
    refusals_said(refusals);
    printf("radio: in place, equal to what was sent byte by byte; at each of %u looks the old or the new release was installed\n", looks);
    return 0;
}

static void made(void) {
    for (int i = first_image; i < first_image + image_count; i++) {
        image_made(&program, i);
        depot_started(&program, i);
    }
    if (story) image_made(&program, STORY - 1); // whose blocks come between
}

// The images of edition 2 are behind those of edition 1.
static bool run_chosen(const char *word) {
    story = strcmp(word, "story") == 0;
    if (story) first_image = STORY, image_count = 1;
    else if (strcmp(word, "test1") == 0) image_count = IMAGES / 2;
    else if (strcmp(word, "test2") == 0) first_image = image_count = IMAGES / 2;
    else return strcmp(word, "test") == 0;
    return true;
}

// A signal may come more than once. What it interrupts goes on.
static void signals_heard(void) {
    struct sigaction ending = {.sa_handler = on_signal, .sa_flags = SA_RESTART};
    signal(SIGPIPE, SIG_IGN);
    sigaction(SIGHUP, &ending, NULL);
    sigaction(SIGINT, &ending, NULL);
    sigaction(SIGTERM, &ending, NULL);
}

int main(int count, char **text) {
    if (count < 8 || !run_chosen(text[1])) {
        fputs("usage: radio test|test1|test2|story SEED TRANSFERS FOLDER SEAL DEPOT CABINET RUNNER..\n", stderr);
        return 2;
    }
    chance_begins(strtoull(text[2], NULL, 10));
    wanted = (unsigned)atoi(text[3]);
    program = (programs){text + 8, text[5], text[6], text[7]};
    if (chdir(text[4]) != 0) stop("it cannot be entered", text[4]);
    atexit(all_ended);
    signals_heard();
    first = microseconds();
    made();
    all_go_on();
    int status = said();
    if (fflush(stdout) != 0) stop("it cannot be written", "standard output");
    return status;
}
