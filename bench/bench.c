/* Times builds of the sandbox's C interface in one process, by turns, on the same calls: bench SECOND.so PROVED.so .. [--against OLD.so ..]. Of a
   proved build the first library is as the linker puts it, each other one at a position of its own. */
#define _POSIX_C_SOURCE 200809L
#include <dlfcn.h>
#include <stdio.h>
#include <stdlib.h>
#include <string.h>
#include <time.h>

#include "kernels.h"
#include "vex.h"

enum { PROVED, SECOND, OLD, BUILDS }; /* OLD, an earlier build of the proved library, only where it is given */
enum { PASSES = 8, ROUNDS = 5, MEMORY = 4096, POSITIONS_MAX = 16 }; /* passes, so that what disturbs the machine for seconds falls into few of them */
#define SAMPLE_SECONDS 0.02

/* What is answered for each text: 0, and 4,096 syllables. */
static const uint8_t assembled[VEX_ROOM_BYTES] = {0, 0, 0, 0, 0, 0, 4096 / 256, 0, 0, 0, 0, 0};

/* One library: its entries, and slices of its own, so that all can be compared after each sample. */
struct library {
    uint32_t (*assemble)(const uint8_t *, size_t, uint8_t *, size_t, uint8_t *, size_t); /* NULL in a build from before it */
    uint32_t (*load)(const uint8_t *, size_t, const uint8_t *, size_t, uint8_t *, size_t);
    uint32_t (*check)(const uint8_t *, size_t, const uint8_t *, size_t, uint8_t *, size_t);
    uint32_t (*run)(const uint8_t *, size_t, const uint8_t *, size_t, uint8_t *, size_t, uint8_t *, size_t, const uint8_t *, size_t, uint32_t,
                    uint8_t *, size_t);
    uint8_t program[VEX_PROGRAM_BYTES_MAX], state[VEX_STATE_BYTES], memory[MEMORY], room[VEX_ROOM_BYTES]; /* program: what is assembled */
    size_t state_len; /* the image that it takes: one from before the link register has none */
};

/* One build: as the linker puts it, then at other positions. */
struct build {
    struct library at[POSITIONS_MAX];
    int positions;
};

/* The least seconds of a call, of each build at each of its positions. */
struct times {
    double at[BUILDS][POSITIONS_MAX];
};

struct measure {
    const char *name;
    enum { LOAD, CHECK, RUN, ASSEMBLE } entry;
    const struct kernel *kernel; /* or the text, of assemble */
    const struct text *text;
    uint32_t n;      /* instructions a call */
    double unit;     /* how many units a call has: its time is told for one */
    const char *per; /* ns or us */
    int links;       /* it wants the link register */
};

static void fail(const char *what, const char *why) {
    fprintf(stderr, "bench: %s: %s\n", what, why);
    exit(1);
}

static int find(void *handle, const char *name, void *to) {
    void *found = dlsym(handle, name);
    memcpy(to, &found, sizeof found);
    return found != NULL;
}

static void entry(void *handle, const char *name, void *to) {
    if (!find(handle, name, to)) fail(name, dlerror());
}

/* Whether run takes an image of this length: with n = 0 it tests everything and changes nothing. */
static int takes(struct library *l, size_t state_len) {
    static const uint8_t table[] = {1, 1, 0, 0, 0, 0, 1, 1, 1, 1, 1}, stop[] = {0xC0, 0x04, 0, 0};
    return l->run(table, sizeof table, stop, sizeof stop, l->state, state_len, l->memory, 0, NULL, 0, 0, l->room, sizeof l->room) == VEX_PAUSED;
}

static void open_library(struct library *l, const char *path, int which) {
    void *handle = dlopen(path, RTLD_NOW | RTLD_LOCAL);
    if (handle == NULL) fail(path, dlerror());
    entry(handle, "vex_load", &l->load);
    entry(handle, "vex_check", &l->check);
    entry(handle, "vex_run", &l->run);
    if (!find(handle, "vex_assemble", &l->assemble) && which != OLD) fail(path, "it has no vex_assemble");
    l->state_len = takes(l, VEX_STATE_BYTES) ? VEX_STATE_BYTES : VEX_STATE_LINK;
    if (!takes(l, l->state_len)) fail(path, "it takes neither an image with the link register nor one without");
}

/* Whether it can do what is timed. */
static int knows(const struct library *l, const struct measure *m) {
    if (m->entry == ASSEMBLE) return l->assemble != NULL;
    return !m->links || l->state_len == VEX_STATE_BYTES;
}

static uint32_t call(struct library *l, const struct measure *m) {
    const struct kernel *k = m->kernel;
    if (m->entry == ASSEMBLE)
        return l->assemble((const uint8_t *)m->text->bytes, m->text->len, l->program, sizeof l->program, l->room, sizeof l->room);
    if (m->entry == LOAD) return l->load(k->table, k->table_len, k->program, k->program_len, l->room, sizeof l->room);
    if (m->entry == CHECK) return l->check(k->table, k->table_len, k->program, k->program_len, l->room, sizeof l->room);
    return l->run(k->table, k->table_len, k->program, k->program_len, l->state, l->state_len, l->memory, sizeof l->memory, NULL, 0, m->n,
                  l->room, sizeof l->room);
}

/* The CPU seconds that so many calls take, from zeros: what else the machine does meanwhile does not count. */
static double sample(struct library *l, const struct measure *m, unsigned long calls) {
    struct timespec from, to;
    memset(l->program, 0, sizeof l->program);
    memset(l->state, 0, sizeof l->state);
    memset(l->memory, 0, sizeof l->memory);
    clock_gettime(CLOCK_PROCESS_CPUTIME_ID, &from);
    for (unsigned long i = 0; i < calls; i++)
        if (call(l, m) != 0) fail(m->name, "the kernel is not taken");
    clock_gettime(CLOCK_PROCESS_CPUTIME_ID, &to);
    if (m->entry == ASSEMBLE && memcmp(l->room, assembled, sizeof assembled) != 0) fail(m->name, "the text is not of 4,096 syllables");
    return (double)(to.tv_sec - from.tv_sec) + 1e-9 * (double)(to.tv_nsec - from.tv_nsec);
}

/* The link register, where one library has none, is 0 with the other one too. */
static int same(const struct library *a, const struct library *b) {
    return memcmp(a->room, b->room, VEX_ROOM_BYTES) == 0 && memcmp(a->state, b->state, VEX_STATE_BYTES) == 0 &&
           memcmp(a->memory, b->memory, MEMORY) == 0 && memcmp(a->program, b->program, VEX_PROGRAM_BYTES_MAX) == 0;
}

/* One pass: samples by turns, of which the least count. */
static void measure(struct build *b, int builds, const struct measure *m, struct times *least) {
    unsigned long calls = 1;
    while (sample(&b[SECOND].at[0], m, calls) < SAMPLE_SECONDS) calls *= 2;
    for (int round = 0; round < ROUNDS; round++) {
        for (int turn = 0; turn < builds; turn++) {
            int which = (turn + round) % builds;
            for (int position = 0; position < b[which].positions; position++) {
                double seconds = sample(&b[which].at[position], m, calls) / (double)calls, *best = &least->at[which][position];
                if (*best == 0 || seconds < *best) *best = seconds;
            }
        }
        for (int i = 0; i < builds; i++)
            for (int position = 0; position < b[i].positions; position++)
                if (!same(&b[PROVED].at[0], &b[i].at[position])) fail(m->name, i == OLD ? "proved and old differ" : "proved and second differ");
    }
}

/* The time of a build: the mean of its positions; second's is as the linker puts it, the only one. */
static double mean(const struct times *t, const struct build *b, int which) {
    int positions = b[which].positions;
    double sum = 0;
    if (positions == 1) return t->at[which][0];
    for (int position = 1; position < positions; position++) sum += t->at[which][position];
    return sum / (positions - 1);
}

int main(int argc, char **argv) {
    static struct build builds[BUILDS];
    int count = SECOND + 1, which = PROVED;
    if (argc < 3) fail("usage", "bench SECOND.so PROVED.so .. [--against OLD.so ..]");
    open_library(&builds[SECOND].at[builds[SECOND].positions++], argv[1], SECOND);
    for (int i = 2; i < argc; i++) {
        if (strcmp(argv[i], "--against") == 0) {
            which = OLD;
            count = BUILDS;
            continue;
        }
        if (builds[which].positions == POSITIONS_MAX) fail(argv[i], "too many positions");
        open_library(&builds[which].at[builds[which].positions++], argv[i], which);
    }
    if (builds[PROVED].positions == 0 || (count > OLD && builds[OLD].positions == 0)) fail("usage", "a build without a library");

    const struct kernel *narrow = narrow_kernel(), *wide = wide_kernel(), *full = full_kernel(), *adds = adds_kernel(), *calls = calls_kernel();
    const struct text *labels = labels_text(), *comments = comments_text();
    const struct measure measures[] = {
        {"assemble, 4,096 operations", ASSEMBLE, NULL, labels, 0, 1e-6, "us", 0},
        {"assemble comments, 400 KB more", ASSEMBLE, NULL, comments, 0, 1e-6, "us", 0},
        {"load of 4,096 syllables", LOAD, full, NULL, 0, 1e-6, "us", 0},
        {"check of 4,096 syllables", CHECK, full, NULL, 0, 1e-6, "us", 0},
        {"run narrow, one instruction", RUN, narrow, NULL, 10000, 10000 * 1e-9, "ns", 0},
        {"run wide, one instruction", RUN, wide, NULL, 10000, 10000 * 1e-9, "ns", 0},
        {"run adds, one instruction", RUN, adds, NULL, 10000, 10000 * 1e-9, "ns", 0},
        {"run calls, one instruction", RUN, calls, NULL, 10000, 10000 * 1e-9, "ns", 1},
        {"slice of one instruction", RUN, full, NULL, 1, 1e-6, "us", 0},
    };
    enum { MEASURES = sizeof measures / sizeof measures[0] };
    static struct times times[MEASURES];
    int timed[MEASURES]; /* how many builds */
    for (int i = 0; i < MEASURES; i++) timed[i] = knows(&builds[OLD].at[0], &measures[i]) ? count : SECOND + 1;
    for (int pass = 0; pass < PASSES; pass++)
        for (int i = 0; i < MEASURES; i++) measure(builds, timed[i], &measures[i], &times[i]);

    const struct times *add = NULL, *bare = NULL; /* those of an add, and of the text without comments */
    printf("%-30s %12s %12s %8s", "", "proved", "second", "ratio");
    if (count > OLD) printf(" %12s %8s %8s", "old", "old/new", "linked");
    printf("\n");
    for (int i = 0; i < MEASURES; i++) {
        const struct measure *m = &measures[i];
        const struct times *t = &times[i];
        double proved = mean(t, builds, PROVED), second = mean(t, builds, SECOND);
        printf("%-30s %9.1f %s %9.1f %s %8.2f", m->name, proved / m->unit, m->per, second / m->unit, m->per, second / proved);
        if (timed[i] > OLD)
            printf(" %9.1f %s %8.2f %8.2f", mean(t, builds, OLD) / m->unit, m->per, mean(t, builds, OLD) / proved, t->at[OLD][0] / t->at[PROVED][0]);
        printf("\n");
        if (m->kernel == adds) add = t;
        if (m->kernel == calls)
            printf("%-30s %12.2f %12.2f\n", "  calls by adds", proved / mean(add, builds, PROVED), second / mean(add, builds, SECOND));
        if (m->text == labels) bare = t;
        if (m->text == comments) {
            double more_proved = proved - mean(bare, builds, PROVED), more_second = second - mean(bare, builds, SECOND);
            printf("%-30s %9.2f ms %9.2f ms %7.0f %% and %.0f %% of the time\n", "  comments add", 1e3 * more_proved, 1e3 * more_second,
                   100 * more_proved / proved, 100 * more_second / second);
        }
    }
    printf("A proved library's time is the mean of %d positions in memory.\n", builds[PROVED].positions - 1);
    printf("ratio: second's time by proved's; above 1 the proved library is the faster one. Only ratios of one run compare.\n");
    printf("comments add: what 400 KB of comment lines add to a call of assemble, and what share of its time that is, of each library.\n");
    printf("calls by adds: the time of a call or a return by that of an add, of each library.\n");
    if (count > OLD) {
        printf("old/new: the earlier build's time by proved's; above 1 the proved library has become faster.\n");
        printf("linked: the same where the linker puts them, by which chance has its part.\n");
    }
    return 0;
}
