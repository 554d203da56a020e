/* The command line and the files it names. */
#include <errno.h>
#include <stdio.h>
#include <stdlib.h>
#include <string.h>

#include "host.h"

/* More than any slice may have, so that a length that is too large reaches the sandbox and gets its refusal. */
#define LENGTH_MAX ((size_t)1 << 24)
#define SEEDED_BYTES ((size_t)1 << 20)

static const char usage[] =
    "usage: host [OPTION ..] EFFECT     or: host --self-test\n"
    "EFFECT is a text in the notation (docs/NOTATION.md) if it is named *.s, and is assembled; any other file holds\n"
    "syllables, 4 bytes each, highest byte first. It is loaded, checked, and run from zeros.\n"
    "  --table FILE           the delay table's bytes; without it, two clusters of four\n"
    "  --memory BYTES         length of the memory (8192)\n"
    "  --slices K             how many slices are run (8)\n"
    "  --instructions N       instructions a slice; without it a slice is a frame: until the place is the first one's again,\n"
    "                         or 100000 instructions\n"
    "  --landing LIST         landing bytes for each slice: hex:0A1B.., seed:NUMBER for made ones that\n"
    "                         differ from slice to slice, or a file's name; without it, the empty list\n"
    "  --frame WIDTHxHEIGHT@ADDRESS\n"
    "                         where the frame lies in the memory, a byte a pixel (64x64@0)\n"
    "  --out PREFIX           writes the frame to PREFIX-001.pgm, PREFIX-001.png and so on, one after each slice\n"
    "  --trace                prints each instruction: its place and operations, what lands, what goes in flight, what is stored,\n"
    "                         and the link register where a call sets it\n"
    "  --registers            prints after each slice the registers that are not all zero, the link register last\n"
    "  --step                 runs from standard input: an empty line is one instruction\n"
    "  --help                 prints this\n"
    "Exit status: 0 the slices were run, or the effect stopped; 1 a refusal, a fault or a failed self-test;\n"
    "2 bad usage; 3 a file or memory could not be had.\n";

void fail(int status, const char *name, const char *why) {
    fflush(stdout);
    fprintf(stderr, "host: %s: %s%s\n", name, why, status == BAD_USE ? "; host --help has the options" : "");
    exit(status);
}

struct bytes zeros(size_t length) {
    struct bytes made = {calloc(length + 1, 1), length};
    if (made.at == NULL) fail(NO_FILE, "memory", "cannot be had");
    return made;
}

struct bytes read_file(const char *name) {
    struct bytes read = zeros(LENGTH_MAX);
    FILE *file = fopen(name, "rb");
    if (file == NULL) fail(NO_FILE, name, strerror(errno));
    read.length = fread(read.at, 1, LENGTH_MAX, file);
    if (ferror(file)) fail(NO_FILE, name, "cannot be read");
    if (fgetc(file) != EOF) fail(NO_FILE, name, "is too long");
    fclose(file);
    return read;
}

/* A decimal number up to a limit, with the given character after it; what follows that is left. */
static unsigned long number(const char **text, char end, unsigned long limit, const char *option) {
    char *after;
    if (**text < '0' || **text > '9') fail(BAD_USE, option, "a number is missing");
    errno = 0;
    unsigned long value = strtoul(*text, &after, 10);
    if (errno != 0 || value > limit) fail(BAD_USE, option, "the number is too large");
    if (*after != end) fail(BAD_USE, option, "the value is malformed");
    *text = after + 1;
    return value;
}

static void read_option(struct options *o, const char *option, const char *value) {
    if (strcmp(option, "--table") == 0) {
        o->table = value;
    } else if (strcmp(option, "--landing") == 0) {
        o->landing = value;
    } else if (strcmp(option, "--out") == 0) {
        o->out = value;
    } else if (strcmp(option, "--memory") == 0) {
        o->memory = number(&value, '\0', LENGTH_MAX, option);
    } else if (strcmp(option, "--slices") == 0) {
        o->slices = number(&value, '\0', 999, option);
    } else if (strcmp(option, "--instructions") == 0) {
        o->instructions = number(&value, '\0', UINT32_MAX, option);
        if (o->instructions == 0) fail(BAD_USE, option, "a slice has at least one");
    } else if (strcmp(option, "--frame") == 0) {
        o->width = number(&value, 'x', 4096, option);
        o->height = number(&value, '@', 4096, option);
        o->address = number(&value, '\0', LENGTH_MAX, option);
    } else {
        fail(BAD_USE, option, "is no option");
    }
}

/* The options that have no value. */
static int read_flag(struct options *o, const char *option) {
    int *const flags[] = {&o->trace, &o->registers, &o->step, &o->self_test};
    static const char *const names[] = {"--trace", "--registers", "--step", "--self-test"};
    for (int i = 0; i < 4; i++)
        if (strcmp(option, names[i]) == 0) return *flags[i] = 1;
    return 0;
}

struct options read_options(int argc, char **argv) {
    struct options o = {.memory = 8192, .slices = 8, .width = 64, .height = 64};
    for (int i = 1; i < argc; i++) {
        if (strcmp(argv[i], "--help") == 0) {
            fputs(usage, stdout);
            exit(DONE);
        } else if (read_flag(&o, argv[i])) {
            continue;
        } else if (strncmp(argv[i], "--", 2) == 0) {
            if (i + 1 == argc) fail(BAD_USE, argv[i], "is no option, or its value is missing");
            read_option(&o, argv[i], argv[i + 1]);
            i++;
        } else if (o.effect == NULL) {
            o.effect = argv[i];
        } else {
            fail(BAD_USE, argv[i], "is a second effect");
        }
    }
    if (o.self_test) return o;
    if (o.effect == NULL) fail(BAD_USE, "EFFECT", "is missing");
    if (o.width * o.height == 0) fail(BAD_USE, "--frame", "there is no pixel");
    if (o.address + o.width * o.height > o.memory) fail(BAD_USE, "--frame", "goes beyond the memory");
    return o;
}

static unsigned digit(char c) {
    if (c >= '0' && c <= '9') return (unsigned)(c - '0');
    if (c >= 'A' && c <= 'F') return (unsigned)(c - 'A') + 10;
    if (c >= 'a' && c <= 'f') return (unsigned)(c - 'a') + 10;
    fail(BAD_USE, "--landing", "hex: wants two digits a byte");
    return 0;
}

struct landing read_landing(const char *text) {
    struct landing landing = {.seeded = 0};
    if (text == NULL) {
        landing.list = zeros(0);
    } else if (strncmp(text, "seed:", 5) == 0) {
        text += 5;
        landing.seed = number(&text, '\0', UINT32_MAX, "--landing");
        landing.seeded = 1;
        landing.list = zeros(SEEDED_BYTES);
    } else if (strncmp(text, "hex:", 4) == 0) {
        text += 4;
        landing.list = zeros((strlen(text) + 1) / 2);
        for (size_t i = 0; i < landing.list.length; i++)
            landing.list.at[i] = (uint8_t)(digit(text[2 * i]) << 4 | digit(text[2 * i + 1]));
    } else {
        landing.list = read_file(text);
    }
    return landing;
}

void next_landing(struct landing *landing) {
    if (!landing->seeded) return;
    for (size_t i = 0; i < landing->list.length; i++) {
        landing->seed = landing->seed * 6364136223846793005u + 1442695040888963407u;
        landing->list.at[i] = (uint8_t)(landing->seed >> 56);
    }
}
