/* What the parts of the example host share. */
#ifndef HOST_H
#define HOST_H

#include <stddef.h>
#include <stdint.h>

#include "vex_text_words.h"

enum { DONE = 0, REFUSED = 1, BAD_USE = 2, NO_FILE = 3 };

struct bytes {
    uint8_t *at;
    size_t length;
};

struct options {
    const char *effect, *table, *landing, *out;
    unsigned long memory, slices, instructions; /* instructions: 0 for a frame's */
    unsigned long width, height, address;
    int trace, registers, step, self_test;
};

/* A landing list; a seeded one is made anew for each slice. */
struct landing {
    struct bytes list;
    int seeded;
    uint64_t seed;
};

/* What a call of run is given. A slice may be run in several calls: `used` counts the landing bytes that it has used. `text` is what the program was
 * assembled from, null if it was read as it is; `name` is the file's. */
struct machine {
    const char *name;
    struct bytes text, table, program, state, memory;
    struct landing landing;
    size_t used;
};

/* input.c: the command line and files. Each ends the program, with a line that says why, where it cannot do its work. */
void fail(int status, const char *name, const char *why);
struct bytes zeros(size_t length);
struct bytes read_file(const char *name);
struct options read_options(int argc, char **argv);
struct landing read_landing(const char *text);
void next_landing(struct landing *landing);

/* machine.c: runs. trace_one runs one instruction and prints what it does; frame_length says how many instructions there are until the place
 * is this one again, or the run ends, at most `limit`. */
struct vex_given given_of(const struct machine *m);
struct vex_answer run_machine(struct machine *m, uint32_t n);
struct vex_answer trace_one(struct machine *m);
unsigned long frame_length(const struct machine *m, unsigned long limit);

/* show.c: prints a refusal or a fault in words, its cause and the instructions that it names, of a text the line too; what assemble refuses; the
 * registers that are not zero, the link register among them. */
void say_refusal(const char *entry, struct vex_answer answer, const struct machine *m);
void say_text_refusal(struct vex_answer answer, const struct machine *m);
void say_registers(const struct machine *m);

/* frame.c: writes a frame as PREFIX-NNN.pgm and PREFIX-NNN.png, and says the first of these names. */
void write_frame(const struct options *o, unsigned long slice, const uint8_t *frame);

/* self_test.c: calls every entry with guard bytes round every slice; returns how many checks failed. */
int self_test(void);

#endif
