/* A small preview host: it assembles, loads, checks and runs an effect in slices, and writes the frame as an image after each. */
#include <stdio.h>
#include <stdlib.h>
#include <string.h>

#include "host.h"

/* Two clusters, each four wide with 4 ALU, 2 MUL, 1 MEM and 1 COPY; delays ALU 1, CMPB 2, MUL 2, LOAD 3, COPY 1. */
static uint8_t default_table[VEX_TABLE_BYTES(2)] = {2, 4, 4, 2, 1, 1, 4, 4, 2, 1, 1, 1, 2, 2, 3, 1};

enum { FRAME_MAX = 100000 }; /* instructions in which a frame is looked for */

static struct vex_answer run_slice(const struct options *o, struct machine *m) {
    unsigned long n = o->instructions > 0 ? o->instructions : frame_length(m, FRAME_MAX);
    struct vex_answer a = {VEX_PAUSED, 0, 0};
    next_landing(&m->landing);
    m->used = 0;
    if (!o->trace) return run_machine(m, (uint32_t)n);
    for (unsigned long executed = 0; executed < n && a.number == VEX_PAUSED;) {
        a = trace_one(m);
        executed += a.count;
        a.count = (uint32_t)executed;
    }
    return a;
}

/* Runs the slices; after each, a line of progress and the frame. */
static int play(const struct options *o, struct machine *m) {
    struct bytes shown = zeros(o->width * o->height);
    const uint8_t *frame = m->memory.at + o->address;
    unsigned long long executed = 0;

    for (unsigned long slice = 1; slice <= o->slices; slice++) {
        struct vex_answer a = run_slice(o, m);
        if (a.number != VEX_PAUSED && a.number < VEX_IN_FLIGHT) {
            say_refusal("run", a, m);
            return REFUSED;
        }
        const char *end = a.number == VEX_PAUSED ? "paused" : a.number == VEX_STOPPED ? "stopped" : "a fault";
        unsigned long changed = 0;
        for (size_t i = 0; i < shown.length; i++) changed += shown.at[i] != frame[i];
        memcpy(shown.at, frame, shown.length);
        executed += a.count;
        printf("slice %lu: %s at syllable %lu, %llu instructions so far, %lu pixels changed", slice, end, (unsigned long)a.place, executed,
               changed);
        if (o->out != NULL) write_frame(o, slice, frame);
        printf("\n");
        if (o->registers) say_registers(m);
        if (a.number == VEX_STOPPED) break;
        if (a.number != VEX_PAUSED) {
            say_refusal("run", a, m);
            return REFUSED;
        }
        fflush(stdout);
    }
    return DONE;
}

/* Instruction by instruction, as standard input says. */
static int step(const struct options *o, struct machine *m) {
    struct vex_answer a = {VEX_PAUSED, 0, 0};
    char line[100];
    next_landing(&m->landing);
    printf("an empty line: one instruction; a number: so many; r: the registers; q: the end\n");
    while (a.number == VEX_PAUSED && fflush(stdout) == 0 && fgets(line, sizeof line, stdin) != NULL && line[0] != 'q') {
        if (line[0] == 'r') {
            say_registers(m);
            continue;
        }
        unsigned long n = line[0] == '\n' ? 1 : strtoul(line, NULL, 10);
        while (n-- > 0 && a.number == VEX_PAUSED) a = trace_one(m);
    }
    if (o->out != NULL) {
        printf("the frame");
        write_frame(o, 1, m->memory.at + o->address);
        printf("\n");
    }
    if (a.number == VEX_PAUSED || a.number == VEX_STOPPED) return DONE;
    say_refusal("run", a, m);
    return REFUSED;
}

/* The effect's program: a file named *.s is a text and is assembled, any other holds the syllables. */
static int read_effect(const char *name, struct machine *m) {
    struct bytes file = read_file(name);
    size_t length = strlen(name);
    uint8_t room[VEX_ROOM_BYTES];
    m->name = name;
    printf("%s: %lu bytes\n", name, (unsigned long)file.length);
    if (length < 2 || strcmp(name + length - 2, ".s") != 0) {
        m->program = file;
        return DONE;
    }
    m->text = file;
    m->program = zeros(VEX_PROGRAM_BYTES_MAX);
    if (vex_assemble(file.at, file.length, m->program.at, m->program.length, room, sizeof room) != VEX_GOOD) {
        say_text_refusal(vex_read_room(room), m);
        return REFUSED;
    }
    m->program.length = VEX_SYLLABLE_BYTES * (size_t)vex_read_room(room).count;
    printf("assemble: %lu syllables\n", (unsigned long)vex_read_room(room).count);
    return DONE;
}

int main(int argc, char **argv) {
    struct options o = read_options(argc, argv);
    if (o.self_test) return self_test() == 0 ? DONE : REFUSED;
    struct machine m = {.table = {default_table, sizeof default_table}};
    if (o.table != NULL) m.table = read_file(o.table);
    m.landing = read_landing(o.landing);
    uint8_t room[VEX_ROOM_BYTES];

    if (read_effect(o.effect, &m) != DONE) return REFUSED;
    if (vex_load(m.table.at, m.table.length, m.program.at, m.program.length, room, sizeof room) != VEX_GOOD) {
        say_refusal("load", vex_read_room(room), &m);
        return REFUSED;
    }
    printf("load: good\n");
    if (vex_check(m.table.at, m.table.length, m.program.at, m.program.length, room, sizeof room) != VEX_GOOD) {
        say_refusal("check", vex_read_room(room), &m);
        return REFUSED;
    }
    printf("check: good\n");
    m.state = zeros(VEX_STATE_BYTES);
    m.memory = zeros(o.memory);
    return o.step ? step(&o, &m) : play(&o, &m);
}
