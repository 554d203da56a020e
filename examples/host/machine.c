/* Runs of an effect: a slice at once, or instruction by instruction with what each does. */
#include <stdio.h>
#include <stdlib.h>
#include <string.h>

#include "host.h"

struct vex_given given_of(const struct machine *m) {
    struct vex_given g = {m->table.at, m->program.at, m->state.at, m->table.length, m->program.length, m->state.length, m->memory.length};
    return g;
}

struct vex_answer run_machine(struct machine *m, uint32_t n) {
    uint8_t room[VEX_ROOM_BYTES] = {0};
    size_t used = m->used < m->landing.list.length ? m->used : m->landing.list.length;
    vex_run(m->table.at, m->table.length, m->program.at, m->program.length, m->state.at, m->state.length, m->memory.at, m->memory.length,
            m->landing.list.at + used, m->landing.list.length - used, n, room, sizeof room);
    return vex_read_room(room);
}

#define EACH_OPERATION(o, given, place) for (int there = vex_first_operation(given, place, &o); there; there = vex_next_operation(given, &o))

static void say_cell(const char *what, unsigned r, const uint8_t *cell) {
    char name[VEX_NAME_BYTES];
    unsigned busy = cell[VEX_REGISTER_BUSY], landing = cell[VEX_REGISTER_LANDING];
    printf("  %-9s %s = %08lX", what, vex_register_name(r, name), (unsigned long)vex_word(cell + (landing ? VEX_REGISTER_WAITING : VEX_REGISTER_VALUE)));
    if (landing > 0) printf(", lands in %u", landing);
    if (busy > 0) printf(", busy for %u more", busy);
    printf("\n");
}

static void say_store(const struct vex_given *before, const struct vex_operation *o) {
    char name[VEX_NAME_BYTES];
    unsigned r = o->reads[2];
    uint32_t value = r == VEX_NO_REGISTER ? 0 : vex_word(before->state + VEX_STATE_REGISTER(r));
    if (o->bytes < 4) value &= ((uint32_t)1 << 8 * o->bytes) - 1;
    printf("  %-9s %0*lX at address %08lX, from %s\n", "stores", (int)(2 * o->bytes), (unsigned long)value, (unsigned long)vex_address(before, o),
           r == VEX_NO_REGISTER ? "register 0" : vex_register_name(r, name));
}

static void say_link(const struct machine *m) {
    unsigned long link = vex_word(m->state.at + VEX_STATE_LINK);
    printf("  %-9s link register = %08lX, syllable %lu\n", "sets", link, link);
}

/* What an instruction did: the state before it, and the machine after it. */
static void say_instruction(const struct vex_given *before, struct machine *m) {
    struct vex_operation o;
    uint32_t place = vex_word(before->state + VEX_STATE_PLACE);
    uint8_t made[288] = {0};
    printf("%lu:", (unsigned long)place);
    EACH_OPERATION(o, before, place) printf("%s %s", o.place > place && o.syllable >> 30 & 1 ? " |" : "", o.name);
    printf("\n");
    EACH_OPERATION(o, before, place)
        for (int i = 0; i < 2; i++) made[o.results[i]] = 1;
    for (unsigned r = 1; r < 288; r++) {
        const uint8_t *cell = before->state + VEX_STATE_REGISTER(r);
        if (!made[r] && cell[VEX_REGISTER_LANDING] == 1) say_cell("lands", r, m->state.at + VEX_STATE_REGISTER(r));
    }
    EACH_OPERATION(o, before, place) {
        for (int i = 0; i < 2; i++) {
            const uint8_t *cell = m->state.at + VEX_STATE_REGISTER(o.results[i]);
            if (o.results[i] == VEX_NO_REGISTER) continue;
            m->used++;
            say_cell(cell[VEX_REGISTER_LANDING] ? "in flight" : "lands", o.results[i], cell);
        }
        if (o.opcode >= 57 && o.opcode <= 59) say_store(before, &o);
        if (strcmp(o.name, "call") == 0) say_link(m);
    }
}

struct vex_answer trace_one(struct machine *m) {
    uint8_t state[VEX_STATE_BYTES];
    struct vex_given before = given_of(m);
    memcpy(state, m->state.at, sizeof state);
    before.state = state;
    struct vex_answer answer = run_machine(m, 1);
    if (answer.number == VEX_STOPPED) printf("%lu: stop\n", (unsigned long)answer.place);
    else if (answer.number == VEX_PAUSED) say_instruction(&before, m);
    return answer;
}

unsigned long frame_length(const struct machine *m, unsigned long limit) {
    struct machine copy = *m;
    uint32_t first = vex_word(m->state.at + VEX_STATE_PLACE);
    unsigned long length = 0;
    copy.state = zeros(m->state.length);
    copy.memory = zeros(m->memory.length);
    memcpy(copy.state.at, m->state.at, m->state.length);
    memcpy(copy.memory.at, m->memory.at, m->memory.length);
    copy.landing.list.length = 0;
    for (struct vex_answer a = {0, 0, 0}; length < limit; ) {
        a = run_machine(&copy, 1);
        length++;
        if (a.number != VEX_PAUSED || a.place == first) break;
    }
    free(copy.state.at);
    free(copy.memory.at);
    return length;
}
