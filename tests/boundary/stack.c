/* Runs each entry on a stack of its own, filled with a pattern and with an unreadable page below it, and holds the deepest byte that was written to
 * VEX_STACK_BYTES, for assemble to VEX_ASSEMBLE_STACK_BYTES. The frame of the function that makes the call counts with it. The calls are made to go deep: the longest programs, a check
 * that follows 254 places, every operation, each way that a run ends, and texts of expressions as deep as they may be. Prints the depths. */
#define _GNU_SOURCE
#include <stdio.h>
#include <stdlib.h>
#include <string.h>
#include <sys/mman.h>
#include <ucontext.h>

#include "../../bench/kernels.h"
#include "calls.h"

enum { PAGE = 65536, STACK = 1 << 20, PATTERN = 0xA5 }; /* PAGE: a multiple of any processor's */

static uint8_t *stack;
static ucontext_t here, there;
static struct call c;
static enum entry entry;
static uint32_t number;

static void on_the_stack(void) {
    number = perform(&c, entry);
}

/* How deep the call goes. */
static size_t depth(enum entry of) {
    entry = of;
    memset(stack, PATTERN, STACK);
    getcontext(&there);
    there.uc_stack.ss_sp = stack;
    there.uc_stack.ss_size = STACK;
    there.uc_link = &here;
    makecontext(&there, on_the_stack, 0);
    swapcontext(&here, &there);
    size_t untouched = 0;
    while (untouched < STACK && stack[untouched] == PATTERN) untouched++;
    return STACK - untouched;
}

/* The longest program of the widest instructions: 128 with 8 syllables in each of 4 clusters, all with loads and products. */
static void widest(void) {
    static const uint8_t counts[] = {8, 8, 4, 4, 4};
    begin(&c);
    for (size_t i = 1; i < 21; i++) c.table[i] = counts[(i - 1) % 5];
    for (int i = 0; i < 127; i++)
        for (unsigned k = 0; k < 32; k++) {
            uint32_t t = 1 + k % 8, syllable = k % 2 == 0 ? MPYLL(t, 60, 61) : LDW(t, 0, 0);
            if (i % 4 != 0) syllable = NOP; /* what was in flight has landed by the next such instruction */
            put(&c, (k % 8 == 0 ? OPENS : 0) | (k == 31 ? END : 0) | syllable);
        }
    put(&c, END | OPENS | GOTO(0));
}

/* 2,048 instructions with a branch each, and delays of 8: 254 places are reached from the first one's product, and none touches it. */
static void far_reach(void) {
    enum { INSTRUCTIONS = 2048 };
    begin(&c);
    begin_table(&c, 1);
    memset(c.table + 6, 8, 5);
    for (uint32_t i = 0; i < INSTRUCTIONS; i++) {
        uint32_t target = 2 * ((37 * i + 22) % INSTRUCTIONS);
        put(&c, OPENS | (i == 0 ? MPYLL(1, 2, 3) : NOP));
        put(&c, END | (i + 1 < INSTRUCTIONS ? BR(0, target) : GOTO(target)));
    }
}

/* Every operation once, each in an instruction of its own, with delays of 1; then a stop, by way of a call and a return. */
static void every_operation(void) {
    begin(&c);
    memset(c.table + 21, 1, 5);
    for (uint32_t opcode = 1; opcode <= 60; opcode++) {
        int extension = opcode >= 19 && opcode <= 22, access = opcode >= 52 && opcode <= 59;
        uint32_t low = extension || access ? 0 : opcode == 60 ? 1 : 3;
        put(&c, END | OPENS | OPERATION(opcode, 1, access ? 0 : 2, low));
    }
    put(&c, END | OPENS | BR(0, 0));
    put(&c, END | OPENS | CALL(63));
    put(&c, END | OPENS | STOP);
    put(&c, END | OPENS | RETURN);
    c.n = 1000;
}

/* A product, then an instruction of one syllable, or of two in two clusters, then a stop. */
static void after_product(uint32_t first, uint32_t other) {
    begin(&c);
    put(&c, END | OPENS | MPYLL(1, 2, 3));
    put(&c, (other == 0 ? END : 0) | OPENS | first);
    if (other != 0) put(&c, END | OPENS | other);
    put(&c, END | OPENS | STOP);
}

static void kernel(const struct kernel *k) {
    begin(&c);
    memcpy(c.table, k->table, k->table_len);
    memcpy(c.program, k->program, k->program_len);
    c.table_len = k->table_len;
    c.program_len = k->program_len;
    c.memory_len = 4096;
    c.n = 10000;
}

/* The deepest call of each entry so far. */
static size_t deepest[ASSEMBLE + 1];
static const char *const entries[] = {"load", "check", "run", "assemble"};

static void measure_one(const char *name, enum entry of, uint32_t wanted) {
    size_t reached = depth(of);
    if (number != wanted) {
        printf("stack: %s: %s gives %lu\n", name, entries[of], (unsigned long)number);
        exit(1);
    }
    if (reached > deepest[of]) deepest[of] = reached;
}

static void measure(const char *name, uint32_t load, uint32_t check, uint32_t run) {
    measure_one(name, LOAD, load);
    measure_one(name, CHECK, check);
    measure_one(name, RUN, run);
}

/* The longest program as a text: first every field with an expression 16 brackets deep and a label inside, then nops; then one more line. */
static void measure_text(const char *name, const char *last, uint32_t wanted) {
    static const char *const around[][2] = {{"add $r0.1 = $r0.2, ", ""}, {"sub $r0.1 = ", ", $r0.2"}, {"ldw $r0.1 = ", "[$r0.2]"},
                                            {"stb ", "[$r0.2] = $r0.1"}, {"goto ", ""}, {"brf $b0.1, ", ""}, {"call $l0.0 = ", ""}};
    enum { FIELDS = sizeof around / sizeof around[0], DEEP = 10 * FIELDS };
    static char text[1 << 16];
    size_t at = 0;
    for (unsigned i = 0; i < DEEP; i++) {
        const char *const *field = around[i % FIELDS];
        at += (size_t)snprintf(text + at, sizeof text - at, "l%u: c0 %s((((((((((((((((l%u*0+2-1)*1)+0)-0)))))))))))))%s ;;\n", i, field[0],
                               DEEP - 1 - i, field[1]);
    }
    for (unsigned i = DEEP; i < 4095; i++) at += (size_t)snprintf(text + at, sizeof text - at, "c0 nop;;\n");
    snprintf(text + at, sizeof text - at, "%s\n", last);
    begin_text(&c, text);
    measure_one(name, ASSEMBLE, wanted);
}

int main(void) {
    uint8_t *mapped = mmap(NULL, PAGE + STACK, PROT_READ | PROT_WRITE, MAP_PRIVATE | MAP_ANONYMOUS, -1, 0);
    if (mapped == MAP_FAILED || mprotect(mapped, PAGE, PROT_NONE) != 0) {
        perror("stack");
        return 1;
    }
    stack = mapped + PAGE;

    widest();
    measure("the widest instructions", VEX_GOOD, VEX_GOOD, VEX_PAUSED);
    far_reach();
    measure("a far reach", VEX_GOOD, VEX_GOOD, VEX_PAUSED);
    every_operation();
    measure("every operation", VEX_GOOD, VEX_GOOD, VEX_STOPPED);
    after_product(ADD(2, 1, 3), 0);
    measure("in flight", VEX_GOOD, VEX_TOO_SOON, VEX_IN_FLIGHT);
    after_product(CALL(0), 0);
    measure("in flight at a call", VEX_GOOD, VEX_TOO_SOON, VEX_IN_FLIGHT);
    after_product(LDW(2, 0, 1), 0);
    measure("misaligned", VEX_GOOD, VEX_GOOD, VEX_MISALIGNED);
    after_product(LDW(2, 0, 64), 0);
    measure("out of bounds", VEX_GOOD, VEX_GOOD, VEX_OUT_OF_BOUNDS);
    after_product(STW(0, 0, 0), STW(0, 0, 0));
    measure("two stores", VEX_GOOD, VEX_GOOD, VEX_STORES_CLASH);
    begin(&c);
    put(&c, END | OPENS | RETURN);
    put_word(c.state + VEX_STATE_LINK, 1);
    measure("a bad link", VEX_GOOD, VEX_GOOD, VEX_BAD_LINK);
    c.state[VEX_STATE_GENERAL(0, 0)] = 1;
    measure("a bad state", VEX_GOOD, VEX_GOOD, VEX_BAD_STATE);
    kernel(full_kernel());
    measure("4,096 syllables", VEX_GOOD, VEX_GOOD, VEX_PAUSED);
    kernel(wide_kernel());
    measure("two clusters", VEX_GOOD, VEX_GOOD, VEX_PAUSED);
    kernel(calls_kernel());
    measure("calls", VEX_GOOD, VEX_GOOD, VEX_PAUSED);
    measure_text("a text", "c0 stop", VEX_GOOD);
    measure_text("a text of 4,097 syllables", "c1 stop", VEX_BAD_LENGTH);
    measure_text("seventeen brackets", "c0 goto (((((((((((((((((0", VEX_BAD_TEXT);
    measure_text("a label that is missing", "c0 goto ((((((((((((((((l))))))))))))))))", VEX_BAD_LABEL);
    measure_text("a large value", "c0 goto ((((((((((((((((l0+2147483647*2))))))))))))))))", VEX_BAD_VALUE);

    int deep = 0;
    printf("stack:");
    for (int of = LOAD; of <= ASSEMBLE; of++) {
        printf(" %s %lu bytes%s", entries[of], (unsigned long)deepest[of], of == ASSEMBLE ? ";" : ",");
        deep |= deepest[of] > (of == ASSEMBLE ? VEX_ASSEMBLE_STACK_BYTES : VEX_STACK_BYTES);
    }
    printf(" VEX_STACK_BYTES is %lu, VEX_ASSEMBLE_STACK_BYTES %lu\n", (unsigned long)VEX_STACK_BYTES, (unsigned long)VEX_ASSEMBLE_STACK_BYTES);
    if (deep) printf("include/vex.h: a call goes deeper than its VEX_STACK_BYTES or VEX_ASSEMBLE_STACK_BYTES\n");
    return deep;
}
