/* Holds every constant of vex.h to what a library does: a number to calls that it answers, a size or a limit to calls with it and one beyond, an
 * offset to the register or the field that the library finds there. Prints the names it held, one a line, and on the error stream what did not hold.
 * It is linked with the proved library and with the second program. */
#include <stdio.h>
#include <string.h>

#include "calls.h"

static struct call c;
static int failures;

static void held(const char *name, int condition, int line) {
    static int told; /* a line in a loop is told once */
    puts(name);
    if (condition) return;
    if (line != told) fprintf(stderr, "include/vex.h: %s is not what the library does (tests/boundary/constants.c:%d)\n", name, line);
    told = line;
    failures++;
}
#define HOLD(constant, condition) held(#constant, condition, __LINE__)

/* A program of one stop, or of a nop and then these syllables: what is wrong with them is then at place 1. */
static void stop(void) {
    begin(&c);
    put(&c, END | OPENS | STOP);
}

static void after_nop(size_t count, const uint32_t *syllables) {
    begin(&c);
    put(&c, END | OPENS | NOP);
    for (size_t i = 0; i < count; i++) put(&c, syllables[i]);
}
#define AFTER_NOP(...) after_nop(sizeof((uint32_t[]){__VA_ARGS__}) / sizeof(uint32_t), (uint32_t[]){__VA_ARGS__})

/* A number that load, check and run all give. */
static int refused(uint32_t number, uint32_t place) {
    return answers(&c, LOAD, number, 0, place) && answers(&c, CHECK, number, 0, place) && answers(&c, RUN, number, 0, place);
}

static int taken(void) {
    return answers(&c, LOAD, VEX_GOOD, 0, 0) && answers(&c, CHECK, VEX_GOOD, 0, 0) && answers(&c, RUN, VEX_STOPPED, 0, 0);
}

static int assembled(const char *text, uint32_t number, uint32_t count, uint32_t place) {
    begin_text(&c, text);
    return answers(&c, ASSEMBLE, number, count, place);
}

static void numbers(void) {
    HOLD(VEX_GOOD, assembled("c0 nop ;;\nc0 stop ;;\n", VEX_GOOD, 2, 0));
    HOLD(VEX_BAD_LENGTH, assembled("# nothing\n", VEX_BAD_LENGTH, 0, 0));
    HOLD(VEX_BAD_TEXT, assembled("c0 nop ;;\nc0 goto a+ ;;\n", VEX_BAD_TEXT, 0, 2));
    HOLD(VEX_BAD_LABEL, assembled("c0 nop ;;\nc0 goto a-1 ;;\n", VEX_BAD_LABEL, 0, 2));
    HOLD(VEX_BAD_LABEL, assembled("a: c0 nop ;;\na: c0 goto a-1 ;;\n", VEX_BAD_LABEL, 0, 2));
    HOLD(VEX_BAD_VALUE, assembled("a: c0 nop ;;\nc0 goto a-1 ;;\n", VEX_BAD_VALUE, 0, 2));
    stop();
    HOLD(VEX_GOOD, answers(&c, LOAD, VEX_GOOD, 0, 0) && answers(&c, CHECK, VEX_GOOD, 0, 0));
    AFTER_NOP(END | OPENS | STOP);
    HOLD(VEX_STOPPED, answers(&c, RUN, VEX_STOPPED, 1, 1));
    AFTER_NOP(END | OPENS | GOTO(1));
    HOLD(VEX_PAUSED, answers(&c, RUN, VEX_PAUSED, 16, 1));
    stop();
    c.table[0] = 0;
    HOLD(VEX_BAD_TABLE, refused(VEX_BAD_TABLE, 0));
    stop();
    c.program_len = 0;
    HOLD(VEX_BAD_LENGTH, refused(VEX_BAD_LENGTH, 0));
    AFTER_NOP(OPENS | STOP);
    HOLD(VEX_NO_END, refused(VEX_NO_END, 1));
    AFTER_NOP(END | OPENS | OPERATION(0, 4, 0, 0), END | OPENS | STOP);
    HOLD(VEX_BAD_BITS, refused(VEX_BAD_BITS, 1));
    AFTER_NOP(END | STOP);
    HOLD(VEX_BAD_CLUSTER, refused(VEX_BAD_CLUSTER, 1));
    AFTER_NOP(OPENS | NOP, NOP, NOP, NOP, END | NOP, END | OPENS | STOP);
    HOLD(VEX_TOO_WIDE, refused(VEX_TOO_WIDE, 1));
    AFTER_NOP(OPENS | ADD(3, 1, 2), END | ADD(3, 1, 2), END | OPENS | STOP);
    HOLD(VEX_TWO_WRITES, refused(VEX_TWO_WRITES, 1));
    AFTER_NOP(END | OPENS | GOTO(2));
    HOLD(VEX_BAD_CONTROL, refused(VEX_BAD_CONTROL, 1));
    AFTER_NOP(END | OPENS | MPYLL(1, 2, 3), END | OPENS | ADD(4, 1, 2), END | OPENS | STOP);
    HOLD(VEX_TOO_SOON, answers(&c, LOAD, VEX_GOOD, 0, 0) && answers(&c, CHECK, VEX_TOO_SOON, 1, 2));
    HOLD(VEX_IN_FLIGHT, answers(&c, RUN, VEX_IN_FLIGHT, 2, 2));
    stop();
    put_word(c.state + VEX_STATE_PLACE, 1);
    HOLD(VEX_BAD_STATE, answers(&c, RUN, VEX_BAD_STATE, 0, 0));
    AFTER_NOP(END | OPENS | LDW(1, 0, 2), END | OPENS | STOP);
    HOLD(VEX_MISALIGNED, answers(&c, RUN, VEX_MISALIGNED, 1, 1));
    AFTER_NOP(END | OPENS | LDW(1, 0, 64), END | OPENS | STOP);
    HOLD(VEX_OUT_OF_BOUNDS, answers(&c, RUN, VEX_OUT_OF_BOUNDS, 1, 1));
    AFTER_NOP(OPENS | STW(0, 0, 0), END | OPENS | STW(0, 0, 0), END | OPENS | STOP);
    HOLD(VEX_STORES_CLASH, answers(&c, RUN, VEX_STORES_CLASH, 1, 1));
    AFTER_NOP(END | OPENS | RETURN, END | OPENS | STOP);
    put_word(c.state + VEX_STATE_LINK, 3);
    HOLD(VEX_BAD_LINK, answers(&c, LOAD, VEX_GOOD, 0, 0) && answers(&c, RUN, VEX_BAD_LINK, 1, 1));
}

/* One byte of the table: its limit is taken, one more is refused. */
static int table_limit(size_t at, uint8_t limit) {
    stop();
    c.table[at] = limit;
    if (!taken()) return 0;
    c.table[at]++;
    return refused(VEX_BAD_TABLE, 0);
}

static void tables(void) {
    for (unsigned clusters = 1; clusters <= VEX_CLUSTERS_MAX; clusters++) {
        stop();
        begin_table(&c, clusters);
        c.table_len = VEX_TABLE_BYTES(clusters);
        HOLD(VEX_TABLE_BYTES, taken());
        HOLD(VEX_CLUSTERS_MAX, taken());
    }
    begin_table(&c, VEX_CLUSTERS_MAX + 1);
    HOLD(VEX_CLUSTERS_MAX, refused(VEX_BAD_TABLE, 0));
    for (size_t cluster = 0; cluster < 4; cluster++) {
        size_t at = 1 + 5 * cluster;
        HOLD(VEX_WIDTH_MAX, table_limit(at, VEX_WIDTH_MAX));
        HOLD(VEX_ALU_MAX, table_limit(at + 1, VEX_ALU_MAX));
        for (size_t unit = 2; unit < 5; unit++) HOLD(VEX_UNITS_MAX, table_limit(at + unit, VEX_UNITS_MAX));
    }
    for (size_t delay = 0; delay < 5; delay++) HOLD(VEX_DELAY_MAX, table_limit(21 + delay, VEX_DELAY_MAX));
}

static void lengths(void) {
    for (size_t bytes = 1; bytes <= 64; bytes++) {
        begin(&c);
        while (c.program_len + 8 <= bytes) put(&c, END | OPENS | NOP);
        put(&c, END | OPENS | STOP);
        c.program_len = bytes;
        int whole = bytes % VEX_SYLLABLE_BYTES == 0;
        HOLD(VEX_SYLLABLE_BYTES, whole ? answers(&c, LOAD, VEX_GOOD, 0, 0) : refused(VEX_BAD_LENGTH, 0));
    }
    begin(&c);
    while (c.program_len < VEX_PROGRAM_BYTES_MAX + 4) put(&c, END | OPENS | STOP);
    c.program_len = VEX_PROGRAM_BYTES_MAX;
    HOLD(VEX_PROGRAM_BYTES_MAX, taken());
    c.program_len += 4;
    HOLD(VEX_PROGRAM_BYTES_MAX, refused(VEX_BAD_LENGTH, 0));

    /* what is assembled has the same bounds: so many bytes a syllable, and in all */
    for (size_t bytes = 0; bytes <= 16; bytes++) {
        begin_text(&c, "c0 nop ;;\nc0 nop ;;\nc0 stop ;;\n");
        c.program_len = bytes;
        int fits = bytes >= 3 * VEX_SYLLABLE_BYTES;
        HOLD(VEX_SYLLABLE_BYTES, fits ? answers(&c, ASSEMBLE, VEX_GOOD, 3, 0) : answers(&c, ASSEMBLE, VEX_BAD_LENGTH, 0, 0));
    }
    enum { SYLLABLES = VEX_PROGRAM_BYTES_MAX / VEX_SYLLABLE_BYTES, LINE = sizeof "c0 nop;;\n" - 1 };
    static char nops[LINE * (SYLLABLES + 1) + 1];
    for (size_t i = 0; i <= SYLLABLES; i++) memcpy(nops + LINE * i, "c0 nop;;\n", LINE);
    begin_text(&c, nops);
    c.program_len = sizeof c.program;
    HOLD(VEX_PROGRAM_BYTES_MAX, answers(&c, ASSEMBLE, VEX_BAD_LENGTH, 0, 0));
    nops[LINE * SYLLABLES] = '\0';
    HOLD(VEX_PROGRAM_BYTES_MAX, assembled(nops, VEX_GOOD, SYLLABLES, 0));

    stop();
    c.memory_len = VEX_MEMORY_BYTES_MAX;
    HOLD(VEX_MEMORY_BYTES_MAX, taken());
    c.memory_len++;
    HOLD(VEX_MEMORY_BYTES_MAX, answers(&c, RUN, VEX_BAD_LENGTH, 0, 1));

    for (int beyond = -4; beyond <= 4; beyond++) {
        stop();
        c.state_len = (size_t)(VEX_STATE_BYTES + beyond);
        HOLD(VEX_STATE_BYTES, beyond ? answers(&c, RUN, VEX_BAD_LENGTH, 0, 2) : taken());
    }
    for (size_t bytes = 0; bytes <= sizeof c.room; bytes++) {
        stop();
        c.room_len = bytes;
        HOLD(VEX_ROOM_BYTES, perform(&c, LOAD) == (bytes == VEX_ROOM_BYTES ? VEX_GOOD : VEX_BAD_LENGTH));
        begin_text(&c, "c0 stop");
        c.room_len = bytes;
        HOLD(VEX_ROOM_BYTES, perform(&c, ASSEMBLE) == (bytes == VEX_ROOM_BYTES ? VEX_GOOD : VEX_BAD_LENGTH));
    }
    /* number, count and place are three different ones, and none is zero */
    AFTER_NOP(END | OPENS | NOP, OPENS | NOP, END | NOP, END | OPENS | LDW(1, 0, 64), END | OPENS | STOP);
    uint32_t number = perform(&c, RUN);
    HOLD(VEX_ROOM_NUMBER, number == VEX_OUT_OF_BOUNDS && word_at(c.room + VEX_ROOM_NUMBER) == number);
    HOLD(VEX_ROOM_COUNT, word_at(c.room + VEX_ROOM_COUNT) == 3);
    HOLD(VEX_ROOM_PLACE, word_at(c.room + VEX_ROOM_PLACE) == 4);
}

/* Opens the clusters up to this one, with a nop in each before it. */
static uint32_t opening(unsigned cluster) {
    while (cluster-- > 0) put(&c, OPENS | NOP);
    return OPENS;
}

/* The register is stored by an instruction of its cluster, at address 0; then the program stops. */
static void stores(unsigned cluster, unsigned number) {
    put(&c, END | opening(cluster) | STW(number, 0, 0));
    put(&c, END | OPENS | STOP);
}

#define VALUE 0x81828384u

static int stored(uint32_t value, uint32_t count) {
    return perform(&c, RUN) == VEX_STOPPED && word_at(c.memory) == value && word_at(c.room + VEX_ROOM_COUNT) == count;
}

static void registers(void) {
    AFTER_NOP(END | OPENS | NOP, END | OPENS | STOP);
    put_word(c.state + VEX_STATE_PLACE, 1);
    HOLD(VEX_STATE_PLACE, answers(&c, RUN, VEX_STOPPED, 1, 2) && word_at(c.state + VEX_STATE_PLACE) == 2);
    for (unsigned cluster = 0; cluster < VEX_CLUSTERS_MAX; cluster++) {
        /* register 0 is all zero in a valid state; no other general register has to be */
        stop();
        c.state[VEX_STATE_GENERAL(cluster, 0) + VEX_REGISTER_VALUE + 3] = 1;
        HOLD(VEX_STATE_GENERAL, answers(&c, RUN, VEX_BAD_STATE, 0, 0));
        for (unsigned number = 1; number < 64; number++) {
            begin(&c);
            stores(cluster, number);
            put_word(c.state + VEX_STATE_GENERAL(cluster, number) + VEX_REGISTER_VALUE, VALUE);
            HOLD(VEX_STATE_GENERAL, stored(VALUE, 1));
        }
        /* a branch register chooses register 1 instead of register 0 */
        for (unsigned number = 0; number < 8; number++) {
            begin(&c);
            put(&c, END | opening(cluster) | SLCT(2, 1, 0, number));
            stores(cluster, 2);
            put_word(c.state + VEX_STATE_GENERAL(cluster, 1) + VEX_REGISTER_VALUE, VALUE);
            put_word(c.state + VEX_STATE_BRANCH(cluster, number) + VEX_REGISTER_VALUE, 1);
            HOLD(VEX_STATE_BRANCH, stored(VALUE, 2));
        }
    }
}

/* A return goes to the link register's place, and a call sets it; each of its bytes counts, and they are the last of the image. */
static void link_register(void) {
    AFTER_NOP(END | OPENS | RETURN, END | OPENS | NOP, END | OPENS | STOP);
    put_word(c.state + VEX_STATE_LINK, 3);
    HOLD(VEX_STATE_LINK, answers(&c, RUN, VEX_STOPPED, 2, 3) && word_at(c.state + VEX_STATE_LINK) == 3);
    for (unsigned byte = 0; byte < 4; byte++) {
        AFTER_NOP(END | OPENS | RETURN);
        c.state[VEX_STATE_LINK + byte] = 2;
        HOLD(VEX_STATE_LINK, answers(&c, RUN, VEX_BAD_LINK, 1, 1));
    }
    HOLD(VEX_STATE_BYTES, VEX_STATE_LINK + 4 == VEX_STATE_BYTES);
    AFTER_NOP(OPENS | NOP, END | CALL(4), END | OPENS | STOP, END | OPENS | RETURN);
    HOLD(VEX_STATE_LINK, answers(&c, RUN, VEX_STOPPED, 3, 3) && word_at(c.state + VEX_STATE_LINK) == 3);
}

/* The fields of a register: cluster 1's register 9, which an instruction stores after so many nops. */
static uint8_t *field_after(unsigned nops) {
    begin(&c);
    while (nops-- > 0) put(&c, END | OPENS | NOP);
    stores(1, 9);
    return c.state + VEX_STATE_GENERAL(1, 9);
}

static void fields(void) {
    put_word(field_after(0) + VEX_REGISTER_VALUE, VALUE);
    HOLD(VEX_REGISTER_VALUE, stored(VALUE, 1));
    /* it is in flight while busy is above 0, and that falls by one with each instruction */
    for (uint8_t busy = 1; busy <= VEX_BUSY_MAX; busy++) {
        field_after(busy - 1u)[VEX_REGISTER_BUSY] = busy;
        HOLD(VEX_REGISTER_BUSY, perform(&c, RUN) == VEX_IN_FLIGHT);
        field_after(busy)[VEX_REGISTER_BUSY] = busy;
        HOLD(VEX_REGISTER_BUSY, stored(0, busy + 1u));
    }
    field_after(VEX_BUSY_MAX)[VEX_REGISTER_BUSY] = VEX_BUSY_MAX;
    HOLD(VEX_BUSY_MAX, stored(0, VEX_BUSY_MAX + 1));
    field_after(0)[VEX_REGISTER_BUSY] = VEX_BUSY_MAX + 1;
    HOLD(VEX_BUSY_MAX, perform(&c, RUN) == VEX_BAD_STATE);
    /* the waiting value is the value once landing has fallen to 0 */
    for (uint8_t landing = 1; landing <= VEX_BUSY_MAX; landing++) {
        uint8_t *field = field_after(VEX_BUSY_MAX);
        put_word(field + VEX_REGISTER_WAITING, VALUE);
        field[VEX_REGISTER_BUSY] = VEX_BUSY_MAX;
        field[VEX_REGISTER_LANDING] = landing;
        c.n = landing - 1u;
        HOLD(VEX_REGISTER_WAITING, perform(&c, RUN) == VEX_PAUSED && word_at(field + VEX_REGISTER_WAITING) == VALUE);
        c.n = 1;
        HOLD(VEX_REGISTER_LANDING, perform(&c, RUN) == VEX_PAUSED && field[VEX_REGISTER_LANDING] == 0);
        HOLD(VEX_REGISTER_WAITING, word_at(field + VEX_REGISTER_VALUE) == VALUE && word_at(field + VEX_REGISTER_WAITING) == 0);
        c.n = 16;
        HOLD(VEX_REGISTER_WAITING, stored(VALUE, VEX_BUSY_MAX - landing + 1u));
    }
}

int main(void) {
    numbers();
    tables();
    lengths();
    registers();
    link_register();
    fields();
    return failures != 0;
}
