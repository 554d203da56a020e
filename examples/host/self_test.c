/* The self-test: every entry with guard bytes round every slice, at every alignment, on good and on bad input. */
#include <stdio.h>
#include <string.h>

#include "host.h"

enum { GUARD = 0xA5, MARGIN = 64, ALIGNMENTS = 8, ARENA = MARGIN + ALIGNMENTS + VEX_MEMORY_BYTES_MAX + 1 + MARGIN };
enum entry { LOAD, CHECK, RUN, ASSEMBLE };
enum slice { TEXT, TABLE, PROGRAM, STATE, MEMORY, LANDING, ROOM, SLICES };

struct call {
    struct bytes given[SLICES];
    uint32_t n;
};

static uint8_t arena[SLICES][ARENA];
static uint8_t *now[SLICES]; /* where the slices of the last call stand */
static int calls, failures;

static void expect(int holds, const char *what, const char *name) {
    if (holds) return;
    failures++;
    printf("self-test: %s: %s\n", name, what);
}

/* The answer of the last call. */
static int answered(uint32_t number, uint32_t count, uint32_t place) {
    return vex_word(now[ROOM] + VEX_ROOM_NUMBER) == number && vex_word(now[ROOM] + VEX_ROOM_COUNT) == count &&
           vex_word(now[ROOM] + VEX_ROOM_PLACE) == place;
}

static int as_given(const struct call *c, enum slice s) {
    return c->given[s].length == 0 || memcmp(now[s], c->given[s].at, c->given[s].length) == 0;
}

static int guarded(const struct call *c, enum slice s) {
    size_t first = (size_t)(now[s] - arena[s]);
    for (size_t i = 0; i < ARENA; i++)
        if ((i < first || i >= first + c->given[s].length) && arena[s][i] != GUARD) return 0;
    return 1;
}

/* Copies the slices between guard bytes, off alignment by shift, calls, and checks what holds after any call. */
static uint32_t perform(enum entry entry, const struct call *c, size_t shift, const char *name) {
    uint8_t *at[SLICES];
    const struct bytes *g = c->given;
    uint32_t number;
    memset(arena, GUARD, sizeof arena);
    for (int s = 0; s < SLICES; s++) {
        now[s] = arena[s] + MARGIN + (shift + (size_t)s) % ALIGNMENTS;
        if (g[s].length > 0) memcpy(now[s], g[s].at, g[s].length);
        at[s] = g[s].at == NULL ? NULL : now[s];
    }
    calls++;
    if (entry == ASSEMBLE)
        number = vex_assemble(at[TEXT], g[TEXT].length, at[PROGRAM], g[PROGRAM].length, at[ROOM], g[ROOM].length);
    else if (entry == RUN)
        number = vex_run(at[TABLE], g[TABLE].length, at[PROGRAM], g[PROGRAM].length, at[STATE], g[STATE].length, at[MEMORY],
                         g[MEMORY].length, at[LANDING], g[LANDING].length, c->n, at[ROOM], g[ROOM].length);
    else
        number = (entry == LOAD ? vex_load : vex_check)(at[TABLE], g[TABLE].length, at[PROGRAM], g[PROGRAM].length, at[ROOM],
                                                        g[ROOM].length);
    for (int s = 0; s < SLICES; s++) expect(guarded(c, s), "a guard byte was written", name);
    expect(as_given(c, TEXT) && as_given(c, TABLE) && as_given(c, LANDING), "a slice that is only read was written", name);
    expect((entry == ASSEMBLE && number == VEX_GOOD) || as_given(c, PROGRAM), "the program was written", name);
    int executes = entry == RUN && (number == VEX_PAUSED || number >= VEX_IN_FLIGHT);
    expect(executes || (as_given(c, STATE) && as_given(c, MEMORY)), "state or memory was written", name);
    if (g[ROOM].length == VEX_ROOM_BYTES)
        expect(vex_word(now[ROOM]) == number, "the room has another number", name);
    else
        expect(as_given(c, ROOM), "a room of another length was written", name);
    return number;
}

static uint8_t one_cluster[] = {1, 4, 4, 2, 1, 0, 1, 2, 2, 3, 1};
static uint8_t two_clusters[] = {2, 4, 4, 2, 1, 1, 4, 4, 2, 1, 1, 1, 2, 2, 3, 1};
static uint8_t state[VEX_STATE_BYTES + 1], memory[VEX_MEMORY_BYTES_MAX + 1], program[VEX_PROGRAM_BYTES_MAX], room[2 * VEX_ROOM_BYTES];

/* A call of a program with the first table, 64 bytes of memory, and a state of zeros. */
static struct call call_of(const uint32_t *words, size_t count, uint32_t n) {
    struct call c = {.n = n};
    for (size_t i = 0; i < 4 * count; i++) program[i] = (uint8_t)(words[i / 4] >> (24 - 8 * (i % 4)));
    memset(state, 0, sizeof state);
    for (size_t i = 0; i < sizeof memory; i++) memory[i] = (uint8_t)(i * 7 + 1);
    memset(room, 0x5A, sizeof room);
    c.given[TABLE] = (struct bytes){one_cluster, sizeof one_cluster};
    c.given[PROGRAM] = (struct bytes){program, 4 * count};
    c.given[STATE] = (struct bytes){state, VEX_STATE_BYTES};
    c.given[MEMORY] = (struct bytes){memory, 64};
    c.given[LANDING] = (struct bytes){NULL, 0};
    c.given[ROOM] = (struct bytes){room, VEX_ROOM_BYTES};
    return c;
}

/* Programs with the answers of load, check and run: number, count, place. Two clusters only where a case needs them. */
static const struct {
    const char *name;
    uint32_t words[6];
    size_t count;
    int clusters;
    uint32_t answers[RUN + 1][3];
} cases[] = {
    {"the document's example", {0xC10C0805, 0xC0040000}, 2, 1, {{0, 0, 0}, {0, 0, 0}, {255, 1, 1}}},
    {"a loop", {0xFD000000}, 1, 1, {{0, 0, 0}, {0, 0, 0}, {0, 16, 0}}},
    {"no end", {0xC10C0805, 0x410C0805}, 2, 1, {{3, 0, 1}, {3, 0, 1}, {3, 0, 1}}},
    {"opcode 0 with number 4", {0xC0040000, 0xC0100000}, 2, 1, {{4, 0, 1}, {4, 0, 1}, {4, 0, 1}}},
    {"no cluster opened", {0xC10C0805, 0x80040000}, 2, 1, {{5, 0, 1}, {5, 0, 1}, {5, 0, 1}}},
    {"five syllables in a cluster of four", {0x40000000, 0, 0, 0, 0x80000000, 0xC0040000}, 6, 1, {{6, 0, 0}, {6, 0, 0}, {6, 0, 0}}},
    {"one register written twice", {0x410C0805, 0x810C0805, 0xC0040000}, 3, 1, {{7, 0, 0}, {7, 0, 0}, {7, 0, 0}}},
    {"a target beyond the program", {0xC0000000, 0xFD000005}, 2, 1, {{8, 0, 1}, {8, 0, 1}, {8, 0, 1}}},
    {"a product read too soon", {0xD8040800, 0xC1081800, 0xC0040000}, 3, 1, {{0, 0, 0}, {9, 0, 1}, {11, 1, 1}}},
    {"a word at address 2", {0xC0000000, 0xF4040002, 0xC0040000}, 3, 1, {{0, 0, 0}, {0, 0, 0}, {12, 1, 1}}},
    {"a word at the memory's end", {0xC0000000, 0xF4040040, 0xC0040000}, 3, 1, {{0, 0, 0}, {0, 0, 0}, {13, 1, 1}}},
    {"two stores to one byte", {0x7B000000, 0xFB000000, 0xC0040000}, 3, 2, {{0, 0, 0}, {0, 0, 0}, {14, 0, 0}}},
    {"a call and its return", {0xC0080002, 0xC0040000, 0xC00C0000}, 3, 1, {{0, 0, 0}, {0, 0, 0}, {255, 2, 1}}},
    {"a return beside a nop", {0x40000000, 0x800C0000}, 2, 1, {{8, 0, 1}, {8, 0, 1}, {8, 0, 1}}},
    {"a call at the end", {0xC0000000, 0xC0080000}, 2, 1, {{8, 0, 1}, {8, 0, 1}, {8, 0, 1}}},
    {"a load in flight at a call", {0xF4040000, 0xC0080002, 0xC0040000}, 3, 1, {{0, 0, 0}, {9, 0, 1}, {11, 1, 1}}},
};

static void test_cases(void) {
    for (size_t i = 0; i < sizeof cases / sizeof cases[0]; i++) {
        struct call c = call_of(cases[i].words, cases[i].count, 16);
        if (cases[i].clusters == 2) c.given[TABLE] = (struct bytes){two_clusters, sizeof two_clusters};
        for (size_t shift = 0; shift < ALIGNMENTS; shift++)
            for (int entry = LOAD; entry <= RUN; entry++) {
                const uint32_t *a = cases[i].answers[entry];
                perform(entry, &c, shift, cases[i].name);
                expect(answered(a[0], a[1], a[2]), "another answer", cases[i].name);
            }
    }
    printf("self-test: %d programs at %d alignments, load, check and run\n", (int)(sizeof cases / sizeof cases[0]), ALIGNMENTS);
}

/* Each slice with a length it may not have: the number, and where the room can be written its place. */
static void test_lengths(void) {
    static const struct {
        enum slice slice;
        size_t length;
        uint32_t number, place;
    } wrong[] = {
        {TABLE, 0, 1, 0},   {TABLE, 10, 1, 0},      {PROGRAM, 0, 2, 0},  {PROGRAM, 7, 2, 0},  {MEMORY, VEX_MEMORY_BYTES_MAX + 1, 2, 1},
        {STATE, 0, 2, 2},   {STATE, 2884, 2, 2},    {STATE, 2887, 2, 2}, {STATE, 2889, 2, 2},
        {ROOM, 0, 2, 3},    {ROOM, 11, 2, 3},       {ROOM, 13, 2, 3},    {ROOM, 24, 2, 3},
    };
    for (size_t i = 0; i < sizeof wrong / sizeof wrong[0]; i++)
        for (size_t shift = 0; shift < ALIGNMENTS; shift++)
            for (int null = 0; null <= (wrong[i].length == 0); null++) {
                struct call c = call_of(cases[0].words, cases[0].count, 16);
                c.given[wrong[i].slice].length = wrong[i].length;
                if (null) c.given[wrong[i].slice].at = NULL;
                for (int entry = LOAD; entry <= RUN; entry++) {
                    int taken = entry == RUN || (wrong[i].slice != STATE && wrong[i].slice != MEMORY);
                    uint32_t number = perform(entry, &c, shift, "a wrong length");
                    expect(number == (taken ? wrong[i].number : 0), "another number", "a wrong length");
                    if (wrong[i].slice != ROOM && taken) expect(answered(number, 0, wrong[i].place), "another place", "a wrong length");
                }
            }
    /* A bad table is told before a bad room, and still nothing is written. */
    struct call c = call_of(cases[0].words, cases[0].count, 16);
    c.given[TABLE].length = 10;
    c.given[ROOM].length = 11;
    for (int entry = LOAD; entry <= RUN; entry++) expect(perform(entry, &c, 0, "table and room") == 1, "another number", "table and room");
    printf("self-test: wrong lengths, a null pointer with length 0, rooms of 0, 11, 13 and 24 bytes\n");
}

static void test_nothing(void) {
    uint8_t after[VEX_STATE_BYTES] = {0}; /* the example's state: place 1, register 3 is 5 */
    after[VEX_STATE_PLACE + 3] = 1;
    after[VEX_STATE_GENERAL(0, 3) + VEX_REGISTER_VALUE + 3] = 5;
    struct call c = call_of(cases[0].words, cases[0].count, 16);
    for (int null = 0; null <= 1; null++) {
        c.given[MEMORY] = (struct bytes){null ? NULL : memory, 0};
        c.given[LANDING] = c.given[MEMORY];
        perform(RUN, &c, 3, "no memory");
        expect(answered(255, 1, 1), "another answer", "no memory");
        expect(memcmp(now[STATE], after, sizeof after) == 0, "another state", "no memory");
    }
    c.n = 0;
    perform(RUN, &c, 3, "n = 0");
    expect(answered(0, 0, 0) && as_given(&c, STATE), "something was done", "n = 0");
    printf("self-test: a memory and a landing list of no byte, n = 0\n");
}

/* The state as it stands goes into the next call. */
static void go_on(void) {
    memcpy(state, now[STATE], VEX_STATE_BYTES);
}

/* One register of the state: its value, waiting value, busy and landing. */
static int holds(size_t offset, uint32_t value, uint32_t waiting, uint8_t busy, uint8_t landing) {
    const uint8_t *r = now[STATE] + offset;
    return vex_word(r + VEX_REGISTER_VALUE) == value && vex_word(r + VEX_REGISTER_WAITING) == waiting &&
           r[VEX_REGISTER_BUSY] == busy && r[VEX_REGISTER_LANDING] == landing;
}

/* A product with delay 2 under both landings, beside a branch register of cluster 2 that the host wrote into the image in flight. */
static void test_image(void) {
    static const uint32_t words[] = {0xD8042802, 0xC0040000}; /* mpyll r1 = r2 * 2; stop */
    size_t product = VEX_STATE_GENERAL(0, 1), branch = VEX_STATE_BRANCH(2, 5);
    for (uint8_t byte = 0; byte <= 1; byte++) {
        struct call c = call_of(words, 2, 1);
        c.given[LANDING] = (struct bytes){&byte, 1};
        state[VEX_STATE_GENERAL(0, 2) + VEX_REGISTER_VALUE + 3] = 3;
        state[branch + VEX_REGISTER_WAITING + 3] = 1;
        state[branch + VEX_REGISTER_BUSY] = 2;
        state[branch + VEX_REGISTER_LANDING] = 1;
        perform(RUN, &c, 1, "the image");
        expect(answered(0, 1, 1), "another answer", "the image");
        expect(byte == 0 ? holds(product, 6, 0, 1, 0) : holds(product, 0, 6, 1, 1), "another product", "the image");
        expect(holds(branch, 1, 0, 1, 0), "another branch register", "the image");
        go_on();
        perform(RUN, &c, 1, "the image");
        expect(answered(255, 0, 1), "another answer", "at the stop");
        expect(holds(product, 6, 0, 0, 0) && holds(branch, 1, 0, 0, 0), "something has not landed", "at the stop");
    }
    printf("self-test: the image's layout, landing bytes, going on from a pause\n");
}

/* Whether the link register is this, and nothing else of the state but its place, this one, is other than it was given. */
static int linked(const struct call *c, uint8_t place, uint8_t link) {
    uint8_t after[VEX_STATE_BYTES];
    memcpy(after, c->given[STATE].at, sizeof after);
    after[VEX_STATE_PLACE + 3] = place;
    after[VEX_STATE_LINK + 3] = link;
    return memcmp(now[STATE], after, sizeof after) == 0;
}

/* A call and its return, one instruction a slice; then returns to places that start no instruction. */
static void test_link(void) {
    static const uint32_t words[] = {0xC0080003, 0x40000000, 0x80000000, 0xC00C0000}; /* call 3; two nops; return */
    struct call c = call_of(words, 4, 1);
    perform(RUN, &c, 2, "a call");
    expect(answered(0, 1, 3) && linked(&c, 3, 1), "another answer or state", "a call");
    go_on();
    perform(RUN, &c, 2, "a return");
    expect(answered(0, 1, 1) && linked(&c, 1, 1), "another answer or state", "a return");

    static const uint8_t links[] = {2, 4, 255};
    for (size_t i = 0; i < sizeof links; i++) {
        c = call_of(words, 4, 16);
        state[VEX_STATE_PLACE + 3] = 1;
        state[VEX_STATE_LINK + 3] = links[i];
        perform(RUN, &c, i, "a bad link");
        expect(answered(17, 1, 3) && linked(&c, 3, links[i]), "another answer or state", "a bad link");
        go_on();
        perform(RUN, &c, i, "a bad link again");
        expect(answered(17, 0, 3) && as_given(&c, STATE), "another answer or state", "a bad link again");
    }
    printf("self-test: the link register, returns to where no instruction starts\n");
}

static void test_states(void) {
    struct call c = call_of(cases[10].words, cases[10].count, 16);
    perform(RUN, &c, 5, "a fault");
    go_on();
    perform(RUN, &c, 5, "a fault again");
    expect(answered(13, 0, 1), "another answer", "a fault again");

    static const size_t wrong[] = {VEX_STATE_PLACE, VEX_STATE_GENERAL(3, 0), VEX_STATE_BRANCH(0, 0) + VEX_REGISTER_VALUE,
                                   VEX_STATE_GENERAL(1, 9) + VEX_REGISTER_WAITING, VEX_STATE_BRANCH(3, 7) + VEX_REGISTER_LANDING};
    for (size_t i = 0; i < sizeof wrong / sizeof wrong[0]; i++) {
        c = call_of(cases[0].words, cases[0].count, 16);
        state[wrong[i]] = 1;
        perform(RUN, &c, i, "a state that is not valid");
        expect(answered(10, 0, 0), "another answer", "a state that is not valid");
    }
    printf("self-test: a fault stands, states that are not valid\n");
}

/* A call of assemble: a text, and a program of so many bytes to write to. */
static struct call assemble_of(const char *text, size_t length, size_t lent) {
    struct call c = {.n = 0};
    memset(program, 0x5A, sizeof program);
    memset(room, 0x5A, sizeof room);
    c.given[TEXT] = (struct bytes){(uint8_t *)text, length};
    c.given[PROGRAM] = (struct bytes){program, lent};
    c.given[ROOM] = (struct bytes){room, VEX_ROOM_BYTES};
    return c;
}

/* Whether these syllables were written, and nothing behind them. */
static int wrote(const struct call *c, const uint32_t *words, size_t count) {
    for (size_t i = 0; i < count; i++)
        if (vex_word(now[PROGRAM] + 4 * i) != words[i]) return 0;
    return memcmp(now[PROGRAM] + 4 * count, c->given[PROGRAM].at + 4 * count, c->given[PROGRAM].length - 4 * count) == 0;
}

/* Texts with their answers, and where it is 0 their syllables; each with a program of exactly as many bytes, with more, and with fewer. */
static const struct {
    const char *name, *text;
    uint32_t answer[3];
    uint32_t words[6];
} texts[] = {
    {"the document's example", "c0 add $r0.3 = $r0.0, 5 ;;\nc0 stop\n", {0, 2, 0}, {0xC10C0805, 0xC0040000}},
    {"labels both ways", "a:\tc0 goto b+0*a ;; # there\r\nb:\tc0 br $b0.1, a ;;\n", {0, 2, 0}, {0xFD000001, 0xFE200000}},
    {"idle clusters", "c1 nop\nc3 mpyll $r3.1 = $r3.2, 0-1\n;;", {0, 4, 0}, {0x40000000, 0x40000000, 0x40000000, 0xD8042FFF}},
    {"sixteen brackets", "c0 goto ((((((((((((((((1-1))))))))))))))))", {0, 1, 0}, {0xFD000000}},
    {"seventeen brackets", "c0 goto (((((((((((((((((1-1)))))))))))))))))", {18, 0, 1}, {0}},
    {"an unknown operation", "c0 nop ;;\n\nc0 noop ;;\n", {18, 0, 3}, {0}},
    {"a label that is missing", "c0 nop ;;\nc0 goto a ;;\n", {19, 0, 2}, {0}},
    {"a label given twice", "a:\na: c0 nop ;;\n", {19, 0, 2}, {0}},
    {"a large immediate", "c0 nop ;;\nc0 add $r0.1 = $r0.1, 1024 ;;\n", {20, 0, 2}, {0}},
    {"a large number", "c0 goto 99999999999999999999 ;;\n", {20, 0, 1}, {0}},
    {"no operation", "a:\n# c0 nop ;;\n", {2, 0, 0}, {0}},
};

static void test_texts(void) {
    for (size_t i = 0; i < sizeof texts / sizeof texts[0]; i++) {
        const uint32_t *a = texts[i].answer;
        size_t bytes = 4 * (size_t)a[1];
        for (size_t shift = 0; shift < ALIGNMENTS; shift++)
            for (size_t lent = 0; lent <= bytes + 5; lent++) {
                struct call c = assemble_of(texts[i].text, strlen(texts[i].text), lent);
                perform(ASSEMBLE, &c, shift, texts[i].name);
                if (lent < bytes) expect(answered(2, 0, 0), "another answer for a short program", texts[i].name);
                else expect(answered(a[0], a[1], a[2]) && (a[0] != 0 || wrote(&c, texts[i].words, a[1])), "another answer", texts[i].name);
            }
    }
    printf("self-test: %d texts at %d alignments, programs of every length up to theirs and beyond\n", (int)(sizeof texts / sizeof texts[0]),
           ALIGNMENTS);
}

/* The longest program and one more syllable; every byte as a text; no byte at all; rooms of another length, which come last. */
static void test_assemble(void) {
    static char nops[9 * 4097 + 1];
    static uint32_t words[4096];
    static const char good[] = "c0 stop", bad[] = "c0 stop c0";
    static const size_t rooms[] = {0, 11, 13, 24};
    for (size_t i = 0; i < 4097; i++) memcpy(nops + 9 * i, "c0 nop;;\n", 10);
    for (size_t i = 0; i < 4096; i++) words[i] = 0xC0000000;
    for (uint32_t count = 4095; count <= 4097; count++) {
        struct call c = assemble_of(nops, 9 * (size_t)count, VEX_PROGRAM_BYTES_MAX);
        perform(ASSEMBLE, &c, count % ALIGNMENTS, "nops");
        expect(count <= 4096 ? answered(0, count, 0) && wrote(&c, words, count) : answered(2, 0, 0), "another answer", "nops");
    }
    for (int byte = 0; byte < 256; byte++) {
        char text = (char)byte;
        struct call c = assemble_of(&text, 1, VEX_PROGRAM_BYTES_MAX);
        int blank = byte == ' ' || byte == '\t' || byte == '\r' || byte == '\n' || byte == '#';
        perform(ASSEMBLE, &c, (size_t)byte % ALIGNMENTS, "a byte");
        expect(blank ? answered(2, 0, 0) : answered(18, 0, 1), "another answer", "a byte");
    }
    for (int null = 0; null <= 1; null++) {
        struct call c = assemble_of(null ? NULL : good, 0, VEX_PROGRAM_BYTES_MAX);
        perform(ASSEMBLE, &c, 1, "no text");
        expect(answered(2, 0, 0), "another answer", "no text");
        c = assemble_of(good, strlen(good), 0);
        if (null) c.given[PROGRAM].at = NULL;
        perform(ASSEMBLE, &c, 1, "no program");
        expect(answered(2, 0, 0), "another answer", "no program");
        for (size_t i = 0; i < sizeof rooms / sizeof rooms[0]; i++) {
            c = assemble_of(good, strlen(good), VEX_PROGRAM_BYTES_MAX);
            c.given[ROOM] = (struct bytes){null && rooms[i] == 0 ? NULL : room, rooms[i]};
            expect(perform(ASSEMBLE, &c, i, "another room") == 2, "another number", "another room");
            c.given[TEXT] = (struct bytes){(uint8_t *)bad, strlen(bad)};
            expect(perform(ASSEMBLE, &c, i, "text and room") == 18, "another number", "text and room");
        }
    }
    printf("self-test: 4,096 syllables and one more, every byte as a text, no text, no program, rooms of 0, 11, 13 and 24 bytes\n");
}

int self_test(void) {
    test_texts();
    test_assemble();
    test_cases();
    test_lengths();
    test_nothing();
    test_image();
    test_link();
    test_states();
    printf("self-test: %d calls, %d failures\n", calls, failures);
    return failures;
}
