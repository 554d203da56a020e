/* Calls for the tests of the C boundary: the slices of one call, programs syllable by syllable, answers. */
#ifndef CALLS_H
#define CALLS_H

#include <stddef.h>
#include <stdint.h>

#include "vex.h"

enum entry { LOAD, CHECK, RUN, ASSEMBLE };

/* The slices of one call, with room for lengths beyond each limit. The text is assemble's, a C string. */
struct call {
    const char *text;
    uint8_t table[64], program[20000], state[4096], memory[70000], room[64];
    size_t table_len, program_len, state_len, memory_len, room_len;
    uint32_t n;
};

/* A call with nothing wrong but that it has no program yet: a table of 4 clusters, a state of zeros, 64 bytes of memory, n = 16. */
void begin(struct call *c);

/* The table of so many clusters: each 4 wide, 4 ALU, 2 MUL, 1 MEM, 1 COPY; delays ALU 1, CMPB 2, MUL 2, LOAD 3, COPY 1. */
void begin_table(struct call *c, unsigned clusters);

/* One more syllable. */
void put(struct call *c, uint32_t syllable);

/* A call of assemble with nothing wrong: the text, and the longest program. */
void begin_text(struct call *c, const char *text);

void put_word(uint8_t *at, uint32_t word);
uint32_t word_at(const uint8_t *at);

/* Performs the call and returns its number; the room's bytes were 0x5A before. */
uint32_t perform(struct call *c, enum entry entry);

/* Whether the call returns this number and the room gets it, with this count and place. */
int answers(struct call *c, enum entry entry, uint32_t number, uint32_t count, uint32_t place);

/* Syllables, as document 01 lays them out. */
#define END (UINT32_C(1) << 31)
#define OPENS (UINT32_C(1) << 30)
#define OPERATION(opcode, t, s1, low) ((uint32_t)(opcode) << 24 | (uint32_t)(t) << 18 | (uint32_t)(s1) << 12 | (uint32_t)(low))
#define IMMEDIATE(value) (UINT32_C(1) << 11 | ((uint32_t)(value) & 0x7FF))
#define NOP UINT32_C(0)
#define STOP OPERATION(0, 1, 0, 0)
#define CALL(target) OPERATION(0, 2, 0, target)
#define RETURN OPERATION(0, 3, 0, 0)
#define ADD(t, s1, low) OPERATION(1, t, s1, low)
#define MPYLL(t, s1, low) OPERATION(24, t, s1, low)
#define SLCT(t, s1, s2, b) OPERATION(50, t, s1, (uint32_t)(b) << 9 | (uint32_t)(s2))
#define LDW(t, s1, offset) OPERATION(52, t, s1, offset)
#define STW(source, s1, offset) OPERATION(57, source, s1, offset)
#define GOTO(target) (UINT32_C(61) << 24 | (uint32_t)(target))
#define BR(b, target) (UINT32_C(62) << 24 | (uint32_t)(b) << 21 | (uint32_t)(target))

#endif
