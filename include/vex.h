/* The preview sandbox for C and C++: four calls that assemble, load, check and run an effect. docs/MACHINE.md has the machine and the encoding,
 * docs/NOTATION.md the text that is assembled; vex_words.h and vex_text_words.h have words for the numbers and the causes behind them.
 *
 * Slices. A slice is a pointer and a length in bytes. The pointer stands for that many bytes, readable, and writable for state, memory, room and
 * the program that is assembled. No two slices of one call overlap. Alignment is free. A pointer may be null where its length is 0. The proofs begin
 * at the slices: alignment and null pointers are tried by the example host's self-test, with every slice, and no proof covers them.
 *
 * Words. Numbers inside slices are 4 bytes, highest byte first. A place is a syllable's index: byte offset 4 * place of the program; of 18, 19 and
 * 20 it is a line of the text, from 1.
 *
 * Nothing is kept between calls: what an effect is doing stands in the state image and the memory, both the host's own. The library has no
 * data of its own that it writes, so threads that share no slice they write may call at once. No call asks anything more of its caller:
 * every other input is answered.
 *
 * Start and restart. An effect starts from a state image of zeros; its memory is what the host puts there, zeros or data of its own. To restart
 * means to do both again: the effect's stores stay in the memory until the host clears it. To move an effect to another process is to hand over
 * state and memory.
 *
 * Cost. Load, check and run test table and program from the beginning: about 10 microseconds for a small effect and under a millisecond for 4,096
 * syllables (check: some milliseconds), as measured on one x86-64 machine with the kit before rattle-kit-13f. An instruction takes up to about a
 * microsecond, the widest most, so n bounds the time of a call: n = 10,000 took about 1 to 10 milliseconds, and n = 0xFFFFFFFF may take more than an
 * hour. A call cannot be broken off; use slices. To assemble took 20 to 90 microseconds for a small effect, and 5 milliseconds for 4,096 operations
 * with 1,000 labels in half a megabyte of text. Labels beyond the first 4,096 of a text are searched for one by one: 262,144 bytes of nothing but
 * labels took 20 seconds, so a host that takes texts from anybody bounds their length.
 *
 * Link. The archive needs memcpy and memset of the system and nothing else; no call allocates, opens a file, or uses a thread.
 */
#ifndef VEX_H
#define VEX_H

#include <stddef.h>
#include <stdint.h>

#ifdef __cplusplus
extern "C" {
#endif

/* This interface. It goes up by one when a call, a number, a layout or a constant changes its meaning. */
#define VEX_VERSION 3

/* Stack that a call may use, with room to spare: VEX_ASSEMBLE_STACK_BYTES for vex_assemble, which keeps the labels of a text there, and
 * VEX_STACK_BYTES for the others. On x86-64 the most that was measured is 30,888 bytes, in run, and 91,832 in assemble. On Arm and other processors
 * nothing was measured, as the archive is for x86-64 alone; it is assumed that a library made for them uses at most twice as much. */
#if defined(__x86_64__)
#define VEX_STACK_BYTES 32768
#define VEX_ASSEMBLE_STACK_BYTES 131072
#else
#define VEX_STACK_BYTES 65536
#define VEX_ASSEMBLE_STACK_BYTES 262144
#endif

/* The delay table. Byte 0: the cluster count C. Then 5 bytes for each cluster: width (syllables an instruction), and how many ALU, MUL, MEM
 * and COPY operations an instruction may have there; a copy counts in both of its clusters. Then 5 delays: ALU, CMPB, MUL, LOAD, COPY. */
#define VEX_TABLE_BYTES(clusters) (6 + 5 * (clusters))
#define VEX_CLUSTERS_MAX 4 /* from 1 */
#define VEX_WIDTH_MAX 8    /* from 1 */
#define VEX_ALU_MAX 8      /* from 0 */
#define VEX_UNITS_MAX 4    /* from 0; MUL, MEM and COPY each */
#define VEX_DELAY_MAX 8    /* from 1 */

/* The program: 1 to 4,096 syllables, each a word. Bit 31 ends an instruction, bit 30 starts a cluster. */
#define VEX_SYLLABLE_BYTES 4
#define VEX_PROGRAM_BYTES_MAX 16384

/* The memory: 0 to 65,536 bytes, address 0 first. */
#define VEX_MEMORY_BYTES_MAX 65536

/* The answer room: number, count, place, a word each. A room of any other length is never written. */
#define VEX_ROOM_BYTES 12
#define VEX_ROOM_NUMBER 0
#define VEX_ROOM_COUNT 4
#define VEX_ROOM_PLACE 8

/* The state image: the place, a word; then the 64 general registers of cluster 0, of cluster 1, 2 and 3; then the 8 branch registers of
 * each; then the link register, a word. All are there whatever the table says. An effect starts from an image of zeros. A register has 10 bytes:
 * value and waiting value, a word each; busy and landing, a byte each. VEX_STATE_GENERAL and VEX_STATE_BRANCH give the offset of a register.
 * The link register is no such register: it is never in flight. The operation call sets it to the place after its instruction, at once and
 * without a landing byte, and goes to its target; the operation return goes to the link register's place and leaves it as it is. No other
 * operation reads or changes it, so after a call inside a subroutine its return goes to the instruction after the inner call. */
#define VEX_STATE_BYTES 2888
#define VEX_STATE_PLACE 0
#define VEX_STATE_GENERAL(cluster, number) (4 + 10 * (64 * (cluster) + (number)))
#define VEX_STATE_BRANCH(cluster, number) (2564 + 10 * (8 * (cluster) + (number)))
#define VEX_STATE_LINK 2884
#define VEX_REGISTER_VALUE 0
#define VEX_REGISTER_WAITING 4
#define VEX_REGISTER_BUSY 8
#define VEX_REGISTER_LANDING 9
#define VEX_BUSY_MAX 7

/* The numbers. 1 to 10 are each tested over the whole input before the next, and the lowest place is named; 11 to 14 and 17 are met as the effect
 * runs, in one instruction 11 first, then 17, then 12 and 13 syllable by syllable, then 14. 18 to 20 are assemble's, for the lowest line that has
 * one of them, and of that line the lowest number; its 2 comes after them. Good and paused are both 0: which one it is goes by the call. 15 and 16
 * are never given; 16 is the text program's number for a bad line. In brackets: what the place is. */
enum {
    VEX_GOOD = 0,            /* assemble, load, check: nothing is wrong [0] */
    VEX_PAUSED = 0,          /* run: n instructions are done, and no stop was met [the one to come] */
    VEX_BAD_TABLE = 1,       /* the table breaks a limit [0] */
    VEX_BAD_LENGTH = 2,      /* a length is wrong [0 program, 1 memory, 2 state, 3 room; the first in this order]; assemble: the text has no
                                syllable, more than 4,096, or more than the program holds [0], or as above [3] */
    VEX_NO_END = 3,          /* the last syllable lacks bit 31 [it] */
    VEX_BAD_BITS = 4,        /* opcode 0 is no nop, stop, call or return, or a bit that should be zero is set [the syllable] */
    VEX_BAD_CLUSTER = 5,     /* an instruction's first syllable lacks bit 30; more clusters are opened than the table has; control (stop, call,
                                return, goto, br, brf) stands outside cluster 0; a copy is from its own cluster or from one the table has
                                not [the syllable] */
    VEX_TOO_WIDE = 6,        /* a cluster has more syllables than its width or more of a class than its count; or there are two control
                                syllables [the instruction's first syllable] */
    VEX_TWO_WRITES = 7,      /* an instruction names one register, not register 0, twice as destination [its first syllable] */
    VEX_BAD_CONTROL = 8,     /* a target, call's too, is no instruction's first syllable; a stop or a return has company [the control
                                syllable]; the last instruction has neither goto, stop nor return [its first syllable] */
    VEX_TOO_SOON = 9,        /* check only: a register is read or written while a result for it may be in flight; an instruction with call or
                                return counts as if it read every register [first syllables: the producer's in the count's field, the
                                consumer's in the place's] */
    VEX_BAD_STATE = 10,      /* run: the state image is not valid [0]. It is valid if its place is an instruction's first syllable, general
                                register 0 of each cluster is all zero, landing <= busy <= 7, waiting is 0 where landing is 0, and branch
                                registers hold, and wait for, 0 or 1; the link register may be any word. What run leaves is always valid */
    VEX_IN_FLIGHT = 11,      /* run: a register that is busy is read or is a destination; or, in an instruction with call or return, any
                                register at all is busy, also of a cluster the table has not [11 to 14 and 17: the instruction's first syllable] */
    VEX_MISALIGNED = 12,     /* run: an address is no multiple of the access size */
    VEX_OUT_OF_BOUNDS = 13,  /* run: an access ends beyond the memory */
    VEX_STORES_CLASH = 14,   /* run: two stores of one instruction share a byte */
    VEX_BAD_LINK = 17,       /* run: at a return, the link register is not the place of an instruction's first syllable */
    VEX_BAD_TEXT = 18,       /* assemble: a line is not in the notation; its operation is of a lower cluster than the one before it in the
                                instruction; its label or its ;; stands where none may [18 to 20: the line, from 1] */
    VEX_BAD_LABEL = 19,      /* assemble: a line gives a label that a line above it gives, or names one that no line gives */
    VEX_BAD_VALUE = 20,      /* assemble: a number, a label or a step of an expression leaves -2^31 to 2^31 - 1, or the expression's value does
                                not fit its field */
    VEX_STOPPED = 255        /* run: the effect is at a stop [the stop] */
};

/* Assembles: reads a text in the notation of docs/NOTATION.md and writes its syllables, as vex_load takes them. Gives 0, 18 to 20, then 2; which
 * clusters and units there are is no question here, and no table is asked.
 *   text      read; any bytes, any number of them
 *   program   written with the syllables, 4 bytes each; as many may be written as it has whole words, and VEX_PROGRAM_BYTES_MAX bytes are
 *             always enough. What is behind the syllables stays as it was, and all of it under every number but 0
 *   room      written with number, count and place: 0, how many syllables were written, 0; or, refused, the number, 0 and the place
 * Returns the number, also where the room cannot be written. */
uint32_t vex_assemble(const uint8_t *text, size_t text_len, uint8_t *program, size_t program_len, uint8_t *room, size_t room_len);

/* Loads: says whether the program is one under this table. Gives 0 to 8; under 2 it tests program and room.
 *   table, program   read
 *   room             written with number, count 0 and place; a good load gives 0, 0, 0
 * Returns the number, also where the room cannot be written. */
uint32_t vex_load(const uint8_t *table, size_t table_len, const uint8_t *program, size_t program_len, uint8_t *room, size_t room_len);

/* Loads and checks the schedule: 0 to 8 as vex_load, then 9. Everything else as for vex_load. Of a program that passes, run in one call from a
 * valid image in which every busy is 0, as one of zeros: it never gives 11, and number, count, place and memory are the same whatever the landing
 * bytes are; so are the registers, the link register among them, once everything in flight has landed. */
uint32_t vex_check(const uint8_t *table, size_t table_len, const uint8_t *program, size_t program_len, uint8_t *room, size_t room_len);

/* Runs at most n instructions from where the state stands. Gives 0 to 8, 10 to 14, 17 and 255; the schedule is not checked.
 *   table, program   read
 *   state            the image; written with where the effect stands
 *   memory           written by the effect's stores
 *   landing          read: the i-th result of this call, by instruction and syllable (addcg: sum, then carry), those to register 0
 *                    not counted, has landed when 1 + (byte i modulo its delay) instructions are done, its own the first of them; past
 *                    the end of the list it takes its whole delay. Any length is good, and 0 is the usual one
 *   n                how many instructions at most; a stop, though not counted, is met only before n is used up; with n = 0 everything
 *                    is tested and nothing changes
 *   room             written with number, how many instructions were executed in this call, and place
 * Returns the number, also where the room cannot be written. State and memory after the call:
 *   0                n instructions are done; call again to go on
 *   255              all before the stop are done and everything has landed; the stop is not counted, and the place stays at it
 *   11 to 14, 17     all before the faulting instruction are done, nothing of it is; a further call with n above 0 faults at the same place
 *   1 to 8, 10       state and memory are as they were, and the count is 0 */
uint32_t vex_run(const uint8_t *table, size_t table_len, const uint8_t *program, size_t program_len, uint8_t *state, size_t state_len,
                 uint8_t *memory, size_t memory_len, const uint8_t *landing, size_t landing_len, uint32_t n, uint8_t *room, size_t room_len);

#ifdef __cplusplus
}
#endif

#endif
