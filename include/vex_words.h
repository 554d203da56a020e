/* Words for hosts: what the sandbox's numbers mean, and the cause behind each; vex_text_words.h has the causes of what assemble refuses. A help
 * that decides nothing: number and place are the library's, and these functions only look for what they can be put down to. Take vex_words.c
 * into any host; it wants vex.h, vex_say.h and the standard library, allocates nothing, keeps nothing, and takes any bytes. */
#ifndef VEX_WORDS_H
#define VEX_WORDS_H

#include "vex.h"

#ifdef __cplusplus
extern "C" {
#endif

/* What an answer room holds. */
struct vex_answer {
    uint32_t number, count, place;
};
struct vex_answer vex_read_room(const uint8_t room[VEX_ROOM_BYTES]);

/* The words of an answer's number; 2 has other words for each place. */
const char *vex_words(struct vex_answer answer);

/* What the call had. State and memory are run's, as the call left them; for load and check state_len and memory_len are 0. */
struct vex_given {
    const uint8_t *table, *program, *state;
    size_t table_len, program_len, state_len, memory_len;
};

/* Writes the cause of an answer of load, check or run as a C string, cut to size bytes; VEX_CAUSE_BYTES are enough. Returns its length: 0 if the
 * words say all (0, 2, 3, 255), or if what was given holds no cause, as when the room is of another call. Of two causes at one place it names
 * one. */
#define VEX_CAUSE_BYTES 256
size_t vex_cause(const struct vex_given *given, struct vex_answer answer, char *cause, size_t size);

/* One operation of an instruction. A register is its index in the image: 0 to 255 general, by cluster, then 256 to 287 branch;
 * VEX_NO_REGISTER where there is none, or it is register 0. */
#define VEX_NO_REGISTER 0
#define VEX_STATE_REGISTER(index) (4 + 10 * (index))
struct vex_operation {
    const char *name;
    uint32_t place, syllable, number; /* number: an immediate or offset, widened; or a target */
    unsigned opcode, cluster, opened; /* opened: clusters opened in this instruction, with this syllable */
    unsigned reads[3], results[2];    /* reads: s1; s2; b or the stored register. results: t or d; addcg's d */
    int reads_every;                  /* call and return: they read every register */
    unsigned bytes;                   /* of an access; else 0 */
    int last;                         /* bit 31 */
};

/* The operation at a place that is an instruction's first syllable; the one after it in the same instruction. 0 where there is none. */
int vex_first_operation(const struct vex_given *given, uint32_t place, struct vex_operation *operation);
int vex_next_operation(const struct vex_given *given, struct vex_operation *operation);

/* The address of a load or store, from the state before its instruction. */
uint32_t vex_address(const struct vex_given *given, const struct vex_operation *operation);

/* The delay of an operation's result in a register, under the table. */
unsigned vex_delay(const struct vex_given *given, const struct vex_operation *operation, unsigned register_index);

/* The name of a register, as "general register 3 of cluster 0". */
#define VEX_NAME_BYTES 40
const char *vex_register_name(unsigned register_index, char name[VEX_NAME_BYTES]);

/* The word at these four bytes. */
uint32_t vex_word(const uint8_t *at);

#ifdef __cplusplus
}
#endif

#endif
