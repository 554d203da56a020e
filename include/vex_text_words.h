/* Words for hosts that assemble: the cause behind what vex_assemble refuses, in the terms of docs/NOTATION.md, and the line that a syllable comes
 * from. A help that decides nothing, as vex_words.h: number and line are the library's. Take vex_text_words.c and vex_words.c into any host; they
 * allocate nothing, keep nothing, take any bytes, and their time goes by the text's length. */
#ifndef VEX_TEXT_WORDS_H
#define VEX_TEXT_WORDS_H

#include "vex_words.h"

#ifdef __cplusplus
extern "C" {
#endif

/* What the call had: the text, and the length of the program that was lent. */
struct vex_text {
    const uint8_t *text;
    size_t text_len, program_len;
};

/* Writes the cause of an answer of vex_assemble as a C string, cut to size bytes; VEX_CAUSE_BYTES are enough. Returns its length: 0 if the words say
 * all (0; 2 with place 3), or if the text holds no cause of that number at that line. Of two causes on one line it names one. */
size_t vex_text_cause(const struct vex_text *given, struct vex_answer answer, char *cause, size_t size);

/* The line, from 1, of the operation that has become the syllable at a place; a nop that fills an idle cluster belongs to the operation after
 * it. 0 where there is none. */
size_t vex_text_line(const struct vex_text *given, uint32_t place);

#ifdef __cplusplus
}
#endif

#endif
