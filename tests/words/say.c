/* Says answers in words, for tests/words.test. Standard input: for each answer nine words, 1 if it is assemble's and else 0, the lengths of text,
 * table, program, state and memory, then number, count and place; then the bytes of text, table, program and state. Standard output: a line each,
 * words, a tab, the cause, a tab, and of an assembled text the lines of the first syllables and of what is behind the last. */
#include <stdio.h>
#include <stdlib.h>

#include "vex_text_words.h"

/* As many bytes as it says and none more, so that the compiler's checks see a read beyond them. */
static uint8_t *taken(size_t length) {
    uint8_t *bytes = malloc(length > 0 ? length : 1);
    if (bytes == NULL || fread(bytes, 1, length, stdin) != length) exit(2);
    return bytes;
}

int main(void) {
    uint8_t head[36];
    while (fread(head, 1, sizeof head, stdin) == sizeof head) {
        uint32_t w[9];
        for (int i = 0; i < 9; i++) w[i] = vex_word(head + 4 * i);
        uint8_t *text = taken(w[1]), *table = taken(w[2]), *program = taken(w[3]), *state = taken(w[4]);
        struct vex_text written = {w[1] > 0 ? text : NULL, w[1], w[3]};
        struct vex_given given = {table, program, state, w[2], w[3], w[4], w[5]};
        struct vex_answer answer = {w[6], w[7], w[8]};
        char cause[VEX_CAUSE_BYTES];
        for (size_t size = 0; size <= sizeof cause; size += size < 20 ? 20 : sizeof cause - 20) { /* none, cut, whole */
            size_t length = w[0] ? vex_text_cause(&written, answer, cause, size) : vex_cause(&given, answer, cause, size);
            if (size == sizeof cause && length + 1 >= size) printf("too long: ");
        }
        printf("%s\t%s\t", vex_words(answer), cause);
        for (uint32_t place = 0; w[0] && answer.number == VEX_GOOD && place <= answer.count && place < 9; place++)
            printf("%s%lu", place > 0 ? " " : "", (unsigned long)vex_text_line(&written, place));
        printf("\n");
        free(text);
        free(table);
        free(program);
        free(state);
    }
    return 0;
}
