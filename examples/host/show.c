/* What is printed of a refusal, a fault and the registers. The words and the causes are those of include/vex_words.c and vex_text_words.c. */
#include <stdio.h>
#include <string.h>

#include "host.h"

static struct vex_text text_of(const struct machine *m) {
    struct vex_text t = {m->text.at, m->text.length, VEX_PROGRAM_BYTES_MAX};
    return t;
}

/* A line of the text under its file's name, without its blanks and comment; an odd byte as a question mark. */
static void say_line(const struct machine *m, size_t line) {
    enum { SHOWN = 100 };
    const uint8_t *at = m->text.at, *end = at + m->text.length, *newline;
    printf("%s:%lu: ", m->name, (unsigned long)line);
    while (line-- > 1 && (newline = memchr(at, '\n', (size_t)(end - at))) != NULL) at = newline + 1;
    while (at < end && (*at == ' ' || *at == '\t')) at++;
    size_t length = 0, shown = 0;
    for (; at + length < end && length < SHOWN && at[length] != '\n' && at[length] != '#'; length++)
        if (at[length] != ' ' && at[length] != '\t' && at[length] != '\r') shown = length + 1;
    for (size_t i = 0; i < shown; i++) putchar(at[i] == '\t' ? ' ' : at[i] < ' ' || at[i] > '~' ? '?' : at[i]);
    printf("\n");
}

/* A place, the syllables from it to the end of its instruction, and of a text the line where the instruction begins. */
static void say_place(const char *name, uint32_t place, const struct machine *m) {
    struct vex_text text = text_of(m);
    printf("  %s: syllable %lu (byte %lu):", name, (unsigned long)place, 4 * (unsigned long)place);
    for (size_t at = 4 * (size_t)place; at + 4 <= m->program.length; at += 4) {
        uint32_t syllable = vex_word(m->program.at + at);
        printf(" %08lX", (unsigned long)syllable);
        if (syllable >> 31) break;
    }
    printf("\n");
    if (m->text.at == NULL) return;
    printf("    ");
    say_line(m, vex_text_line(&text, place));
}

void say_refusal(const char *entry, struct vex_answer answer, const struct machine *m) {
    const char *verb = answer.number < VEX_IN_FLIGHT ? "refuses" : "faults";
    struct vex_given given = given_of(m);
    char cause[VEX_CAUSE_BYTES];

    printf("%s %s, number %lu: %s\n", entry, verb, (unsigned long)answer.number, vex_words(answer));
    if (vex_cause(&given, answer, cause, sizeof cause) > 0) printf("  cause: %s\n", cause);
    if (answer.number == VEX_TOO_SOON) {
        say_place("producer", answer.count, m);
        say_place("consumer", answer.place, m);
    } else if (answer.number > VEX_BAD_LENGTH && answer.number != VEX_BAD_STATE) {
        say_place("place", answer.place, m);
    }
}

void say_text_refusal(struct vex_answer answer, const struct machine *m) {
    struct vex_text text = text_of(m);
    char cause[VEX_CAUSE_BYTES];

    printf("assemble refuses, number %lu: %s\n", (unsigned long)answer.number, vex_words(answer));
    if (vex_text_cause(&text, answer, cause, sizeof cause) > 0) printf("  cause: %s\n", cause);
    if (answer.number == VEX_BAD_LENGTH) return;
    printf("  place: ");
    say_line(m, answer.place);
}

void say_registers(const struct machine *m) {
    for (unsigned r = 0; r < 288; r++) {
        const uint8_t *cell = m->state.at + VEX_STATE_REGISTER(r);
        uint32_t value = vex_word(cell + VEX_REGISTER_VALUE), waiting = vex_word(cell + VEX_REGISTER_WAITING);
        unsigned busy = cell[VEX_REGISTER_BUSY], landing = cell[VEX_REGISTER_LANDING];
        char name[VEX_NAME_BYTES];
        if (value == 0 && waiting == 0 && busy == 0 && landing == 0) continue;
        printf("  %s: value %08lX", vex_register_name(r, name), (unsigned long)value);
        if (busy > 0) printf(", busy %u", busy);
        if (landing > 0) printf(", landing %u, waiting %08lX", landing, (unsigned long)waiting);
        printf("\n");
    }
    unsigned long link = vex_word(m->state.at + VEX_STATE_LINK);
    if (link != 0) printf("  link register: value %08lX, syllable %lu\n", link, link);
}
