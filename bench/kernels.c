/* The programs that are timed, syllable by syllable, and the texts, line by line. */
#include "kernels.h"

#include <stdio.h>
#include <string.h>

static const uint8_t one_cluster[] = {1, 4, 4, 2, 1, 0, 1, 2, 2, 3, 1};
static const uint8_t two_clusters[] = {2, 4, 4, 2, 1, 1, 4, 4, 2, 1, 1, 1, 2, 2, 3, 1};

enum { ADD = 1, SUB = 2, AND = 3, OR = 5, XOR = 7, SHL = 8, SH2ADD = 12, MAXU = 16, MPYLL = 24, MPYLHU = 27, MPYHH = 28, CMPEQ = 30 };
enum { CMPLT_B = 42, LDW = 52, LDBU = 56, STW = 57, STB = 59, COPY = 60, GOTO = 61, BR = 62 };

/* Marks of a syllable: it starts a cluster, it ends an instruction. */
#define START (1u << 30)
#define END (1u << 31)

/* An operation: t, s1, and bits 11..0, which are s2's register, an immediate, an offset, or copy's cluster. */
#define OP(opcode, t, s1, low) ((uint32_t)(opcode) << 24 | (uint32_t)(t) << 18 | (uint32_t)(s1) << 12 | (uint32_t)(low))
#define IMMEDIATE(value) (1u << 11 | ((uint32_t)(value)&0x7FF))
#define JUMP(opcode, bit, target) ((uint32_t)(opcode) << 24 | (uint32_t)(bit) << 21 | (uint32_t)(target))
#define CALL(target) (2u << 18 | (uint32_t)(target))
#define RETURN (3u << 18)

static void append(struct kernel *k, const uint32_t *words, size_t count) {
    for (size_t i = 0; i < 4 * count; i++) k->program[k->program_len++] = (uint8_t)(words[i / 4] >> (24 - 8 * (i % 4)));
}

const struct kernel *narrow_kernel(void) {
    static struct kernel k = {one_cluster, sizeof one_cluster, {0}, 0};
    static const uint32_t words[] = {
        START | OP(ADD, 1, 1, IMMEDIATE(1)),  END | OP(CMPLT_B, 0, 1, IMMEDIATE(1000)), /* the address, and whether to go on */
        START | OP(ADD, 2, 2, IMMEDIATE(5)),  END | OP(XOR, 3, 3, 2),                   /* the colour */
        START | OP(STB, 3, 1, 0),             END | JUMP(BR, 0, 0),
        START | OP(ADD, 1, 0, IMMEDIATE(-1)), END | JUMP(GOTO, 0, 0),
    };
    append(&k, words, sizeof words / sizeof words[0]);
    return &k;
}

const struct kernel *wide_kernel(void) {
    static struct kernel k = {two_clusters, sizeof two_clusters, {0}, 0};
    static const uint32_t words[] = {
        /* loads and products start */
        START | OP(LDW, 3, 1, 0), OP(MPYLL, 4, 7, 8), OP(MPYHH, 5, 7, 8), OP(CMPLT_B, 0, 1, IMMEDIATE(1000)),
        START | OP(LDW, 3, 1, 1024), OP(MPYLL, 4, 7, 8), OP(MPYLHU, 5, 7, 8), END | OP(XOR, 9, 9, 10),
        /* meanwhile, other work */
        START | OP(ADD, 10, 10, IMMEDIATE(1)), OP(SUB, 11, 10, 12), OP(SH2ADD, 12, 10, 11), OP(AND, 13, 10, 11),
        START | OP(COPY, 6, 10, 0), OP(ADD, 10, 10, IMMEDIATE(3)), OP(MAXU, 11, 10, 12), END | OP(SHL, 12, 10, IMMEDIATE(3)),
        /* the products are there */
        START | OP(ADD, 7, 4, IMMEDIATE(7)), OP(XOR, 8, 5, 10), OP(OR, 14, 4, 5), OP(ADD, 15, 15, IMMEDIATE(2)),
        START | OP(ADD, 7, 4, 6), OP(SUB, 8, 5, 10), OP(OR, 14, 4, 5), END | OP(ADD, 15, 15, IMMEDIATE(2)),
        /* the loaded words are there */
        START | OP(STW, 7, 1, 0), OP(ADD, 1, 1, IMMEDIATE(4)), OP(XOR, 16, 16, 3), JUMP(BR, 0, 0),
        START | OP(STW, 7, 1, 1024), OP(ADD, 1, 1, IMMEDIATE(4)), OP(XOR, 16, 16, 3), END | OP(ADD, 17, 17, 16),
        /* again from the first address */
        START | OP(ADD, 1, 0, IMMEDIATE(0)), JUMP(GOTO, 0, 0), START | END | OP(ADD, 1, 0, IMMEDIATE(0)),
    };
    append(&k, words, sizeof words / sizeof words[0]);
    return &k;
}

const struct kernel *full_kernel(void) {
    static struct kernel k = {one_cluster, sizeof one_cluster, {0}, 0};
    for (uint32_t i = 0; i < 1023; i++) {
        const uint32_t words[] = {
            START | OP(MPYLL, 1 + i % 20, 60, 61),
            OP(LDBU, 21 + i % 20, 0, i),
            OP(ADD, 60, 60, IMMEDIATE(i % 64)),
            END | OP(CMPEQ, 41 + i % 10, 60, 61),
        };
        append(&k, words, 4);
    }
    static const uint32_t last[] = {START | OP(ADD, 61, 61, IMMEDIATE(1)), OP(XOR, 62, 60, 61), OP(OR, 63, 60, 61), END | JUMP(GOTO, 0, 0)};
    append(&k, last, 4);
    return &k;
}

enum { CALLS = 32 }; /* so many that the goto of the loop hardly counts */

const struct kernel *calls_kernel(void) {
    static struct kernel k = {one_cluster, sizeof one_cluster, {0}, 0};
    static const uint32_t a_call = START | END | CALL(CALLS + 1), last[] = {START | END | JUMP(GOTO, 0, 0), START | END | RETURN};
    for (int i = 0; i < CALLS; i++) append(&k, &a_call, 1);
    append(&k, last, 2);
    return &k;
}

const struct kernel *adds_kernel(void) {
    static struct kernel k = {one_cluster, sizeof one_cluster, {0}, 0};
    static const uint32_t an_add = START | END | OP(ADD, 1, 1, IMMEDIATE(1)), last = START | END | JUMP(GOTO, 0, 0);
    for (int i = 0; i < 2 * CALLS; i++) append(&k, &an_add, 1);
    append(&k, &last, 1);
    return &k;
}

enum { LABELS = 1000, NOPS = 95 }; /* with four operations a label, and a stop, 4,096 */

/* Of 100 bytes. */
static const char comment[] = "## one step of the loop: what was read in the step before is added, and the next byte is being read\n";

static void write_line(struct text *t, int comments, const char *line) {
    if (comments) {
        memcpy(t->bytes + t->len, comment, sizeof comment - 1);
        t->len += sizeof comment - 1;
    }
    memcpy(t->bytes + t->len, line, strlen(line));
    t->len += strlen(line);
}

static void write_text(struct text *t, int comments) {
    char line[100];
    for (unsigned i = 0; i < LABELS; i++) {
        snprintf(line, sizeof line, "label_%u:  c0 add $r0.%u = $r0.%u, %u ;;\n", i, 1 + i % 60, 2 + i % 60, i % 8);
        write_line(t, comments, line);
        snprintf(line, sizeof line, " c0 ldw $r0.%u = %u[$r0.2]\n", 3 + i % 60, i % 64);
        write_line(t, comments, line);
        snprintf(line, sizeof line, " c0 goto label_%u ;;\n", (467 * i + 512) % LABELS); /* each once: 467 and LABELS have no factor in common */
        write_line(t, comments, line);
        write_line(t, comments, " c0 nop ;;\n");
    }
    for (int i = 0; i < NOPS; i++) write_line(t, comments, " c0 nop ;;\n");
    write_line(t, comments, " c0 stop ;;\n");
}

const struct text *labels_text(void) {
    static struct text t;
    write_text(&t, 0);
    return &t;
}

const struct text *comments_text(void) {
    static struct text t;
    write_text(&t, 1);
    return &t;
}
