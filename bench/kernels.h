/* The programs and the texts that are timed. */
#ifndef KERNELS_H
#define KERNELS_H

#include <stddef.h>
#include <stdint.h>

struct kernel {
    const uint8_t *table;
    size_t table_len;
    uint8_t program[16384];
    size_t program_len;
};

/* One cluster, two syllables an instruction: a loop that fills bytes. */
const struct kernel *narrow_kernel(void);

/* Two clusters, eight syllables an instruction: a loop with loads, products, stores and a copy. */
const struct kernel *wide_kernel(void);

/* One cluster, 4,096 syllables, four an instruction, with a product and a load in each. */
const struct kernel *full_kernel(void);

/* One cluster, one syllable an instruction: a loop of calls, each with its return; and the same loop with an add for each of them. */
const struct kernel *calls_kernel(void);
const struct kernel *adds_kernel(void);

struct text {
    char bytes[600000];
    size_t len;
};

/* 4,096 operations and as many syllables, one or two an instruction, one a line; 1,000 labels, each named by one goto; some 100 KB. */
const struct text *labels_text(void);

/* The same with a comment line of 100 bytes above each line: 400 KB more. */
const struct text *comments_text(void);

#endif
