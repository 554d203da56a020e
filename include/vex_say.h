/* What vex_words.c and vex_text_words.c share; a host needs nothing of it. */
#ifndef VEX_SAY_H
#define VEX_SAY_H

#include <stdarg.h>
#include <stddef.h>
#include <stdio.h>

/* A C string that is written piece by piece and cut to its size. */
struct text {
    char *at;
    size_t size, length;
};

static void say(struct text *t, const char *format, ...) {
    va_list list;
    va_start(list, format);
    int more = t->length < t->size ? vsnprintf(t->at + t->length, t->size - t->length, format, list) : 0;
    va_end(list);
    if (more > 0) t->length += (size_t)more;
    if (t->length >= t->size) t->length = t->size > 0 ? t->size - 1 : 0;
}

#endif
