/* A frame as an image: PGM, and PNG beside it, grey, without compression. */
#include <errno.h>
#include <stdio.h>
#include <stdlib.h>
#include <string.h>

#include "host.h"

static void write_file(const char *name, const void *head, size_t head_length, const void *data, size_t length) {
    FILE *file = fopen(name, "wb");
    if (file == NULL) fail(NO_FILE, name, strerror(errno));
    size_t written = fwrite(head, 1, head_length, file) + fwrite(data, 1, length, file);
    if (fclose(file) != 0 || written != head_length + length) fail(NO_FILE, name, "cannot be written");
}

static uint8_t *put_word(uint8_t *at, uint32_t v) {
    for (int i = 0; i < 4; i++) at[i] = (uint8_t)(v >> (24 - 8 * i));
    return at + 4;
}

/* Ends a chunk of a PNG that begins at `from` with four bytes for its length. */
static uint8_t *end_chunk(uint8_t *from, uint8_t *at) {
    uint32_t crc = 0xFFFFFFFF;
    put_word(from, (uint32_t)(at - from - 8));
    for (const uint8_t *p = from + 4; p < at; p++) {
        crc ^= *p;
        for (int k = 0; k < 8; k++) crc = crc >> 1 ^ (crc & 1 ? 0xEDB88320 : 0);
    }
    return put_word(at, ~crc);
}

static uint8_t *begin_chunk(uint8_t *at, const char *name) {
    memcpy(at + 4, name, 4);
    return at + 8;
}

/* The lines, each after a byte 0, in one block a line that is stored as it is. */
static uint8_t *put_lines(uint8_t *at, const struct options *o, const uint8_t *frame) {
    uint32_t a = 1, b = 0, length = (uint32_t)o->width + 1;
    *at++ = 0x78;
    *at++ = 0x01;
    for (unsigned long y = 0; y < o->height; y++) {
        uint8_t head[] = {y + 1 == o->height, (uint8_t)length, (uint8_t)(length >> 8), (uint8_t)~length, (uint8_t)(~length >> 8), 0};
        memcpy(at, head, sizeof head);
        memcpy(at + sizeof head, frame + y * o->width, o->width);
        for (uint32_t i = 0; i < length; i++) {
            a = (a + at[5 + i]) % 65521;
            b = (b + a) % 65521;
        }
        at += 5 + length;
    }
    return put_word(at, b << 16 | a);
}

static void write_png(const char *name, const struct options *o, const uint8_t *frame) {
    static const uint8_t signature[8] = {0x89, 'P', 'N', 'G', '\r', '\n', 0x1A, '\n'};
    uint8_t *png = zeros(100 + o->height * (o->width + 6)).at, *from = png, *at;
    at = begin_chunk(from, "IHDR");
    at = put_word(put_word(at, (uint32_t)o->width), (uint32_t)o->height);
    memcpy(at, "\10\0\0\0\0", 5); /* 8 bits, grey */
    from = end_chunk(from, at + 5);
    from = end_chunk(from, put_lines(begin_chunk(from, "IDAT"), o, frame));
    at = end_chunk(from, begin_chunk(from, "IEND"));
    write_file(name, signature, sizeof signature, png, (size_t)(at - png));
    free(png);
}

void write_frame(const struct options *o, unsigned long slice, const uint8_t *frame) {
    char name[FILENAME_MAX], head[50];
    int length = snprintf(name, sizeof name, "%s-%03lu.pgm", o->out, slice);
    if (length < 0 || (size_t)length >= sizeof name) fail(BAD_USE, "--out", "is too long");
    int head_length = snprintf(head, sizeof head, "P5\n%lu %lu\n255\n", o->width, o->height);
    write_file(name, head, (size_t)head_length, frame, o->width * o->height);
    printf("; %s", name);
    memcpy(name + length - 3, "png", 3);
    write_png(name, o, frame);
}
