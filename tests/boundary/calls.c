#include "calls.h"

#include <string.h>

void put_word(uint8_t *at, uint32_t word) {
    for (int i = 0; i < 4; i++) at[i] = (uint8_t)(word >> (24 - 8 * i));
}

uint32_t word_at(const uint8_t *at) {
    return (uint32_t)at[0] << 24 | (uint32_t)at[1] << 16 | (uint32_t)at[2] << 8 | at[3];
}

void begin_table(struct call *c, unsigned clusters) {
    static const uint8_t counts[] = {4, 4, 2, 1, 1}, delays[] = {1, 2, 2, 3, 1};
    c->table_len = 0;
    c->table[c->table_len++] = (uint8_t)clusters;
    for (unsigned i = 0; i < clusters; i++, c->table_len += sizeof counts) memcpy(c->table + c->table_len, counts, sizeof counts);
    memcpy(c->table + c->table_len, delays, sizeof delays);
    c->table_len += sizeof delays;
}

void begin(struct call *c) {
    memset(c, 0, sizeof *c);
    begin_table(c, 4);
    c->state_len = VEX_STATE_BYTES;
    c->memory_len = 64;
    c->room_len = VEX_ROOM_BYTES;
    c->n = 16;
}

void put(struct call *c, uint32_t syllable) {
    put_word(c->program + c->program_len, syllable);
    c->program_len += 4;
}

void begin_text(struct call *c, const char *text) {
    begin(c);
    c->text = text;
    c->program_len = VEX_PROGRAM_BYTES_MAX;
}

uint32_t perform(struct call *c, enum entry entry) {
    memset(c->room, 0x5A, sizeof c->room);
    if (entry == ASSEMBLE)
        return vex_assemble((const uint8_t *)c->text, strlen(c->text), c->program, c->program_len, c->room, c->room_len);
    if (entry == LOAD) return vex_load(c->table, c->table_len, c->program, c->program_len, c->room, c->room_len);
    if (entry == CHECK) return vex_check(c->table, c->table_len, c->program, c->program_len, c->room, c->room_len);
    return vex_run(c->table, c->table_len, c->program, c->program_len, c->state, c->state_len, c->memory, c->memory_len, NULL, 0, c->n, c->room,
                   c->room_len);
}

int answers(struct call *c, enum entry entry, uint32_t number, uint32_t count, uint32_t place) {
    uint32_t returned = perform(c, entry);
    return returned == number && word_at(c->room + VEX_ROOM_NUMBER) == number && word_at(c->room + VEX_ROOM_COUNT) == count &&
           word_at(c->room + VEX_ROOM_PLACE) == place;
}
