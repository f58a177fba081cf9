#include "place.h"

#include <stdio.h>
#include <stdlib.h>
#include <string.h>

void expect(int good, const char *what)
{
    if (good)
        return;
    fprintf(stderr, "bench: wrong answer: %s\n", what);
    exit(1);
}

static void put_word(uint8_t *at, unsigned bytes, uint64_t value)
{
    for (unsigned i = 0; i < bytes; i++)
        at[i] = (uint8_t)(value >> (8 * i));
}

size_t place_table(uint8_t table[EDD_TABLE_SIZE_MAX], unsigned drives, unsigned attached, size_t store_length)
{
    uint64_t blocks = store_length / EDD_BLOCK_SIZE / EDD_DRIVES;
    size_t record = attached & WIDE ? EDD_RECORD_SIZE_WIDE : EDD_RECORD_SIZE;
    uint8_t *at = table;
    memset(table, 0, EDD_TABLE_SIZE_MAX);
    for (unsigned i = 0; i < drives; i++) {
        put_word(at + 0, 2, record);
        put_word(at + 2, 2, attached & WIDE ? 2 : 1);
        put_word(at + 16, 8, blocks);
        put_word(at + 24, 8, blocks * i);
        put_word(at + 34, 2, 2); /* C, H, S of 128 blocks, whatever the size of the drive */
        put_word(at + 36, 2, 2);
        at[38] = 32;
        memcpy(at + 40, "PCI", 3);
        memcpy(at + 44, "ATA", 3);
        memset(at + 60, (int)i + 1, record - 60); /* device path */
        at += record;
        if (attached & BAD_BLOCKS) {
            put_word(at + 0, 2, 6 + 8 * EDD_BAD_BLOCKS);
            put_word(at + 2, 2, 3);
            put_word(at + 4, 2, i);
            for (unsigned j = 0; j < EDD_BAD_BLOCKS; j++)
                put_word(at + 6 + 8 * j, 8, blocks - EDD_BAD_BLOCKS + j);
            at += 6 + 8 * EDD_BAD_BLOCKS;
        }
        if (attached & PARAMETERS) {
            put_word(at + 0, 2, 20);
            put_word(at + 2, 2, 4);
            put_word(at + 4, 2, i);
            memset(at + 6, (int)i + 1, 14);
            at += 20;
        }
    }
    put_word(at, 2, 4);
    return (size_t)(at - table) + 4;
}

void place_open(struct place *p, const struct service *s, unsigned drives, unsigned attached, uint8_t *arena, size_t arena_length,
                uint8_t *store, size_t store_length)
{
    uint8_t table[EDD_TABLE_SIZE_MAX];
    size_t length = place_table(table, drives, attached, store_length);
    uint64_t at = 0;
    p->arena = arena;
    p->arena_length = arena_length;
    p->store = store;
    p->store_length = store_length;
    p->drives = drives;
    expect(s->open(p->desk, sizeof p->desk, table, length, arena_length, store_length, &at) == EDD_DONE, "open");
}

struct registers place_packet(struct place *p, unsigned function, unsigned guest, unsigned drive, unsigned count, uint64_t buffer,
                              uint64_t start)
{
    uint8_t *packet = p->arena + p->arena_length / EDD_GUESTS * guest + PACKET;
    struct registers r = { 0 };
    put_word(packet + 0, 2, 16);
    put_word(packet + 2, 2, count);
    put_word(packet + 4, 2, buffer % 16);
    put_word(packet + 6, 2, buffer / 16);
    put_word(packet + 8, 8, start);
    r.ax = (uint16_t)(function << 8);
    r.dx = (uint16_t)(0x80 + drive);
    r.si = PACKET;
    return r;
}
