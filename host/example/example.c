/*
 * Three guests on threads of their own, each on its own drive, use the monitor of monitor.c: each writes forty blocks from its
 * memory (03h), reads them back to another place (02h), and compares; and each asks for a drive that does not exist.
 */
#include <stdio.h>
#include <string.h>

#include "monitor.h"

enum { GUESTS = 3, WINDOW = 65536, DRIVE_BLOCKS = 64, COUNT = 40, FROM = 0x0400, TO = 0x8000 };

static uint8_t arena[EDD_GUESTS * WINDOW], store[GUESTS * DRIVE_BLOCKS * EDD_BLOCK_SIZE];
static struct monitor monitor;

struct guest {
    unsigned number;
    const char *fault; /* what it found wrong */
};

/* The table: three drives of 64 blocks, 4 cylinders of 1 head and 16 sectors, one after the other in the store. */
static size_t make_table(uint8_t *table)
{
    static const uint8_t drive[68] = { [0] = 68, [2] = 1, [16] = DRIVE_BLOCKS, [34] = 4, [36] = 1, [38] = 16,
                                       [40] = 'P', 'C', 'I', [44] = 'A', 'T', 'A' };
    static const uint8_t end[4] = { 4 };
    for (unsigned i = 0; i < GUESTS; i++) {
        memcpy(table + i * sizeof drive, drive, sizeof drive);
        table[i * sizeof drive + 24] = (uint8_t)(i * DRIVE_BLOCKS); /* its first block */
    }
    memcpy(table + GUESTS * sizeof drive, end, sizeof end);
    return GUESTS * sizeof drive + sizeof end;
}

/* A transfer of a guest: forty blocks from cylinder 1, head 0, sector 1 of its own drive on. The result is AH. */
static int transfer(unsigned guest, unsigned function, unsigned drive, unsigned offset)
{
    struct registers r = { .ax = (uint16_t)(function << 8 | COUNT), .bx = (uint16_t)offset, .cx = 0x0101, .dx = (uint16_t)drive };
    if (monitor_int13(&monitor, guest, &r) != EDD_DONE)
        return -1;
    return r.ax >> 8;
}

/* What a guest's thread runs. */
static void *run(void *guest)
{
    struct guest *g = guest;
    unsigned number = g->number, drive = 0x80 + number;
    uint64_t start, length;
    edd_window(sizeof arena, number, &start, &length);
    uint8_t *memory = arena + start;

    for (unsigned i = 0; i < COUNT * EDD_BLOCK_SIZE; i++)
        memory[FROM + i] = (uint8_t)(i * 7 + i / EDD_BLOCK_SIZE + number);
    if (transfer(number, 0x03, drive, FROM) != 0)
        g->fault = "the write was refused";
    else if (transfer(number, 0x02, drive, TO) != 0)
        g->fault = "the read was refused";
    else if (memcmp(memory + FROM, memory + TO, COUNT * EDD_BLOCK_SIZE) != 0)
        g->fault = "it read something else than it wrote";
    else if (transfer(number, 0x02, 0x80 + GUESTS, TO) != EDD_AH_BAD_PARAMETER)
        g->fault = "a drive that does not exist was not refused";
    return NULL;
}

int main(void)
{
    uint8_t table[EDD_TABLE_SIZE_MAX];
    uint64_t place = 0;
    pthread_t threads[GUESTS];
    struct guest guests[GUESTS];
    int bad = 0;

    uint32_t answer = monitor_open(&monitor, table, make_table(table), arena, sizeof arena, store, sizeof store, &place);
    if (answer != EDD_DONE) {
        printf("example: edd_open answers %u, place %llu\n", (unsigned)answer, (unsigned long long)place);
        return 1;
    }
    for (unsigned g = 0; g < GUESTS; g++) {
        guests[g] = (struct guest){ g, NULL };
        if (pthread_create(&threads[g], NULL, run, &guests[g]) != 0)
            return 1;
    }
    for (unsigned g = 0; g < GUESTS; g++)
        pthread_join(threads[g], NULL);
    for (unsigned g = 0; g < GUESTS; g++) {
        printf("guest %u: %s\n", g, guests[g].fault ? guests[g].fault : "read back what it wrote");
        bad += guests[g].fault != NULL;
    }
    monitor_close(&monitor);
    return bad != 0;
}
