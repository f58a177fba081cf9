#include "disks.h"

#include <string.h>
#include <unistd.h>

#define NO_BAD 0, { 0 }

const struct disk disks[EDD_DRIVES] = {
    /* C, H, S        first   blocks  flags   protected      unit   record of kind 4: ports 1F0h and 3F6h, IRQ 14, and so on */
    { 306, 4, 17,         3,  20808, 0x0000, 0, "ISA", "ATA", 0, "\xf0\x01\xf6\x03\x00\xcb\x0e\x00\x00\x04\x00\x00\x00\x00", NO_BAD },
    { 80, 2, 18,      20811,   2880, 0x0000, 0, "ISA", "ATA", 0, NULL, NO_BAD }, /* touches the disk before it */
    { 40, 16, 63,     23700,  40960, 0x0078, 0, "PCI", "SCSI", 0, NULL, NO_BAD }, /* not removable: bits 4 to 6 mean nothing */
    { 20, 16, 63,     64660,  20480, 0x0002, 0, "PCI", "ATA", 0, "\x70\x01\x76\x03\x50\x07\x0f\x01\x22\x03\x31\x00\x00\x00", NO_BAD },
    { 17, 7, 33,      86000,   4000, 0x000a, 0, "PCI", "1394", 0, NULL, /* worn: single blocks, neighbours, and the last of all */
      16, { 7, 250, 251, 777, 1023, 1024, 1039, 1500, 1900, 2222, 2500, 2750, 3000, 3500, 3926, 3999 } },
    { 33, 5, 61,     110000,  10100, 0x0008, 0, "PCI", "USB", 0, NULL, NO_BAD },
    { 64, 2, 32,     120111,   4401, 0x0000, 0, "PCI", "FIBRE", 0x8877665544332211, "any bytes here", NO_BAD },
    { 80, 2, 15,     124590,   2400, 0x0034, 1, "PCI", "ATAPI", 0, NULL, NO_BAD },
};

uint64_t disk_good(const struct disk *disk, uint64_t start, uint64_t blocks)
{
    for (unsigned i = 0; i < disk->bad_count; i++)
        if (disk->bad[i] >= start && disk->bad[i] - start < blocks)
            return disk->bad[i] - start; /* they are in ascending order, so this is the first */
    return blocks;
}

void put_word(uint8_t *at, unsigned bytes, uint64_t value)
{
    for (unsigned i = 0; i < bytes; i++)
        at[i] = (uint8_t)(value >> (8 * i));
}

/* One drive's record, document 01, "The drive table", or of kind 2, change request 2026-06. Returns its length. */
static size_t put_drive(uint8_t *at, const struct disk *disk)
{
    size_t length = disk->unit ? EDD_RECORD_SIZE_WIDE : EDD_RECORD_SIZE;
    memset(at, 0, length);
    put_word(at + 0, 2, length);
    put_word(at + 2, 2, disk->unit ? 2 : 1);
    put_word(at + 4, 4, disk->cylinders); /* physical geometry: the same here */
    put_word(at + 8, 4, disk->heads);
    put_word(at + 12, 4, disk->sectors);
    put_word(at + 16, 8, disk->blocks);
    put_word(at + 24, 8, disk->first);
    put_word(at + 32, 2, disk->flags);
    put_word(at + 34, 2, disk->cylinders);
    put_word(at + 36, 2, disk->heads);
    at[38] = disk->sectors;
    at[39] = disk->is_protected;
    memcpy(at + 40, disk->bus, strlen(disk->bus));
    memcpy(at + 44, disk->interface, strlen(disk->interface));
    put_word(at + 52, 8, disk->first); /* interface and device path may hold anything */
    put_word(at + 60, 8, ~disk->first);
    if (disk->unit)
        put_word(at + 68, 8, disk->unit);
    return length;
}

/* The record of kind 3 behind it, change request 2026-04. Returns its length. */
static size_t put_bad_blocks(uint8_t *at, const struct disk *disk)
{
    size_t length = 6 + 8 * (size_t)disk->bad_count;
    put_word(at + 0, 2, length);
    put_word(at + 2, 2, 3);
    put_word(at + 4, 2, (uint64_t)(disk - disks));
    for (unsigned i = 0; i < disk->bad_count; i++)
        put_word(at + 6 + 8 * i, 8, disk->bad[i]);
    return length;
}

/* The record of kind 4 behind that, change request 2026-01. */
static void put_parameters(uint8_t *at, const struct disk *disk)
{
    put_word(at + 0, 2, 20);
    put_word(at + 2, 2, 4);
    put_word(at + 4, 2, (uint64_t)(disk - disks));
    memcpy(at + 6, disk->parameters, PARAMETERS);
}

size_t disks_table(uint8_t table[EDD_TABLE_SIZE_MAX])
{
    size_t length = 0;
    for (unsigned i = 0; i < EDD_DRIVES; i++) {
        length += put_drive(table + length, &disks[i]);
        if (disks[i].bad_count)
            length += put_bad_blocks(table + length, &disks[i]);
        if (disks[i].parameters) {
            put_parameters(table + length, &disks[i]);
            length += 20;
        }
    }
    put_word(table + length, 4, 4); /* the end record: length 4, kind 0 */
    return length + 4;
}

/* In pieces of 1, 2, 3 bytes and so on: they end anywhere in a record, and some hold the end of one and more. */
static void send_table(int to)
{
    uint8_t table[EDD_TABLE_SIZE_MAX];
    size_t length = disks_table(table);
    for (size_t at = 0, piece = 1; at < length; at += piece, piece++) {
        if (piece > length - at)
            piece = length - at;
        if (write(to, table + at, piece) != (ssize_t)piece)
            _exit(1);
    }
    _exit(0);
}

int disks_send(void)
{
    int ends[2];
    if (pipe(ends) != 0)
        return -1;
    pid_t sender = fork();
    if (sender == 0) {
        close(ends[0]);
        send_table(ends[1]);
    }
    close(ends[1]);
    if (sender < 0) {
        close(ends[0]);
        return -1;
    }
    return ends[0];
}
