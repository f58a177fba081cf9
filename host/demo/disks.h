/*
 * disks.h - the eight disks of the demo in one store, and the drive table that says where they lie.
 */
#ifndef DISKS_H
#define DISKS_H

#include <stddef.h>
#include <stdint.h>

#include "edd_desk.h"

struct disk {
    uint16_t cylinders, heads;
    uint8_t sectors;
    uint64_t first, blocks;    /* in the store; the blocks past the geometry are reached by packets only */
    uint16_t flags;            /* information flags; bit 3: 43h may be asked to verify; bits 4 to 6 count with bit 2 */
    uint8_t is_protected;
    const char *bus, *interface;
    uint64_t unit;             /* the last eight bytes of its device path, which only a record of kind 2 has; 0: it is of kind 1 */
    const char *parameters;    /* the 14 bytes of its record of kind 4; NULL where it has none */
    unsigned bad_count;        /* how many of its blocks are bad; 0 where it has no record of kind 3 */
    uint64_t bad[EDD_BAD_BLOCKS];
};

/*
 * Disk g is drive 80h + g. The last one is protected, one is worn, and one has a record of kind 2. Between the disks the store has
 * blocks that belong to nobody.
 */
extern const struct disk disks[EDD_DRIVES];

#define STORE_BLOCKS 127000
#define SHARED_DISK 7
#define WORN_DISK 4
#define FIBRE_DISK 6 /* of kind 2: its device path names a port, and then a logical unit */
#define PARAMETERS 14

/* Lays out the drive table of the eight disks and returns its length. */
size_t disks_table(uint8_t table[EDD_TABLE_SIZE_MAX]);

/*
 * Starts a process that sends this table through a pipe, piece by piece, as a launcher may get it. Returns the end to read
 * from, or -1 with errno. The process has ended when all is read, or ends after the reading end was closed: wait for it.
 */
int disks_send(void);

/* How many of so many blocks of a disk, from one on, come before the first that is bad; all of them if none is. */
uint64_t disk_good(const struct disk *disk, uint64_t start, uint64_t blocks);

/* Little-endian words, as tables, packets and results have them. */
void put_word(uint8_t *at, unsigned bytes, uint64_t value);

#endif
