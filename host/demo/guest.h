/*
 * guest.h - a guest of the demo: a workload on its own disk, and its own copy of what its memory and its disk must hold.
 */
#ifndef GUEST_H
#define GUEST_H

#include "disks.h"
#include "monitor.h"

#define WINDOW_SIZE 0x100000 /* 1 MiB, what a real-mode program can name */
#define TABLES 0x300         /* where its parameter tables are placed: below all packets, results and buffers of the demo */

struct workload;

struct guest {
    struct monitor *monitor;
    unsigned number;
    const struct workload *workload;
    uint64_t random;

    uint8_t *memory;          /* what its window must hold */
    uint8_t *disk;            /* what its disk must hold */
    const uint8_t *shared;    /* what the shared disk must hold */
    uint64_t written;         /* serial number of the blocks it has written */
    int placed;               /* the host has placed the parameter tables in its window */
    uint64_t followed;        /* pointers of 48h that it has followed to its disk's table */
    uint64_t without;         /* results of 48h whose pointer was FFFF:FFFF */
    uint64_t paths;           /* results of 48h of 74 bytes, of which it has read the device path */

    uint64_t stopped_reads;   /* reads that met a bad block of its disk: 10h, and the good blocks before it were read */
    uint64_t stopped_writes;  /* writes that did: CCh */
    uint64_t found;           /* 44h that found one: 10h */
    uint64_t went_on;         /* reads of what was left behind such a block */
    uint64_t left_start, left_blocks; /* what is left so of the last read by packet; its next request reads it */

    int failed;               /* it has seen something it must not; then it stops */
    char fault[160];          /* what that was */
};

/* The name of a guest's workload. */
const char *guest_workload(unsigned number);

/* Makes guest g. Its memory and its disk get contents of their own; the caller lays them into window and store. */
int guest_make(struct guest *g, struct monitor *monitor, unsigned number, uint64_t seed);
void guest_free(struct guest *g);

/* The host has placed the parameter tables for this guest: its copy of its memory gets what they must be. */
void guest_placed(struct guest *g);

/* Makes so many requests, checks each, and leaves the monitor. This is what a guest's thread runs. */
void guest_run(struct guest *g, uint64_t requests);

#endif
