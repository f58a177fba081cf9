#include "guest.h"

#include <stdarg.h>
#include <stdio.h>
#include <stdlib.h>
#include <string.h>

/* ---- workloads */

enum kind { CHS_READ, CHS_WRITE, PACKET_READ, PACKET_WRITE, VERIFY, SEEK, ASK, WRONG, SHARED_READ, KINDS };

struct workload {
    const char *name;
    unsigned share[KINDS];    /* how often each kind comes, of their sum */
    unsigned most;            /* blocks of a request, at most */
    unsigned withdraws;       /* how many of a hundred requests it would rather withdraw */
};

static const struct workload workloads[EDD_GUESTS] = {
    /*             02h 03h 42h 43h 44h 47h ask wrong shared  most withdraws */
    { "boot",     { 40, 25,  0,  0,  0,  0, 10,  2,  0 },      8,  0 },
    { "log",      {  0,  0, 10, 60, 10,  5,  2,  2,  0 },      4,  0 },
    { "solver",   {  0,  0, 45, 45,  2,  2,  2,  1,  0 },    127,  0 },
    { "tracks",   { 45, 45,  0,  0,  0,  0,  3,  2,  0 },    128,  0 },
    { "worn",     { 20, 20, 20, 20,  8,  5,  5,  5,  0 },    128,  0 },
    { "hasty",    { 20, 20, 25, 25,  2,  2,  2,  2,  0 },    100, 50 },
    { "reader",   { 20,  5, 20,  5,  2,  2,  2,  1, 30 },     40,  0 },
    { "protected",{ 30, 15, 30, 15,  5,  5,  5, 10,  0 },     64,  0 },
};

const char *guest_workload(unsigned number)
{
    return workloads[number].name;
}

/* ---- small help */

/* The splitmix64 generator: short, and each guest has its own state. */
static uint64_t next_random(struct guest *g)
{
    uint64_t z = (g->random += 0x9e3779b97f4a7c15u);
    z = (z ^ (z >> 30)) * 0xbf58476d1ce4e5b9u;
    z = (z ^ (z >> 27)) * 0x94d049bb133111ebu;
    return z ^ (z >> 31);
}

/* A number from low to high, both included. */
static uint64_t between(struct guest *g, uint64_t low, uint64_t high)
{
    return low + next_random(g) % (high - low + 1);
}

static void fail(struct guest *g, const char *format, ...)
{
    va_list arguments;
    if (g->failed)
        return;
    g->failed = 1;
    va_start(arguments, format);
    vsnprintf(g->fault, sizeof g->fault, format, arguments);
    va_end(arguments);
}

static void set_ah(struct registers *r, unsigned ah)
{
    r->ax = (uint16_t)(ah << 8 | (r->ax & 0xff));
}

static void set_al(struct registers *r, unsigned al)
{
    r->ax = (uint16_t)((r->ax & 0xff00) | al);
}

/* One of the many segment:offset pairs of an address in the window. */
static void as_pair(struct guest *g, uint64_t address, uint16_t *segment, uint16_t *offset)
{
    uint64_t paragraphs = address >> 4;
    uint64_t moved = between(g, paragraphs > 0xffff ? paragraphs - 0xffff : 0, paragraphs < 0xfff ? paragraphs : 0xfff);
    *segment = (uint16_t)(paragraphs - moved);
    *offset = (uint16_t)(16 * moved + (address & 15));
}

/* Blocks that say who wrote them and when; no two are the same. */
static void fill_blocks(struct guest *g, uint8_t *at, uint64_t blocks)
{
    for (uint64_t i = 0; i < blocks; i++, at += EDD_BLOCK_SIZE) {
        uint64_t word = ++g->written << 8 | g->number;
        for (unsigned k = 0; k < EDD_BLOCK_SIZE; k += 8) {
            memcpy(at + k, &word, 8);
            word = word * 6364136223846793005u + 1442695040888963407u;
        }
    }
}

/* ---- one request */

/* A part of the window. */
struct part {
    uint64_t at, length;
};

struct request {
    struct registers given;
    struct registers wanted;  /* what must come back, if it is not withdrawn */
    struct part laid[2];      /* what the guest has put into its memory for this request */
    unsigned parts;
    uint64_t packet;          /* where the packet lies; 0 for none */
    int counts;               /* the refusal writes the packet's count word: 0, or for 44h the good blocks */
    uint64_t count;
    uint8_t result[74];       /* what 48h lays over the start of the first part */
    unsigned result_length;

    int write;                /* the blocks to be moved: to the disk, or from it */
    uint64_t first;           /* the store block of the first of them */
    uint8_t *disk;            /* their place in the guest's copy of its disk; NULL when the disk is another's */
    const uint8_t *contents;  /* what they hold there */
    uint64_t blocks, buffer;
    uint64_t good;            /* of the blocks, how many come before the first bad one */
    int patience;
};

static void lay(struct request *q, uint64_t at, uint64_t length)
{
    q->laid[q->parts].at = at;
    q->laid[q->parts].length = length;
    q->parts++;
}

/* Registers with arbitrary values, so that a change to one that the answer does not name shows. Carry on the way in is not read. */
static struct request begin(struct guest *g, unsigned function)
{
    struct request q;
    memset(&q, 0, sizeof q);
    uint64_t any = next_random(g), more = next_random(g);
    q.given = (struct registers){
        (uint16_t)any, (uint16_t)(any >> 16), (uint16_t)(any >> 32), (uint16_t)(any >> 48),
        (uint16_t)more, (uint16_t)(more >> 16), (uint16_t)(more >> 32), (uint16_t)(more >> 63),
    };
    set_ah(&q.given, function);
    q.given.dx = (uint16_t)((q.given.dx & 0xff00) | (0x80 + g->number));
    q.patience = -1;
    return q;
}

/* What the registers must be if the request succeeds, or is refused with a code. */
static void want(struct request *q, unsigned code)
{
    q->wanted = q->given;
    set_ah(&q->wanted, code);
    q->wanted.carry = code != 0;
}

/* Compares a part of the window, up to the end of the window, with the guest's copy. */
static void compare(struct guest *g, const uint8_t *window, uint64_t at, uint64_t length, const char *what)
{
    if (length > WINDOW_SIZE - at)
        length = WINDOW_SIZE - at;
    if (memcmp(window + at, g->memory + at, length) != 0)
        fail(g, "%s at %05llx is not what it must be", what, (unsigned long long)at);
}

/* What the guest has written in its memory goes into its window. */
static void lay_down(struct guest *g, const struct request *q, uint8_t *window)
{
    for (unsigned i = 0; i < q->parts; i++)
        memcpy(window + q->laid[i].at, g->memory + q->laid[i].at, q->laid[i].length);
}

/* Repeats on the guest's own copies what the request has done to its memory and its disk. */
static void follow(struct guest *g, struct request *q, struct outcome outcome)
{
    uint64_t moved = outcome.moved;
    if (moved > q->blocks)
        moved = q->blocks; /* check_answer finds that */
    if (q->write && q->disk)
        memcpy(q->disk, g->memory + q->buffer, moved * EDD_BLOCK_SIZE);
    else if (moved)
        memcpy(g->memory + q->buffer, q->contents, moved * EDD_BLOCK_SIZE);
    if (q->counts || (outcome.ending == FINISHED && q->packet && q->good < q->blocks))
        put_word(g->memory + q->packet + 2, 2, q->counts ? q->count : q->good); /* after the data, and so on top of it */
    if (q->result_length)
        memcpy(g->memory + q->laid[0].at, q->result, q->result_length);
    if (outcome.ending == WITHDRAWN) {
        want(q, EDD_AH_WITHDRAWN);
        if (q->packet)
            put_word(g->memory + q->packet + 2, 2, moved);
        else
            set_al(&q->wanted, (unsigned)moved);
    }
}

/*
 * The number moved, and the registers. The guest, unlike the monitor, knows how many blocks it asked for, and which are bad:
 * each turn moves sixteen of them, and only the last may move fewer, or none where it meets a bad one.
 */
static void check_answer(struct guest *g, const struct request *q, const struct registers *r, struct outcome o)
{
    uint64_t turns = q->good < q->blocks ? q->good / EDD_TURN_BLOCKS + 1 : (q->blocks + EDD_TURN_BLOCKS - 1) / EDD_TURN_BLOCKS;
    int good = o.ending == FINISHED    ? q->blocks != 0 && o.moved == q->good && o.services == turns
               : o.ending == WITHDRAWN ? o.moved < q->blocks && o.moved == o.services * EDD_TURN_BLOCKS
                                       : o.moved == 0 && (q->blocks == 0 || q->wanted.carry);
    if (!good)
        fail(g, "AH=%02x: %llu blocks moved of %llu in %llu turns", q->given.ax >> 8, (unsigned long long)o.moved,
             (unsigned long long)q->blocks, (unsigned long long)o.services);
    if (memcmp(r, &q->wanted, sizeof *r) != 0)
        fail(g, "AH=%02x: AX %04x carry %u, not AX %04x carry %u, or another register changed", q->given.ax >> 8, r->ax,
             r->carry, q->wanted.ax, q->wanted.carry);
}

/* Compares the blocks that the request names with what the store must hold. Those that it has not moved must be as before. */
static void compare_disk(struct guest *g, const struct request *q)
{
    if (q->blocks && memcmp(g->monitor->store + q->first * EDD_BLOCK_SIZE, q->contents, q->blocks * EDD_BLOCK_SIZE) != 0)
        fail(g, "AH=%02x: blocks of the store from %llu on are not what they must be", q->given.ax >> 8,
             (unsigned long long)q->first);
}

/*
 * Makes the request and checks everything that came back. While no request of its own waits the guest uses its window
 * without the lock, whatever calls run for others. The store is looked at under the lock.
 */
static void make(struct guest *g, struct request *q)
{
    struct monitor *m = g->monitor;
    uint8_t *window = monitor_window(m, g->number);
    struct registers r = q->given;

    lay_down(g, q, window);
    monitor_lock(m);
    struct outcome outcome = monitor_int13(m, g->number, &r, q->patience);
    follow(g, q, outcome);
    compare_disk(g, q);
    int all = m->guest[g->number].requests % 256 == 0;
    monitor_unlock(m);

    /* Does the window hold the same? 16 bytes on either side of a buffer are looked at as well. */
    for (unsigned i = 0; i < q->parts; i++)
        compare(g, window, q->laid[i].at, q->laid[i].length, "its packet, result or data");
    if (q->blocks && !q->write)
        compare(g, window, q->buffer - 16, q->blocks * EDD_BLOCK_SIZE + 32, "what it read");
    if (all)
        compare(g, window, 0, WINDOW_SIZE, "its memory");
    check_answer(g, q, &r, outcome);
}

/* ---- the parts of a request */

/* Somewhere below the buffers: a packet or a result. */
static uint64_t low_place(struct guest *g)
{
    return between(g, 0x500, 0x7f00);
}

/* A buffer of so many blocks, anywhere above the packets. It may be odd and may cross a 64 KiB border. */
static uint64_t buffer_place(struct guest *g, uint64_t blocks)
{
    return between(g, 0x8010, WINDOW_SIZE - blocks * EDD_BLOCK_SIZE);
}

static uint64_t pick_blocks(struct guest *g, uint64_t most)
{
    if (most > g->workload->most)
        most = g->workload->most;
    return between(g, 0, 3) == 0 ? most : between(g, 1, most);
}

/* After how many of its parts a request is withdrawn; mostly never. */
static int pick_patience(struct guest *g, uint64_t blocks)
{
    if (between(g, 1, 100) > g->workload->withdraws)
        return -1;
    return (int)between(g, 0, blocks / EDD_TURN_BLOCKS);
}

static void lay_packet(struct guest *g, struct request *q, unsigned size, uint64_t count, uint64_t buffer, uint64_t start)
{
    uint8_t *packet = g->memory + q->packet;
    uint16_t segment, offset;

    as_pair(g, buffer, &segment, &offset);
    packet[0] = (uint8_t)size;
    packet[1] = (uint8_t)next_random(g); /* ignored */
    put_word(packet + 2, 2, count);
    put_word(packet + 4, 2, offset);
    put_word(packet + 6, 2, segment);
    put_word(packet + 8, 8, start);
    lay(q, q->packet, 16);
    as_pair(g, q->packet, &q->given.ds, &q->given.si);
}

/* Blocks of a disk, from start on, move to or from the buffer. */
static void transfer(struct guest *g, struct request *q, unsigned drive, uint64_t start, uint64_t blocks, uint64_t buffer)
{
    q->blocks = blocks;
    q->buffer = buffer;
    q->good = disk_good(&disks[drive], start, blocks);
    q->first = disks[drive].first + start;
    if (drive == g->number)
        q->disk = g->disk + start * EDD_BLOCK_SIZE;
    q->contents = (drive == g->number ? g->disk : g->shared) + start * EDD_BLOCK_SIZE;
    if (q->write) {
        fill_blocks(g, g->memory + buffer, blocks);
        lay(q, buffer, blocks * EDD_BLOCK_SIZE);
    }
}

/*
 * A protected disk is not written: nothing moves, and the refusal is 03h. At a bad block the request ends with 10h or CCh, and
 * AL, or the count word, says how many blocks have moved.
 */
static void want_transfer(struct request *q, const struct disk *disk)
{
    if (q->write && disk->is_protected) {
        want(q, EDD_AH_WRITE_PROTECTED);
        q->counts = q->packet != 0;
        if (!q->packet)
            set_al(&q->wanted, 0);
    } else if (q->good < q->blocks) {
        want(q, q->write ? EDD_AH_WRITE_FAULT : EDD_AH_BAD_SECTOR);
        if (!q->packet)
            set_al(&q->wanted, (unsigned)q->good);
    } else {
        want(q, 0);
    }
}

/* As a program on a worn disk does: it counts what it met, and goes on behind the bad block with its next request. */
static void note_bad_block(struct guest *g, const struct request *q, uint64_t start)
{
    if (g->failed || q->good == q->blocks)
        return;
    if (q->write) {
        g->stopped_writes++;
        return;
    }
    g->stopped_reads++;
    if (q->packet) {
        g->left_start = start + q->good + 1;
        g->left_blocks = q->blocks - q->good - 1;
    }
}

/*
 * The address of a block of the guest's disk, from document 01's formula, block = (cylinder x H + head) x S + sector - 1. The
 * library must give the same.
 */
static void set_address(struct guest *g, struct request *q, const struct disk *disk, uint64_t block, unsigned sector_off)
{
    uint32_t sector = (uint32_t)(block % disk->sectors) + 1;
    uint32_t head = (uint32_t)(block / disk->sectors % disk->heads);
    uint32_t cylinder = (uint32_t)(block / disk->sectors / disk->heads);
    uint32_t c = 0, h = 0, s = 0, back = 0;
    if (edd_address(disk->cylinders, disk->heads, disk->sectors, block, &c, &h, &s) != EDD_DONE || c != cylinder ||
        h != head || s != sector)
        fail(g, "edd_address gives another address of block %llu", (unsigned long long)block);
    if (edd_block(disk->cylinders, disk->heads, disk->sectors, cylinder, head, sector, &back) != EDD_DONE || back != block)
        fail(g, "edd_block gives another block than %llu", (unsigned long long)block);
    q->given.cx = (uint16_t)((cylinder & 0xff) << 8 | (cylinder >> 8) << 6 | (sector - sector_off));
    q->given.dx = (uint16_t)(head << 8 | (q->given.dx & 0xff));
}

/* ---- the kinds of request */

/* 02h and 03h */
static void chs_transfer(struct guest *g, int write)
{
    const struct disk *disk = &disks[g->number];
    uint64_t size = (uint64_t)disk->cylinders * disk->heads * disk->sectors;
    struct request q = begin(g, write ? 0x03 : 0x02);
    uint64_t blocks = pick_blocks(g, 128);
    uint64_t start = between(g, 0, size - blocks);
    uint64_t buffer = buffer_place(g, blocks);

    q.write = write;
    q.patience = pick_patience(g, blocks);
    transfer(g, &q, g->number, start, blocks, buffer);
    set_al(&q.given, (unsigned)blocks);
    set_address(g, &q, disk, start, 0);
    as_pair(g, buffer, &q.given.es, &q.given.bx);
    want_transfer(&q, disk);
    make(g, &q);
    note_bad_block(g, &q, start);
}

/* 42h and 43h of those blocks; also of a disk that is not the guest's own, which is then read only */
static void packet_transfer_of(struct guest *g, int write, unsigned drive, uint64_t start, uint64_t blocks)
{
    const struct disk *disk = &disks[drive];
    struct request q = begin(g, write ? 0x43 : 0x42);
    uint64_t buffer = buffer_place(g, blocks);

    q.write = write;
    q.patience = pick_patience(g, blocks);
    q.packet = low_place(g);
    /* A read may put its data over its own packet, because the packet was read at the post and is not read again. A withdrawal,
     * or the turn that meets a bad block, then writes the number moved over the data. */
    if (!write && blocks && between(g, 1, 8) == 1)
        q.packet = buffer + between(g, 0, EDD_BLOCK_SIZE * blocks - 16);
    transfer(g, &q, drive, start, blocks, buffer);
    lay_packet(g, &q, (unsigned)between(g, 16, 255), blocks, buffer, start);
    q.given.dx = (uint16_t)((q.given.dx & 0xff00) | (0x80 + drive));
    if (write) /* AL: 0 and 1 write, 2 writes and verifies where the drive can */
        set_al(&q.given, (unsigned)between(g, 0, disk->flags & 0x08 ? 2 : 1));
    want_transfer(&q, disk);
    make(g, &q);
    note_bad_block(g, &q, start);
}

static void packet_transfer(struct guest *g, int write, unsigned drive)
{
    uint64_t blocks = between(g, 1, 50) == 1 ? 0 : pick_blocks(g, 127);
    packet_transfer_of(g, write, drive, between(g, 0, disks[drive].blocks - blocks), blocks);
}

/* Reads what a bad block left of a read. It may meet the next one. */
static void go_on(struct guest *g)
{
    uint64_t start = g->left_start, blocks = g->left_blocks;
    g->left_blocks = 0;
    g->went_on++;
    packet_transfer_of(g, 0, g->number, start, blocks);
}

/* 44h and 47h: a packet like that of a read, but nothing moves and no buffer is looked at */
static void packet_only(struct guest *g, unsigned function)
{
    const struct disk *disk = &disks[g->number];
    struct request q = begin(g, function);
    uint64_t count = between(g, 0, 127);
    uint64_t start = between(g, 0, disk->blocks - count - 1);

    q.packet = low_place(g);
    lay_packet(g, &q, 16, count, between(g, 0, WINDOW_SIZE - 1), start);
    want(&q, 0);
    q.count = disk_good(disk, start, count);
    if (function == 0x44 && q.count < count) { /* 47h does not heed bad blocks */
        want(&q, EDD_AH_BAD_SECTOR);
        q.counts = 1;
        g->found++;
    }
    make(g, &q);
}

/* Where the table of a disk lies in the guest's window, 0 if the guest finds none: those of the disks before it come first. */
static uint64_t table_of(const struct guest *g, const struct disk *disk)
{
    uint64_t at = TABLES;
    if (!g->placed || !disk->parameters)
        return 0;
    for (const struct disk *before = disks; before < disk; before++)
        if (before->parameters)
            at += 16;
    return at;
}

/* As a driver does: from the result of 48h in the window to the table, whose bytes sum to zero, and whose first are the disk's. */
static void follow_pointer(struct guest *g, uint64_t result, const struct disk *disk)
{
    const uint8_t *window = monitor_window(g->monitor, g->number), *pointer = window + result + 26;
    unsigned offset = pointer[0] | (unsigned)pointer[1] << 8, segment = pointer[2] | (unsigned)pointer[3] << 8;
    uint8_t sum = 0;

    if (!table_of(g, disk)) {
        if (offset != 0xffff || segment != 0xffff)
            fail(g, "48h gives the pointer %04x:%04x, and there is no table", segment, offset);
        g->without++;
        return;
    }
    const uint8_t *table = window + 16 * segment + offset;
    if (offset != 0 || 16 * segment > WINDOW_SIZE - 16) {
        fail(g, "48h gives the pointer %04x:%04x", segment, offset);
        return;
    }
    for (unsigned i = 0; i < 16; i++)
        sum = (uint8_t)(sum + table[i]);
    if (sum != 0 || memcmp(table, disk->parameters, 4) != 0)
        fail(g, "at %04x:%04x there is no parameter table of its disk", segment, offset);
    g->followed++;
}

/* change request 2026-02: bits 4 to 6 only of a removable disk, which has bit 2 */
static uint16_t flags_shown(const struct disk *disk)
{
    return disk->flags & 0x04 ? disk->flags : (uint16_t)(disk->flags & ~0x70u);
}

/* The device path information, from the key to the checksum: document 01's of 36 bytes, or that of change request 2026-06, of 44. */
static void put_path(uint8_t *at, unsigned length, const struct disk *disk)
{
    uint8_t sum = 0;

    memset(at, 0, length);
    put_word(at + 0, 2, 0xbedd);
    at[2] = (uint8_t)length;
    if (length == 44) { /* the names are filled with spaces, and the device path goes on */
        memset(at + 6, 0x20, 12);
        put_word(at + 34, 8, disk->unit);
    }
    memcpy(at + 6, disk->bus, strlen(disk->bus));
    memcpy(at + 10, disk->interface, strlen(disk->interface));
    put_word(at + 18, 8, disk->first);
    put_word(at + 26, 8, ~disk->first);
    for (unsigned i = 0; i < length - 1; i++)
        sum = (uint8_t)(sum + at[i]);
    at[length - 1] = (uint8_t)-sum;
}

/* As a driver does: the result of 48h in the window has the key, the length and a sum of zero; then the path says which disk it is. */
static void read_path(struct guest *g, uint64_t result, const struct disk *disk)
{
    const uint8_t *path = monitor_window(g->monitor, g->number) + result + 30;
    uint64_t unit = 0;
    uint8_t sum = 0;
    char names[13];

    for (unsigned i = 0; i < 0x2c; i++)
        sum = (uint8_t)(sum + path[i]);
    for (unsigned i = 0; i < 8; i++)
        unit |= (uint64_t)path[34 + i] << (8 * i);
    snprintf(names, sizeof names, "%-4.4s%-8.8s", disk->bus, disk->interface);
    if (path[0] != 0xdd || path[1] != 0xbe || path[2] != 0x2c || sum != 0)
        fail(g, "48h of 74 bytes gives no device path information");
    else if (memcmp(path + 6, names, 12) != 0 || unit != disk->unit)
        fail(g, "48h of 74 bytes gives the device path of another disk");
    g->paths++;
}

/* 48h with a size: the whole result, document 01's layout */
static void parameters(struct guest *g, unsigned size)
{
    const struct disk *disk = &disks[g->number];
    struct request q = begin(g, 0x48);
    uint64_t place = low_place(g);

    q.result_length = size >= 74 ? 74 : size >= 66 ? 66 : size >= 30 ? 30 : 26;
    put_word(q.result + 0, 2, q.result_length);
    put_word(q.result + 2, 2, flags_shown(disk));
    put_word(q.result + 4, 4, disk->cylinders);
    put_word(q.result + 8, 4, disk->heads);
    put_word(q.result + 12, 4, disk->sectors);
    put_word(q.result + 16, 8, disk->blocks);
    put_word(q.result + 24, 2, EDD_BLOCK_SIZE);
    if (table_of(g, disk))
        put_word(q.result + 26, 4, table_of(g, disk) / 16 << 16); /* offset 0, then the segment */
    else
        put_word(q.result + 26, 4, 0xffffffff);
    if (q.result_length > 30)
        put_path(q.result + 30, q.result_length - 30, disk);

    /* The guest lays down the size that it asks for. The result then lies over it, and what follows the result stays. */
    put_word(g->memory + place, 2, size);
    lay(&q, place, 80);
    as_pair(g, place, &q.given.ds, &q.given.si);
    want(&q, 0);
    make(g, &q);
    if (q.result_length >= 30)
        follow_pointer(g, place, disk);
    if (q.result_length == 74)
        read_path(g, place, disk);
}

/* 08h, 41h or 48h */
static void ask(struct guest *g)
{
    static const unsigned sizes[] = { 26, 29, 30, 65, 66, 73, 74, 1000 };
    const struct disk *disk = &disks[g->number];
    uint64_t which = between(g, 0, 2);
    if (which == 0) {
        parameters(g, sizes[between(g, 0, 7)]);
        return;
    }
    struct request q = begin(g, which == 1 ? 0x08 : 0x41);
    if (which == 1) {
        unsigned top = disk->cylinders - 1u;
        want(&q, 0);
        q.wanted.ax = 0;
        q.wanted.cx = (uint16_t)((top & 0xff) << 8 | (top >> 8) << 6 | disk->sectors);
        q.wanted.dx = (uint16_t)((disk->heads - 1) << 8 | EDD_DRIVES);
    } else {
        q.given.bx = 0x55aa;
        want(&q, 0);
        q.wanted.ax = 0x3000;
        q.wanted.bx = 0xaa55;
        q.wanted.cx = table_of(g, disk) ? 0x0005 : 0x0001;
    }
    make(g, &q);
}

/* ---- requests that are refused */

static void wrong_chs(struct guest *g, unsigned al, uint64_t block, unsigned sector_off, unsigned code)
{
    struct request q = begin(g, 0x02);
    set_al(&q.given, al);
    set_address(g, &q, &disks[g->number], block, sector_off);
    as_pair(g, 0x8010, &q.given.es, &q.given.bx);
    want(&q, code);
    set_al(&q.wanted, 0);
    make(g, &q);
}

static void wrong_packet(struct guest *g, unsigned function, unsigned size, uint64_t count, uint64_t buffer,
                         uint64_t start, unsigned code, int counts)
{
    struct request q = begin(g, function);
    q.packet = low_place(g);
    lay_packet(g, &q, size, count, buffer, start);
    if (function == 0x43)
        set_al(&q.given, 3);
    want(&q, code);
    q.counts = counts;
    make(g, &q);
}

static void wrong_registers(struct guest *g, unsigned function, unsigned drive, unsigned code)
{
    struct request q = begin(g, function);
    q.given.dx = (uint16_t)((q.given.dx & 0xff00) | drive);
    if (function == 0x41)
        q.given.bx = 0x55ab;
    want(&q, code);
    if (function == 0x02)
        set_al(&q.wanted, 0);
    make(g, &q);
}

/* Something that no guest should ask for: nothing moves. */
static void wrong(struct guest *g)
{
    const struct disk *disk = &disks[g->number];
    uint64_t blocks = disk->blocks;
    uint64_t size = (uint64_t)disk->cylinders * disk->heads * disk->sectors;

    switch (between(g, 0, 15)) {
    case 0: wrong_registers(g, 0x15, 0x80 + g->number, 0x01); break;              /* unknown function */
    case 1: wrong_registers(g, 0x42, 0x7f, 0x01); break;                          /* unknown drive */
    case 2: wrong_registers(g, 0x02, 0x88, 0x01); break;
    case 3: wrong_registers(g, 0x08, 0x00, 0x07); break;
    case 4: wrong_registers(g, 0x41, 0x80 + g->number, 0x01); break;              /* BX is not 55AAh */
    case 5: wrong_chs(g, 0, 0, 0, 0x01); break;                                   /* no blocks */
    case 6: wrong_chs(g, 129, 0, 0, 0x09); break;                                 /* too many */
    case 7: wrong_chs(g, 2, size - 1, 0, 0x04); break;                            /* past the geometry */
    case 8: wrong_chs(g, 1, 0, 1, 0x04); break;                                   /* sector 0 */
    case 9: wrong_packet(g, 0x42, 16, 1, 0x8000, blocks, 0x04, 1); break;         /* past the drive */
    case 10: wrong_packet(g, 0x42, 16, 2, 0x8000, UINT64_MAX, 0x04, 1); break;    /* start + count would wrap */
    case 11: wrong_packet(g, 0x42, 16, 128, 0x8000, 0, 0x01, 1); break;           /* count above 127 */
    case 12: wrong_packet(g, 0x42, 15, 1, 0x8000, 0, 0x01, 0); break;             /* packet too short */
    case 13: wrong_packet(g, 0x42, 16, 1, WINDOW_SIZE - 511, 0, 0x09, 1); break;  /* buffer past the window */
    case 14: wrong_packet(g, 0x43, 16, 1, 0x8000, 0, 0x01, 0); break;             /* AL above 2 */
    case 15: wrong_packet(g, 0x47, 16, 1, 0x8000, blocks, 0x04, 0); break;        /* seek past the drive */
    }
}

/* ---- the guest */

static void one_request(struct guest *g)
{
    const struct workload *w = g->workload;
    unsigned sum = 0, kind = 0;
    if (g->left_blocks) {
        go_on(g);
        return;
    }
    for (unsigned k = 0; k < KINDS; k++)
        sum += w->share[k];
    uint64_t at = between(g, 0, sum - 1);
    while (at >= w->share[kind])
        at -= w->share[kind++];

    switch ((enum kind)kind) {
    case CHS_READ: chs_transfer(g, 0); break;
    case CHS_WRITE: chs_transfer(g, 1); break;
    case PACKET_READ: packet_transfer(g, 0, g->number); break;
    case PACKET_WRITE: packet_transfer(g, 1, g->number); break;
    case SHARED_READ: packet_transfer(g, 0, SHARED_DISK); break;
    case VERIFY: packet_only(g, 0x44); break;
    case SEEK: packet_only(g, 0x47); break;
    case ASK: ask(g); break;
    case WRONG: wrong(g); break;
    case KINDS: break;
    }
}

/* Sixteen bytes for each disk that has a record, source document 002, Table 00278, with what change request 2026-01 sets in it. */
void guest_placed(struct guest *g)
{
    g->placed = 1;
    for (const struct disk *disk = disks; disk < disks + EDD_DRIVES; disk++) {
        uint8_t *table = g->memory + table_of(g, disk), sum = 0;
        if (!disk->parameters)
            continue;
        memcpy(table, disk->parameters, PARAMETERS);
        table[4] |= 0xa0;
        table[14] = 0x11;
        for (unsigned i = 0; i < 15; i++)
            sum = (uint8_t)(sum + table[i]);
        table[15] = (uint8_t)-sum;
    }
}

void guest_run(struct guest *g, uint64_t requests)
{
    if (requests > 0)
        parameters(g, 74); /* a driver first asks which disk this is */
    for (uint64_t i = 1; i < requests && !g->failed; i++)
        one_request(g);
    monitor_leave(g->monitor);
}

int guest_make(struct guest *g, struct monitor *monitor, unsigned number, uint64_t seed)
{
    memset(g, 0, sizeof *g);
    g->monitor = monitor;
    g->number = number;
    g->workload = &workloads[number];
    g->random = seed + 0x1000003u * (number + 1);
    g->memory = malloc(WINDOW_SIZE);
    g->disk = malloc(disks[number].blocks * EDD_BLOCK_SIZE);
    if (!g->memory || !g->disk)
        return -1;
    for (uint64_t at = 0; at < WINDOW_SIZE; at += EDD_BLOCK_SIZE)
        fill_blocks(g, g->memory + at, 1);
    fill_blocks(g, g->disk, disks[number].blocks);
    return 0;
}

void guest_free(struct guest *g)
{
    free(g->memory);
    free(g->disk);
}
