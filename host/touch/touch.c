/*
 * touch - which bytes of arena and store a call touches, as the processor tells us: before the call everything that it may not touch
 * is made inaccessible, so that a single read elsewhere ends the program.
 *
 *   post, withdraw,  the window of their guest, and no byte of the store. Of the window a 48h touches only the bytes that it returns,
 *   place            or the size word alone where these do not fit; told by pages too, so with the result against a page's end.
 *   turn             the window of the guest that it serves and the store blocks that it moves. A read only reads the blocks, a write
 *                    only reads the window; but where a 43h meets a bad block, the count word of its packet is written. The bad block
 *                    and those behind it are not touched.
 *   reader calls     the reader block, and the fragment or the buffer that they are lent. A fragment is only read, and so is the
 *                    block when the table is written out; a buffer is touched only where the table is written into it.
 *   conversions      the record, which is only read, and the buffer for the other record, which a refused conversion does not touch.
 *
 * This is tested, not proved: a promise says what memory holds before and after a call, not which bytes are read in between. What
 * edd_desk.h allows under "What may run at the same time" depends on it: a guest that has no request waiting goes on running in its own
 * window, without the lock, while calls for other guests run.
 */
#include <signal.h>
#include <stdio.h>
#include <stdlib.h>
#include <string.h>
#include <sys/mman.h>
#include <unistd.h>

#include "edd_desk.h"

#define WINDOW ((size_t)256 * 1024)
#define ARENA (EDD_GUESTS * WINDOW)
#define DRIVE_BLOCKS 512u /* 8 cylinders of 2 heads and 32 sectors */
#define CYLINDERS 8u
#define HEADS 2u
#define SECTORS 32u
#define STORE ((size_t)EDD_DRIVES * DRIVE_BLOCKS * EDD_BLOCK_SIZE)
#define PAGE_BLOCKS 8u /* blocks of a page of 4096 bytes, the smallest that can be protected */
#define PAGE ((size_t)PAGE_BLOCKS * EDD_BLOCK_SIZE)
#define PACKET 0x100
#define BUFFER 0x1000

static uint8_t *arena, *store;
static uint8_t desk[EDD_DESK_SIZE];
static char doing[80]; /* the call that runs, for a message */
static unsigned long calls;

static void touched(int signal, siginfo_t *info, void *context)
{
    uint8_t *at = info->si_addr;
    (void)signal;
    (void)context;
    if (at >= arena && at < arena + ARENA)
        printf("FAULT: %s touches byte %zu of the window of guest %zu\n", doing, (size_t)(at - arena) % WINDOW,
               (size_t)(at - arena) / WINDOW);
    else if (at >= store && at < store + STORE)
        printf("FAULT: %s touches block %zu of the store\n", doing, (size_t)(at - store) / EDD_BLOCK_SIZE);
    else
        printf("FAULT: %s touches %p, which it was not lent\n", doing, (void *)at);
    fflush(stdout);
    _exit(1);
}

static void allow(uint8_t *at, size_t length, int how)
{
    if (mprotect(at, length, how) != 0) {
        perror("touch: mprotect");
        exit(2);
    }
}

/* Everything as it is between calls. */
static void open_all(void)
{
    allow(arena, ARENA, PROT_READ | PROT_WRITE);
    allow(store, STORE, PROT_READ | PROT_WRITE);
}

/* Only one window, in this way, and no block. */
static void only_window(unsigned guest, int how)
{
    allow(arena, ARENA, PROT_NONE);
    allow(store, STORE, PROT_NONE);
    allow(arena + guest * WINDOW, WINDOW, how);
}

static void must(int good, const char *what)
{
    if (good)
        return;
    open_all();
    printf("FAULT: %s: %s\n", doing, what);
    exit(1);
}

/* ---- requests */

/* good: how many of its blocks come before a bad one; all of them in the first rows, the others meet one */
struct request {
    unsigned function, count, start, good;
    int waits;
    const char *name;
};

/* Sixteen of each drive. The first two begin a page, so that the bad block lies in a page that the turn must not touch. */
static const unsigned bad_blocks[EDD_BAD_BLOCKS] = { 208, 256, 269, 280, 281, 282, 283, 284, 285, 286, 287, 288, 289, 290, 291, 383 };

/* Each drive is a whole number of pages. A start that is no multiple of eight lets a transfer begin inside a page. */
static const struct request requests[] = {
    { 0x02, 1, 0, 1, 1, "02h" },        { 0x02, 128, 3, 128, 1, "02h" },    { 0x03, 17, 5, 17, 1, "03h" },
    { 0x03, 128, 0, 128, 1, "03h" },    { 0x42, 1, 511, 1, 1, "42h" },      { 0x42, 127, 9, 127, 1, "42h" },
    { 0x43, 16, 8, 16, 1, "43h" },      { 0x43, 127, 385, 127, 1, "43h" },  { 0x42, 0, 512, 0, 0, "42h" },
    { 0x42, 1, 512, 0, 0, "42h" },      { 0x43, 128, 0, 0, 0, "43h" },      { 0x44, 100, 400, 0, 0, "44h" },
    { 0x47, 9, 511, 0, 0, "47h" },      { 0x48, 66, 0, 0, 0, "48h" },       { 0x08, 0, 0, 0, 0, "08h" },
    { 0x41, 0, 0, 0, 0, "41h" },        { 0x02, 129, 0, 0, 0, "02h" },      { 0x15, 0, 0, 0, 0, "15h" },
    /* before any block, inside a part, at the end of a part and in the third one */
    { 0x42, 20, 208, 0, 1, "42h" },     { 0x43, 20, 208, 0, 1, "43h" },     { 0x02, 20, 208, 0, 1, "02h" },
    { 0x03, 20, 208, 0, 1, "03h" },     { 0x42, 20, 200, 8, 1, "42h" },     { 0x43, 20, 200, 8, 1, "43h" },
    { 0x02, 20, 200, 8, 1, "02h" },     { 0x03, 20, 200, 8, 1, "03h" },     { 0x42, 40, 192, 16, 1, "42h" },
    { 0x43, 40, 192, 16, 1, "43h" },    { 0x42, 127, 216, 40, 1, "42h" },   { 0x43, 127, 216, 40, 1, "43h" },
    { 0x03, 128, 216, 40, 1, "03h" },   { 0x43, 13, 257, 12, 1, "43h" },    { 0x44, 127, 216, 0, 0, "44h" },
    /* of 48h the count is the size that the guest asks with */
    { 0x48, 74, 0, 0, 0, "48h" },       { 0x48, 65535, 0, 0, 0, "48h" },    { 0x48, 25, 0, 0, 0, "48h" },
};
#define REQUESTS (sizeof requests / sizeof requests[0])

static int is_write(const struct request *q)
{
    return q->function == 0x03 || q->function == 0x43;
}

static void put_word(uint8_t *at, unsigned bytes, uint64_t value)
{
    for (unsigned i = 0; i < bytes; i++)
        at[i] = (uint8_t)(value >> (8 * i));
}

/* Guest g on drive g. Packet, result and buffer stand where the guest's program would have them. */
static void post(unsigned guest, const struct request *q)
{
    uint8_t *window = arena + guest * WINDOW;
    uint16_t ax = (uint16_t)(q->function << 8), bx = 0, cx = 0, dx = (uint16_t)(0x80 + guest), carry = 0;
    uint16_t ds = 0, si = PACKET, es = 0;

    put_word(window + PACKET, 2, q->function == 0x48 ? q->count : 16);
    put_word(window + PACKET + 2, 2, q->count);
    put_word(window + PACKET + 4, 4, BUFFER);
    put_word(window + PACKET + 8, 8, q->start);
    if (q->function == 0x41)
        bx = 0x55aa;
    if (q->function == 0x02 || q->function == 0x03) {
        /* document 01: block = (cylinder x H + head) x S + sector - 1 */
        unsigned sector = q->start % SECTORS + 1, head = q->start / SECTORS % HEADS, cylinder = q->start / SECTORS / HEADS;
        ax = (uint16_t)(q->function << 8 | q->count);
        bx = BUFFER;
        cx = (uint16_t)(cylinder << 8 | sector);
        dx = (uint16_t)(head << 8 | dx);
    }
    snprintf(doing, sizeof doing, "post of %s, %u blocks from %u, guest %u", q->name, q->count, q->start, guest);
    only_window(guest, PROT_READ | PROT_WRITE);
    uint32_t answer = edd_post(desk, sizeof desk, arena, ARENA, store, STORE, guest, &ax, &bx, &cx, &dx, ds, si, es, &carry);
    open_all();
    calls++;
    must(answer == (q->waits ? EDD_NOTHING_YET : EDD_DONE), "another answer than expected");
}

/* A turn that must serve this guest, whose request has moved so many blocks. Says whether the request has finished. */
static int turn(unsigned guest, const struct request *q, unsigned *moved)
{
    uint64_t served = 0, number = 0;
    unsigned due = q->count - *moved < EDD_TURN_BLOCKS ? q->count - *moved : EDD_TURN_BLOCKS;
    unsigned part = q->good - *moved < due ? q->good - *moved : due;
    unsigned first = guest * DRIVE_BLOCKS + q->start + *moved;
    uint8_t *pages = store + (size_t)(first / PAGE_BLOCKS) * PAGE;

    snprintf(doing, sizeof doing, "turn of %s, %u blocks from %u, guest %u", q->name, part, q->start + *moved, guest);
    only_window(guest, is_write(q) ? PROT_READ : PROT_READ | PROT_WRITE);
    if (part < due && q->function == 0x43) /* the page of the packet; the buffer lies in others */
        allow(arena + guest * WINDOW, PAGE, PROT_READ | PROT_WRITE);
    if (part > 0) {
        size_t length = (size_t)((first + part - 1) / PAGE_BLOCKS - first / PAGE_BLOCKS + 1) * PAGE;
        allow(pages, length, is_write(q) ? PROT_READ | PROT_WRITE : PROT_READ);
    }
    uint32_t answer = edd_turn(desk, sizeof desk, arena, ARENA, store, STORE, &served, &number);
    open_all();
    calls++;
    must(answer == EDD_DONE && served == guest && number == part, "another guest or number than expected");
    *moved += part;
    return part < due || *moved == q->count;
}

static void collect(unsigned guest, const struct request *q)
{
    uint16_t r[8];
    must(edd_collect(desk, sizeof desk, guest, &r[0], &r[1], &r[2], &r[3], &r[4], &r[5], &r[6], &r[7]) == EDD_DONE, "no collect");
    must(r[7] == (q->good < q->count), "carry is not 1 after a bad block, or is");
}

/* Whether the interface of a guest's drive is I2O. */
static int is_i2o(unsigned guest)
{
    return guest % 2 == 1;
}

/*
 * 48h of a guest with that size. Its result ends with a page, the last or another, of which so many bytes are missing; no other page
 * of the window may be touched.
 */
static void result_at_end(unsigned guest, unsigned size, unsigned returned, size_t end, unsigned missing)
{
    uint8_t *window = arena + guest * WINDOW, sum = 0;
    size_t at = end - returned + missing;
    uint16_t ax = 0x4800, bx = 0, cx = 0, dx = (uint16_t)(0x80 + guest), carry = 7;

    memset(window + end - PAGE, 0xEE, PAGE);
    put_word(window + at, 2, size);
    snprintf(doing, sizeof doing, "48h of guest %u with size %u at %zu", guest, size, at);
    allow(arena, ARENA, PROT_NONE);
    allow(store, STORE, PROT_NONE);
    allow(window + end - PAGE, PAGE, PROT_READ | PROT_WRITE);
    uint32_t answer = edd_post(desk, sizeof desk, arena, ARENA, store, STORE, guest, &ax, &bx, &cx, &dx, (uint16_t)(at / 16),
                               (uint16_t)(at % 16), 0, &carry);
    open_all();
    calls++;
    must(answer == EDD_DONE && carry == (missing > 0) && ax == (missing ? EDD_AH_BAD_PARAMETER << 8 : 0), "another answer than expected");
    must(window[at] + (window[at + 1] << 8) == (int)(missing ? size : returned), "another size than expected");
    for (size_t i = end - PAGE; i < end; i++)
        must((i >= at && (i < at + 2 || !missing)) || window[i] == 0xEE, "a byte that is not of the result changed");
    for (size_t i = at + 30; i < end; i++)
        sum = (uint8_t)(sum + window[i]);
    must(missing > 0 || sum == 0, "another sum of the device path information than 0");
}

static void withdraw(unsigned guest)
{
    uint16_t r[8];
    snprintf(doing, sizeof doing, "withdrawal of guest %u", guest);
    only_window(guest, PROT_READ | PROT_WRITE);
    uint32_t answer = edd_withdraw(desk, sizeof desk, arena, ARENA, store, STORE, guest, &r[0], &r[1], &r[2], &r[3], &r[4], &r[5],
                                   &r[6], &r[7]);
    open_all();
    calls++;
    must(answer == EDD_DONE, "refused");
}

/* The tables of all eight drives at an address. A refused placement touches nothing at all. */
static void place(unsigned guest, uint64_t address, uint32_t expected)
{
    snprintf(doing, sizeof doing, "placement for guest %u at %llu", guest, (unsigned long long)address);
    only_window(guest, expected == EDD_DONE ? PROT_READ | PROT_WRITE : PROT_NONE);
    uint32_t answer = edd_place(desk, sizeof desk, arena, ARENA, store, STORE, guest, address);
    open_all();
    calls++;
    must(answer == expected, "another answer than expected");
}

/* ---- readers */

static uint8_t *rooms[3]; /* for a reader block, a fragment and a buffer: a page each, between two that stay inaccessible */
enum room { READER, FRAGMENT, BUFFER_OUT };

/* So many bytes of a room, against the page before or the page behind. */
static uint8_t *in_room(enum room room, size_t length, int at_end)
{
    return rooms[room] + (at_end ? PAGE - length : 0);
}

/* A call at a reader: no arena, no store, and the three rooms in these ways. */
static void only_rooms(const char *call, int reader, int fragment, int out)
{
    snprintf(doing, sizeof doing, "%s", call);
    allow(arena, ARENA, PROT_NONE);
    allow(store, STORE, PROT_NONE);
    allow(rooms[READER], PAGE, reader);
    allow(rooms[FRAGMENT], PAGE, fragment);
    allow(rooms[BUFFER_OUT], PAGE, out);
}

static void answered(uint32_t answer, uint32_t expected)
{
    open_all();
    for (unsigned i = 0; i < 3; i++)
        allow(rooms[i], PAGE, PROT_READ | PROT_WRITE);
    calls++;
    must(answer == expected, "another answer than expected");
}

static void feed(uint8_t *reader, const uint8_t *bytes, size_t length, int at_end, uint32_t expected)
{
    uint64_t place = 0;
    uint8_t *fragment = in_room(FRAGMENT, length, at_end);
    memcpy(fragment, bytes, length);
    only_rooms("feeding a reader", PROT_READ | PROT_WRITE, length ? PROT_READ : PROT_NONE, PROT_NONE);
    answered(edd_reader_feed(reader, EDD_READER_SIZE, fragment, length, &place), expected);
}

static void end(uint8_t *reader, uint32_t expected)
{
    uint64_t place = 0;
    only_rooms("telling a reader the end", PROT_READ | PROT_WRITE, PROT_NONE, PROT_NONE);
    answered(edd_reader_end(reader, EDD_READER_SIZE, &place), expected);
}

/* Only a table that is written touches the buffer. */
static void write_out(uint8_t *reader, size_t length, int at_end, uint32_t expected)
{
    uint64_t written = 0;
    uint8_t *out = in_room(BUFFER_OUT, length, at_end);
    only_rooms("writing a reader's table", PROT_READ, PROT_NONE, expected == EDD_DONE ? PROT_READ | PROT_WRITE : PROT_NONE);
    answered(edd_reader_write(reader, EDD_READER_SIZE, out, length, &written), expected);
}

/* A record in a room, and the other record to be written in another. */
static void convert(int up, const uint8_t *record, size_t length, size_t out_length, int at_end, uint32_t expected)
{
    uint8_t *in = in_room(FRAGMENT, length, at_end), *out = in_room(BUFFER_OUT, out_length, at_end);
    memcpy(in, record, length);
    only_rooms(up ? "converting a record up" : "converting a record down", PROT_NONE, PROT_READ,
               expected == EDD_DONE ? PROT_READ | PROT_WRITE : PROT_NONE);
    answered(up ? edd_convert_up(in, length, out, out_length) : edd_convert_down(in, length, out, out_length), expected);
}

static void open_reader(uint8_t *reader, size_t length, uint32_t expected)
{
    only_rooms("opening a reader", PROT_READ | PROT_WRITE, PROT_NONE, PROT_NONE);
    answered(edd_reader_open(reader, length, STORE), expected);
}

/* ---- what is run */

/* rule: exports::edd_reader_open exports::edd_reader_feed exports::edd_reader_end exports::edd_reader_write */
/* A table in pieces of one size, every slice against an inaccessible page; the same with its last byte missing; then too long. */
static void fragments(const uint8_t *table, size_t length, size_t piece, int at_end)
{
    static const uint8_t more[4096];
    uint8_t *reader = in_room(READER, EDD_READER_SIZE, at_end);

    for (unsigned end_missing = 0; end_missing < 2; end_missing++) {
        open_reader(reader, EDD_READER_SIZE, EDD_DONE);
        for (size_t at = 0; at < length - end_missing; at += piece) {
            size_t left = length - end_missing - at;
            feed(reader, table + at, left < piece ? left : piece, at_end, EDD_NOTHING_YET);
        }
        feed(reader, table, 0, at_end, EDD_NOTHING_YET);
        write_out(reader, EDD_TABLE_SIZE_MAX, at_end, EDD_NOTHING_YET);
        end(reader, end_missing ? EDD_TABLE_CUT_OFF : EDD_DONE);
        write_out(reader, length - 1, at_end, end_missing ? EDD_TABLE_CUT_OFF : EDD_BUFFER_SHORT);
        write_out(reader, length, at_end, end_missing ? EDD_TABLE_CUT_OFF : EDD_DONE);
        feed(reader, more, 4096, at_end, end_missing ? EDD_TABLE_CUT_OFF : EDD_DONE);
    }
    open_reader(reader, EDD_READER_SIZE, EDD_DONE);
    feed(reader, table, length, at_end, EDD_NOTHING_YET);
    feed(reader, more, 4096, at_end, EDD_TABLE_TRAILING);
    write_out(reader, EDD_TABLE_SIZE_MAX, at_end, EDD_TABLE_TRAILING);
    reader[0] = 4; /* no course */
    feed(reader, table, length, at_end, EDD_DESK_NOT_ACCEPTED);
    end(reader, EDD_DESK_NOT_ACCEPTED);
    write_out(reader, EDD_TABLE_SIZE_MAX, at_end, EDD_DESK_NOT_ACCEPTED);
    open_reader(in_room(READER, EDD_READER_SIZE - 1, at_end), EDD_READER_SIZE - 1, EDD_DESK_NOT_ACCEPTED);
}

/* rule: exports::edd_post exports::edd_turn exports::edd_collect exports::edd_withdraw */
/* Every request of every guest by itself. */
static void one_by_one(void)
{
    for (unsigned g = 0; g < EDD_GUESTS; g++) {
        for (unsigned i = 0; i < REQUESTS; i++) {
            const struct request *q = &requests[i];
            post(g, q);
            if (!q->waits)
                continue;
            unsigned moved = 0;
            while (!turn(g, q, &moved)) {
            }
            collect(g, q);
        }
    }
}

/* rule: exports::edd_place exports::edd_post */
/* Tables for every guest: at the window's start, across a page, and as its last bytes. Then 41h and 48h with placement. */
static void placements(void)
{
    for (unsigned g = 0; g < EDD_GUESTS; g++) {
        place(g, 0, EDD_DONE);
        place(g, 4096 - 64, EDD_DONE);
        place(g, WINDOW - 16 * EDD_DRIVES, EDD_DONE);
        place(g, WINDOW - 16 * EDD_DRIVES + 16, EDD_BAD_PLACE);
        place(g, 8, EDD_BAD_PLACE);
        for (unsigned i = 0; i < REQUESTS; i++)
            if (requests[i].function == 0x41 || requests[i].function == 0x48)
                post(g, &requests[i]);
        unsigned moved = 0;
        post(g, &requests[0]);
        place(g, 0, EDD_ROW_NOT_VACANT);
        turn(g, &requests[0], &moved);
        place(g, 0, EDD_DONE);
        collect(g, &requests[0]);
    }
}

/* rule: exports::edd_turn */
/* All eight wait, and all are served by turns; then they are withdrawn. */
static void together(const struct request *q)
{
    unsigned moved[EDD_GUESTS] = { 0 };
    for (unsigned g = 0; g < EDD_GUESTS; g++)
        post(g, q);
    for (unsigned round = 0; round < 2; round++)
        for (unsigned g = 0; g < EDD_GUESTS; g++)
            turn(g, q, &moved[g]);
    for (unsigned g = 0; g < EDD_GUESTS; g++)
        withdraw(g);
}

/* rule: exports::edd_post */
/* Each size of 48h: as the last bytes of the window and before another page of it, with room for all bytes, and for all but one. */
static void results(void)
{
    static const unsigned sizes[] = { 26, 30, 66, 74 };
    for (unsigned g = 0; g < EDD_GUESTS; g++) {
        for (unsigned i = 0; i < sizeof sizes / sizeof sizes[0]; i++) {
            unsigned returned = is_i2o(g) && sizes[i] == 66 ? 30 : sizes[i];
            result_at_end(g, sizes[i], returned, WINDOW, 0);
            result_at_end(g, sizes[i], returned, WINDOW, 1);
            result_at_end(g, sizes[i], returned, 16 * PAGE, 0);
        }
    }
}

/* Idle and refused calls touch nothing. */
static void nothing(void)
{
    uint64_t served = 0, number = 0;
    uint16_t r[8] = { 0x4200 };

    snprintf(doing, sizeof doing, "an idle or refused call");
    allow(arena, ARENA, PROT_NONE);
    allow(store, STORE, PROT_NONE);
    uint32_t idle = edd_turn(desk, sizeof desk, arena, ARENA, store, STORE, &served, &number);
    uint32_t length = edd_turn(desk, sizeof desk, arena, ARENA - 1, store, STORE, &served, &number);
    uint32_t guest = edd_post(desk, sizeof desk, arena, ARENA, store, STORE, 8, &r[0], &r[1], &r[2], &r[3], 0, 0, 0, &r[7]);
    uint32_t row = edd_withdraw(desk, sizeof desk, arena, ARENA, store, STORE, 3, &r[0], &r[1], &r[2], &r[3], &r[4], &r[5], &r[6],
                                &r[7]);
    uint32_t block = edd_turn(desk, sizeof desk - 1, arena, ARENA, store, STORE, &served, &number);
    open_all();
    calls += 5;
    must(idle == EDD_NOTHING_YET && length == EDD_LENGTH_DIFFERS && guest == EDD_NO_SUCH_GUEST && row == EDD_NOT_WAITING &&
         block == EDD_DESK_NOT_ACCEPTED, "another answer than expected");
}

/* The longest table: eight drives of kind 2 with sixteen bad blocks and a record of kind 4 each. */
static void full_table(uint8_t table[EDD_TABLE_SIZE_MAX])
{
    memset(table, 0, EDD_TABLE_SIZE_MAX);
    for (unsigned i = 0; i < EDD_DRIVES; i++) {
        uint8_t *at = table + 230 * i;
        put_word(at + 0, 4, 0x0002004c); /* length 76, kind 2 */
        put_word(at + 16, 8, DRIVE_BLOCKS);
        put_word(at + 24, 8, DRIVE_BLOCKS * i);
        put_word(at + 34, 2, CYLINDERS);
        put_word(at + 36, 2, HEADS);
        at[38] = SECTORS;
        memcpy(at + 40, "PCI", 3);
        memcpy(at + 44, is_i2o(i) ? "I2O" : "ATA", 3);
        memset(at + 60, (int)i, 16); /* device path; that of the first is zero */
        put_word(at + 76, 4, 0x00030086); /* length 134, kind 3 */
        put_word(at + 80, 2, i);
        for (unsigned j = 0; j < EDD_BAD_BLOCKS; j++)
            put_word(at + 82 + 8 * j, 8, bad_blocks[j]);
        put_word(at + 210, 4, 0x00040014); /* length 20, kind 4 */
        put_word(at + 214, 2, i);
    }
    put_word(table + 230 * EDD_DRIVES, 4, 4);
}

/* rule: exports::edd_convert_up exports::edd_convert_down */
/* The first drive's record both ways, then what is refused: by its path, its interface, a field, its kind, and by the sizes. */
static void conversions(const uint8_t *table, int at_end)
{
    static const size_t sizes[] = { 0, 4, 67, 68, 69, 75, 76, 77 };
    const unsigned count = sizeof sizes / sizeof sizes[0];
    uint8_t wide[80] = { 0 }, narrow[80] = { 0 };

    memcpy(wide, table, EDD_RECORD_SIZE_WIDE);
    memcpy(narrow, table, EDD_RECORD_SIZE);
    put_word(narrow, 4, 0x00010044); /* length 68, kind 1 */
    convert(1, narrow, 68, 76, at_end, EDD_DONE);
    convert(0, wide, 76, 68, at_end, EDD_DONE);
    for (unsigned i = 0; i < count; i++)
        for (unsigned j = 0; j < count; j++) {
            if (sizes[i] != 68 || sizes[j] != 76)
                convert(1, narrow, sizes[i], sizes[j], at_end, EDD_CONVERSION);
            if (sizes[i] != 76 || sizes[j] != 68)
                convert(0, wide, sizes[i], sizes[j], at_end, EDD_CONVERSION);
        }
    convert(1, wide, 68, 76, at_end, EDD_CONVERSION);
    convert(0, narrow, 76, 68, at_end, EDD_CONVERSION);
    convert(0, table + 230, 76, 68, at_end, EDD_CONVERSION);
    wide[75] = 1, narrow[39] = 2;
    convert(1, narrow, 68, 76, at_end, EDD_CONVERSION);
    convert(0, wide, 76, 68, at_end, EDD_CONVERSION);
}

static void open_desk(void)
{
    uint8_t table[EDD_TABLE_SIZE_MAX];
    uint64_t place = 0;
    full_table(table);
    must(edd_open(desk, sizeof desk, table, sizeof table, ARENA, STORE, &place) == EDD_DONE, "refused");
}

static uint8_t *pages(size_t length)
{
    void *at = mmap(NULL, length, PROT_READ | PROT_WRITE, MAP_PRIVATE | MAP_ANONYMOUS, -1, 0);
    if (at == MAP_FAILED) {
        perror("touch: mmap");
        exit(2);
    }
    return at;
}

int main(void)
{
    struct sigaction action;
    if (sysconf(_SC_PAGESIZE) != (long)PAGE) {
        printf("touch: FAILED: pages are not of 4096 bytes here, and this program supposes that\n");
        return 1;
    }
    memset(&action, 0, sizeof action);
    action.sa_sigaction = touched;
    action.sa_flags = SA_SIGINFO;
    sigaction(SIGSEGV, &action, NULL);
    sigaction(SIGBUS, &action, NULL);

    arena = pages(ARENA);
    store = pages(STORE);
    for (unsigned i = 0; i < 3; i++) {
        rooms[i] = pages(3 * PAGE) + PAGE;
        allow(rooms[i] - PAGE, PAGE, PROT_NONE);
        allow(rooms[i] + PAGE, PAGE, PROT_NONE);
    }
    snprintf(doing, sizeof doing, "open");
    open_desk();
    one_by_one();
    placements();
    for (unsigned i = 0; i < REQUESTS; i++) {
        if (requests[i].waits && requests[i].good > 2 * EDD_TURN_BLOCKS) {
            open_desk(); /* so that the turn pointer is 0 */
            together(&requests[i]);
        }
    }
    results();
    nothing();
    uint8_t table[EDD_TABLE_SIZE_MAX];
    full_table(table);
    static const size_t pieces[] = { 1, 67, 68, 75, 76, 77, 133, 134, 135, EDD_TABLE_SIZE_MAX };
    for (unsigned i = 0; i < sizeof pieces / sizeof pieces[0]; i++) {
        fragments(table, sizeof table, pieces[i], 0);
        fragments(table, sizeof table, pieces[i], 1);
    }
    conversions(table, 0);
    conversions(table, 1);
    printf("touch: %lu calls, each touched only its guest's window and the blocks that it moved, or its reader and fragment, or its record\n",
           calls);
    return 0;
}
