/*
 * A short session at a desk through include/edd_desk.h, as a C or C++ program sees it. The header comes first, so that it must be
 * complete by itself. Every slice is a block of its own from malloc with the exact length, so that the address sanitizer sees what
 * this program does wrong with it. read_first_block is the example in the header, and open_from_pipe that of edd_reader_open;
 * host/c_test takes them from there.
 */
#include "edd_desk.h"

#include <stdio.h>
#include <stdlib.h>
#include <string.h>
#include <unistd.h>

int read_first_block(uint8_t *desk, const uint8_t *table, size_t table_len, uint8_t *arena, size_t arena_len, uint8_t *store,
                     size_t store_len);
uint32_t open_from_pipe(uint8_t *desk, int pipe, uint64_t arena_len, uint64_t store_len);

static int checks, failed;

static void check(int line, const char *what, int holds)
{
    checks++;
    if (!holds) {
        failed++;
        printf("c: session.c:%d: not so: %s\n", line, what);
    }
}

#define CHECK(condition) check(__LINE__, #condition, (condition) != 0)

/* document 01's table of 72 bytes: one drive of 2048 blocks */
static const uint8_t paper_table[72] = {
    0x44, 0x00, 0x01, 0x00, 0x02, 0x00, 0x00, 0x00, 0x10, 0x00, 0x00, 0x00, 0x3F, 0x00, 0x00, 0x00, 0x00, 0x08,
    0x00, 0x00, 0x00, 0x00, 0x00, 0x00, 0x00, 0x00, 0x00, 0x00, 0x00, 0x00, 0x00, 0x00, 0x02, 0x00, 0x02, 0x00,
    0x10, 0x00, 0x3F, 0x00, 0x50, 0x43, 0x49, 0x00, 0x41, 0x54, 0x41, 0x00, 0x00, 0x00, 0x00, 0x00, 0x00, 0x1F,
    0x01, 0x00, 0x00, 0x00, 0x00, 0x00, 0x00, 0x00, 0x00, 0x00, 0x00, 0x00, 0x00, 0x00, 0x04, 0x00, 0x00, 0x00};

enum { WINDOW = 12000, ARENA = 8 * WINDOW + 3, STORE = 2048 * EDD_BLOCK_SIZE + 1 };

/* the registers as a guest's; set() gives each another value */
typedef struct {
    uint16_t ax, bx, cx, dx, ds, si, es, carry;
} registers;

static registers set(uint16_t ax, uint16_t bx, uint16_t cx, uint16_t dx, uint16_t ds, uint16_t si, uint16_t es)
{
    registers r;
    r.ax = ax, r.bx = bx, r.cx = cx, r.dx = dx, r.ds = ds, r.si = si, r.es = es, r.carry = 9;
    return r;
}

static int same(registers a, registers b)
{
    return a.ax == b.ax && a.bx == b.bx && a.cx == b.cx && a.dx == b.dx && a.ds == b.ds && a.si == b.si && a.es == b.es &&
           a.carry == b.carry;
}

typedef struct {
    uint8_t *desk, *arena, *store;
} machine;

static uint8_t *bytes(size_t length, unsigned factor)
{
    uint8_t *b = (uint8_t *)malloc(length);
    if (!b)
        abort();
    for (size_t i = 0; i < length; i++)
        b[i] = (uint8_t)(i * factor >> 5);
    return b;
}

static uint32_t post(machine *m, uint64_t guest, registers *r)
{
    return edd_post(m->desk, EDD_DESK_SIZE, m->arena, ARENA, m->store, STORE, guest, &r->ax, &r->bx, &r->cx, &r->dx, r->ds,
                    r->si, r->es, &r->carry);
}

static uint32_t collect(machine *m, uint64_t guest, registers *r)
{
    return edd_collect(m->desk, EDD_DESK_SIZE, guest, &r->ax, &r->bx, &r->cx, &r->dx, &r->ds, &r->si, &r->es, &r->carry);
}

static uint32_t withdraw(machine *m, uint64_t guest, registers *r)
{
    return edd_withdraw(m->desk, EDD_DESK_SIZE, m->arena, ARENA, m->store, STORE, guest, &r->ax, &r->bx, &r->cx, &r->dx, &r->ds,
                        &r->si, &r->es, &r->carry);
}

static uint32_t turn(machine *m, uint64_t *guest, uint64_t *moved)
{
    return edd_turn(m->desk, EDD_DESK_SIZE, m->arena, ARENA, m->store, STORE, guest, moved);
}

/* a packet of 16 bytes at the start of a guest's window, buffer at 0000:0200 */
static void put_packet(machine *m, uint64_t guest, uint8_t count, uint8_t start)
{
    uint64_t at = 0, length = 0;
    CHECK(edd_window(ARENA, guest, &at, &length) == EDD_DONE && length == WINDOW);
    memset(m->arena + at, 0, 16);
    m->arena[at] = 16;
    m->arena[at + 2] = count;
    m->arena[at + 5] = 0x02;
    m->arena[at + 8] = start;
}

/* rule: exports::edd_desk_size exports::edd_open exports::edd_write */
static void opening_and_table(machine *m)
{
    uint64_t place = 77, written = 77;
    uint8_t *before = bytes(EDD_DESK_SIZE, 1);

    CHECK(edd_version() == EDD_VERSION);
    CHECK(edd_desk_size() == EDD_DESK_SIZE);
    memcpy(m->desk, before, EDD_DESK_SIZE);
    CHECK(edd_open(m->desk, EDD_DESK_SIZE - 1, paper_table, 72, ARENA, STORE, &place) == EDD_DESK_NOT_ACCEPTED);
    CHECK(edd_open(m->desk, EDD_DESK_SIZE, paper_table, 71, ARENA, 1, &place) == EDD_TABLE_STORE && place == 0);
    CHECK(edd_open(m->desk, EDD_DESK_SIZE, paper_table, 71, ARENA, STORE, &place) == EDD_TABLE_CUT_OFF && place == 68);
    CHECK(edd_open(m->desk, EDD_DESK_SIZE, NULL, 0, ARENA, STORE, &place) == EDD_TABLE_CUT_OFF && place == 0);
    CHECK(memcmp(m->desk, before, EDD_DESK_SIZE) == 0);
    CHECK(edd_open(m->desk, EDD_DESK_SIZE, paper_table, 72, ARENA, STORE, &place) == EDD_DONE);

    uint8_t *table = bytes(EDD_TABLE_SIZE_MAX, 3);
    CHECK(edd_write(m->desk, EDD_DESK_SIZE, table, 71, &written) == EDD_BUFFER_SHORT && written == 77);
    CHECK(edd_write(m->desk, EDD_DESK_SIZE, NULL, 0, &written) == EDD_BUFFER_SHORT && written == 77);
    CHECK(edd_write(m->desk, EDD_DESK_SIZE, table, EDD_TABLE_SIZE_MAX, &written) == EDD_DONE && written == 72);
    CHECK(memcmp(table, paper_table, 72) == 0 && table[72] == (uint8_t)(72 * 3 >> 5));
    free(table);
    free(before);
}

/* a table of 136 bytes and its end, the drive of the paper's table twice, changed at a byte: the number, and the place */
static uint32_t refused_at(size_t byte, uint8_t value, size_t length, uint64_t *place)
{
    uint8_t *desk = bytes(EDD_DESK_SIZE, 0);
    uint8_t *table = bytes(length, 0);

    for (size_t i = 0; i < length; i++)
        table[i] = i < 136 ? paper_table[i % 68] : (uint8_t)(i == 136 ? 4 : 0);
    table[68 + 25] = 0x08; /* the second drive starts behind the first */
    table[byte] = value;
    uint32_t number = edd_open(desk, EDD_DESK_SIZE, table, length, ARENA, UINT64_MAX, place);
    free(table);
    free(desk);
    return number;
}

/* rule: exports::edd_open read_table */
static void table_refusals(void)
{
    uint64_t place = 77;
    uint8_t *desk = bytes(EDD_DESK_SIZE, 0);
    uint8_t *nine = bytes(9 * 68 + 4, 0);

    CHECK(refused_at(0, 0x44, 140, &place) == EDD_DONE && place == 77);
    CHECK(refused_at(0, 0x45, 140, &place) == EDD_TABLE_LENGTH && place == 0);
    CHECK(refused_at(68 + 2, 2, 140, &place) == EDD_TABLE_LENGTH && place == 68); /* kind 2 has 76 bytes */
    CHECK(refused_at(68 + 2, 5, 140, &place) == EDD_TABLE_KIND && place == 68);
    CHECK(refused_at(68 + 39, 2, 140, &place) == EDD_TABLE_FIELD && place == 68);
    CHECK(refused_at(68 + 25, 0x07, 140, &place) == EDD_TABLE_OVERLAP && place == 68);
    CHECK(refused_at(140, 0, 141, &place) == EDD_TABLE_TRAILING && place == 140);
    for (size_t i = 0; i < 9 * 68; i++)
        nine[i] = i % 68 == 25 ? (uint8_t)(8 * (i / 68)) : paper_table[i % 68];
    nine[9 * 68] = 4;
    CHECK(edd_open(desk, EDD_DESK_SIZE, nine, 9 * 68 + 4, ARENA, UINT64_MAX, &place) == EDD_TABLE_NINTH_DRIVE && place == 8 * 68);
    free(nine);
    free(desk);
}

/* rule: exports::edd_post exports::edd_turn exports::edd_collect */
/* twenty blocks from guest 5's window to the store, in two parts; another guest reads in between */
static void two_guests(machine *m)
{
    uint64_t guest = 77, moved = 77;
    registers write_20 = set(0x4301, 1, 2, 0x0080, 0, 0, 3), read_1 = set(0x0201, 0x0200, 0x0001, 0x0080, 4, 5, 0);
    registers out = write_20, expected;

    put_packet(m, 5, 20, 100);
    CHECK(post(m, 5, &out) == EDD_NOTHING_YET && same(out, write_20));
    CHECK(post(m, 5, &out) == EDD_ROW_NOT_VACANT && same(out, write_20));
    CHECK(collect(m, 5, &out) == EDD_NOT_FINISHED && same(out, write_20));
    out = read_1;
    CHECK(post(m, 6, &out) == EDD_NOTHING_YET && same(out, read_1));
    CHECK(turn(m, &guest, &moved) == EDD_DONE && guest == 5 && moved == 16);
    CHECK(turn(m, &guest, &moved) == EDD_DONE && guest == 6 && moved == 1);
    CHECK(turn(m, &guest, &moved) == EDD_DONE && guest == 5 && moved == 4);
    guest = moved = 77;
    CHECK(turn(m, &guest, &moved) == EDD_NOTHING_YET && guest == 77 && moved == 77);
    CHECK(memcmp(m->store + 100 * EDD_BLOCK_SIZE, m->arena + 5 * WINDOW + 0x200, 20 * EDD_BLOCK_SIZE) == 0);
    CHECK(memcmp(m->arena + 6 * WINDOW + 0x200, m->store, EDD_BLOCK_SIZE) == 0);
    CHECK(withdraw(m, 5, &out) == EDD_NOT_WAITING);
    expected = write_20;
    expected.ax = 0x0001, expected.carry = 0;
    CHECK(collect(m, 5, &out) == EDD_DONE && same(out, expected));
    expected = read_1;
    expected.ax = 0x0001, expected.carry = 0;
    CHECK(collect(m, 6, &out) == EDD_DONE && same(out, expected));
    CHECK(collect(m, 6, &out) == EDD_NOT_FINISHED && same(out, expected));
}

/* rule: exports::edd_withdraw */
static void withdrawal(machine *m)
{
    uint64_t guest, moved;
    registers given = set(0x4200, 1, 2, 0x0080, 0, 0, 3), out = given, expected = given;

    put_packet(m, 1, 20, 0);
    CHECK(post(m, 1, &out) == EDD_NOTHING_YET);
    CHECK(turn(m, &guest, &moved) == EDD_DONE && guest == 1 && moved == 16);
    CHECK(withdraw(m, 1, &out) == EDD_DONE);
    expected.ax = EDD_AH_WITHDRAWN << 8, expected.carry = 1;
    CHECK(same(out, expected));
    CHECK(m->arena[WINDOW + 2] == 16 && m->arena[WINDOW + 3] == 0);
    CHECK(withdraw(m, 1, &out) == EDD_NOT_WAITING);
}

/* rule: exports::edd_post */
/* what is answered at once, by success and by BIOS refusal */
static void at_once(machine *m)
{
    registers given = set(0x4155, 0x55AA, 2, 0x0080, 6, 7, 8), out = given, expected = given;

    expected.ax = 0x3000, expected.bx = 0xAA55, expected.cx = 1, expected.carry = 0;
    CHECK(post(m, 0, &out) == EDD_DONE && same(out, expected));
    out = expected = given = set(0x0277, 0, 0, 0x0085, 6, 7, 8);
    expected.ax = EDD_AH_BAD_PARAMETER << 8, expected.carry = 1;
    CHECK(post(m, 0, &out) == EDD_DONE && same(out, expected));
    /* sector 0; 129 sectors; the parameters of a drive that is not there */
    out = expected = set(0x0201, 0, 0, 0x0080, 6, 7, 8);
    expected.ax = EDD_AH_NOT_FOUND << 8, expected.carry = 1;
    CHECK(post(m, 0, &out) == EDD_DONE && same(out, expected));
    out = expected = set(0x0281, 0, 1, 0x0080, 6, 7, 8);
    expected.ax = EDD_AH_BUFFER << 8, expected.carry = 1;
    CHECK(post(m, 0, &out) == EDD_DONE && same(out, expected));
    out = expected = set(0x0833, 1, 2, 0x0081, 6, 7, 8);
    expected.ax = EDD_AH_NO_PARAMETERS << 8 | 0x33, expected.carry = 1;
    CHECK(post(m, 0, &out) == EDD_DONE && same(out, expected));
}

/* rule: exports::edd_post */
/* a drive that is protected takes no block */
static void protected_drive(machine *m)
{
    uint8_t *table = bytes(72, 0);
    uint64_t place = 77;
    registers out = set(0x0301, 0, 1, 0x0080, 6, 7, 8), expected = out;

    memcpy(table, paper_table, 72);
    table[39] = 1;
    CHECK(edd_open(m->desk, EDD_DESK_SIZE, table, 72, ARENA, STORE, &place) == EDD_DONE);
    expected.ax = EDD_AH_WRITE_PROTECTED << 8, expected.carry = 1;
    CHECK(post(m, 0, &out) == EDD_DONE && same(out, expected));
    CHECK(edd_open(m->desk, EDD_DESK_SIZE, paper_table, 72, ARENA, STORE, &place) == EDD_DONE);
    free(table);
}

/* 48h of guest 4 on the drive, its result at 0000:0200: the segment and the offset at offset 26, and CX of 41h */
static uint32_t pointer_and_extensions(machine *m, uint16_t *cx)
{
    registers r = set(0x4800, 1, 2, 0x0080, 0x20, 0, 8);
    const uint8_t *result = m->arena + 4 * WINDOW + 0x200;

    m->arena[4 * WINDOW + 0x200] = 30, m->arena[4 * WINDOW + 0x201] = 0;
    CHECK(post(m, 4, &r) == EDD_DONE && r.carry == 0);
    r = set(0x4100, 0x55AA, 2, 0x0080, 6, 7, 8);
    CHECK(post(m, 4, &r) == EDD_DONE && r.carry == 0);
    *cx = r.cx;
    return (uint32_t)(result[28] | result[29] << 8) << 16 | (uint32_t)(result[26] | result[27] << 8);
}

/* rule: exports::edd_place exports::edd_open exports::edd_write exports::edd_post */
/* a drive with a record of kind 4: its parameter table in a guest's window, and the pointer to it */
static void parameter_tables(machine *m)
{
    uint8_t *table = bytes(92, 0), *out = bytes(92, 0);
    uint64_t place = 77, written = 77, guest = 77, moved = 77;
    uint16_t cx = 77;
    unsigned sum = 0;
    registers r = set(0x0201, 0x0200, 0x0001, 0x0080, 4, 5, 0);

    memcpy(table, paper_table, 68);
    table[68] = 20, table[70] = 4, table[72] = 1; /* for the second drive, which is not there */
    for (unsigned i = 0; i < 14; i++)
        table[74 + i] = (uint8_t)(16 * i + i);
    table[88] = 4;
    CHECK(edd_open(m->desk, EDD_DESK_SIZE, table, 92, ARENA, STORE, &place) == EDD_TABLE_NOT_LAST && place == 68);
    table[72] = 0;
    CHECK(edd_open(m->desk, EDD_DESK_SIZE, table, 92, ARENA, STORE, &place) == EDD_DONE);
    CHECK(pointer_and_extensions(m, &cx) == 0xFFFFFFFF && cx == 1);
    CHECK(edd_place(m->desk, EDD_DESK_SIZE, m->arena, ARENA, m->store, STORE, 4, 0x1010) == EDD_DONE);
    CHECK(pointer_and_extensions(m, &cx) == 0x01010000 && cx == 5);
    const uint8_t *placed = m->arena + 4 * WINDOW + 0x1010;
    for (unsigned i = 0; i < 16; i++)
        sum += placed[i];
    CHECK(sum % 256 == 0 && placed[14] == 0x11 && placed[4] == (0x44 | 0xA0) && placed[0] == 0 && placed[13] == 0xDD);
    /* refused: everything is as it was */
    CHECK(edd_place(m->desk, EDD_DESK_SIZE - 1, m->arena, ARENA, m->store, STORE, 4, 0) == EDD_DESK_NOT_ACCEPTED);
    CHECK(edd_place(m->desk, EDD_DESK_SIZE, m->arena, ARENA - 1, m->store, STORE, 4, 0) == EDD_LENGTH_DIFFERS);
    CHECK(edd_place(m->desk, EDD_DESK_SIZE, m->arena, ARENA, m->store, STORE, 8, 0) == EDD_NO_SUCH_GUEST);
    CHECK(edd_place(m->desk, EDD_DESK_SIZE, m->arena, ARENA, m->store, STORE, 4, 0x1018) == EDD_BAD_PLACE);
    CHECK(edd_place(m->desk, EDD_DESK_SIZE, m->arena, ARENA, m->store, STORE, 4, WINDOW) == EDD_BAD_PLACE);
    CHECK(post(m, 4, &r) == EDD_NOTHING_YET);
    CHECK(edd_place(m->desk, EDD_DESK_SIZE, m->arena, ARENA, m->store, STORE, 4, 0) == EDD_ROW_NOT_VACANT);
    CHECK(turn(m, &guest, &moved) == EDD_DONE && guest == 4 && collect(m, 4, &r) == EDD_DONE);
    CHECK(pointer_and_extensions(m, &cx) == 0x01010000 && cx == 5);
    /* the table is written back as it was opened; an opening ends the placement */
    CHECK(edd_write(m->desk, EDD_DESK_SIZE, out, 92, &written) == EDD_DONE && written == 92 && memcmp(out, table, 92) == 0);
    CHECK(edd_open(m->desk, EDD_DESK_SIZE, table, 92, ARENA, STORE, &place) == EDD_DONE);
    CHECK(pointer_and_extensions(m, &cx) == 0xFFFFFFFF && cx == 1);
    CHECK(edd_open(m->desk, EDD_DESK_SIZE, paper_table, 72, ARENA, STORE, &place) == EDD_DONE);
    free(out);
    free(table);
}

/* rule: exports::edd_post exports::edd_write */
/* bits 4 to 6 of the information flags: 48h of 26 bytes shows them with bit 2 only, and the table keeps them; 43h verifies by bit 3 */
static void information_flags(machine *m)
{
    static const uint8_t written[] = {0x7A, 0x7E, 0x78}, shown[] = {0x0A, 0x7E, 0x08};
    uint8_t *table = bytes(72, 0), *out = bytes(72, 0);
    uint64_t place = 77, length = 77;
    const uint8_t *result = m->arena + 4 * WINDOW + 0x200;

    memcpy(table, paper_table, 72);
    for (unsigned i = 0; i < 3; i++) {
        registers r = set(0x4800, 1, 2, 0x0080, 0x20, 0, 8), verify = set(0x4302, 1, 2, 0x0080, 0, 0, 8), given = verify;
        table[32] = written[i];
        CHECK(edd_open(m->desk, EDD_DESK_SIZE, table, 72, ARENA, STORE, &place) == EDD_DONE);
        m->arena[4 * WINDOW + 0x200] = 26, m->arena[4 * WINDOW + 0x201] = 0;
        CHECK(post(m, 4, &r) == EDD_DONE && r.carry == 0 && result[0] == 26 && result[2] == shown[i] && result[3] == 0);
        CHECK(edd_write(m->desk, EDD_DESK_SIZE, out, 72, &length) == EDD_DONE && length == 72 && memcmp(out, table, 72) == 0);
        put_packet(m, 4, 1, 0);
        CHECK(post(m, 4, &verify) == EDD_NOTHING_YET && same(verify, given));
    }
    CHECK(edd_open(m->desk, EDD_DESK_SIZE, paper_table, 72, ARENA, STORE, &place) == EDD_DONE);
    free(out);
    free(table);
}

/* document 01's drive with bad blocks 5 and 130, or others in their places: the number of the refusal, and the place */
enum { WORN = 68 + 22 + 4 };

static uint32_t open_worn(machine *m, uint8_t first, uint8_t second, uint8_t *table, uint64_t *place)
{
    memset(table, 0, WORN);
    memcpy(table, paper_table, 68);
    table[68] = 22, table[70] = 3, table[74] = first, table[82] = second, table[90] = 4;
    return edd_open(m->desk, EDD_DESK_SIZE, table, WORN, ARENA, STORE, place);
}

/* rule: exports::edd_open exports::edd_write exports::edd_post exports::edd_turn exports::edd_collect bads_refusal ended */
/* a worn disk: a read that stops, a write that stops in its second part, a first block that is bad, and 44h */
static void worn_disk(machine *m)
{
    uint8_t *table = bytes(WORN, 0), *out = bytes(WORN, 0), *before = bytes(STORE, 0);
    uint64_t place = 77, written = 77, guest = 77, moved = 77;
    registers given = set(0x4233, 1, 2, 0x0080, 0, 0, 3), r = given, expected = given;

    CHECK(open_worn(m, 130, 5, table, &place) == EDD_TABLE_FIELD && place == 68);
    CHECK(open_worn(m, 5, 5, table, &place) == EDD_TABLE_FIELD && place == 68);
    CHECK(open_worn(m, 5, 130, table, &place) == EDD_DONE);
    CHECK(edd_write(m->desk, EDD_DESK_SIZE, out, WORN, &written) == EDD_DONE && written == WORN && memcmp(out, table, WORN) == 0);
    memcpy(before, m->store, STORE);
    /* 42h of twenty blocks from 0: five are good */
    put_packet(m, 1, 20, 0);
    memset(m->arena + WINDOW + 0x200, 0xEE, 20 * EDD_BLOCK_SIZE);
    CHECK(post(m, 1, &r) == EDD_NOTHING_YET);
    CHECK(turn(m, &guest, &moved) == EDD_DONE && guest == 1 && moved == 5);
    expected.ax = EDD_AH_BAD_SECTOR << 8 | 0x33, expected.carry = 1;
    CHECK(collect(m, 1, &r) == EDD_DONE && same(r, expected));
    CHECK(m->arena[WINDOW + 2] == 5 && m->arena[WINDOW + 3] == 0);
    CHECK(memcmp(m->arena + WINDOW + 0x200, m->store, 5 * EDD_BLOCK_SIZE) == 0);
    CHECK(m->arena[WINDOW + 0x200 + 5 * EDD_BLOCK_SIZE] == 0xEE);
    /* 43h of twenty blocks from 112: sixteen, then two more */
    put_packet(m, 6, 20, 112);
    r = expected = given = set(0x4300, 1, 2, 0x0080, 0, 0, 3);
    CHECK(post(m, 6, &r) == EDD_NOTHING_YET);
    CHECK(turn(m, &guest, &moved) == EDD_DONE && guest == 6 && moved == 16);
    CHECK(collect(m, 6, &r) == EDD_NOT_FINISHED && m->arena[6 * WINDOW + 2] == 20);
    CHECK(turn(m, &guest, &moved) == EDD_DONE && guest == 6 && moved == 2);
    expected.ax = EDD_AH_WRITE_FAULT << 8, expected.carry = 1;
    CHECK(collect(m, 6, &r) == EDD_DONE && same(r, expected) && m->arena[6 * WINDOW + 2] == 18);
    memcpy(before + 112 * EDD_BLOCK_SIZE, m->arena + 6 * WINDOW + 0x200, 18 * EDD_BLOCK_SIZE);
    CHECK(memcmp(m->store, before, STORE) == 0);
    /* 02h from block 3, and 03h at block 5 itself: AL says how many */
    r = expected = set(0x0204, 0x0200, 4, 0x0080, 6, 7, 0);
    CHECK(post(m, 2, &r) == EDD_NOTHING_YET && turn(m, &guest, &moved) == EDD_DONE && guest == 2 && moved == 2);
    expected.ax = EDD_AH_BAD_SECTOR << 8 | 2, expected.carry = 1;
    CHECK(collect(m, 2, &r) == EDD_DONE && same(r, expected));
    r = expected = set(0x0304, 0x0200, 6, 0x0080, 6, 7, 0);
    CHECK(post(m, 2, &r) == EDD_NOTHING_YET && turn(m, &guest, &moved) == EDD_DONE && guest == 2 && moved == 0);
    expected.ax = EDD_AH_WRITE_FAULT << 8, expected.carry = 1;
    CHECK(collect(m, 2, &r) == EDD_DONE && same(r, expected) && memcmp(m->store, before, STORE) == 0);
    /* 44h: at once, and AL stays */
    put_packet(m, 3, 20, 120);
    r = expected = set(0x4477, 1, 2, 0x0080, 0, 0, 3);
    expected.ax = EDD_AH_BAD_SECTOR << 8 | 0x77, expected.carry = 1;
    CHECK(post(m, 3, &r) == EDD_DONE && same(r, expected) && m->arena[3 * WINDOW + 2] == 10);
    put_packet(m, 3, 10, 120);
    r = expected = set(0x4477, 1, 2, 0x0080, 0, 0, 3);
    expected.ax = 0x77, expected.carry = 0;
    CHECK(post(m, 3, &r) == EDD_DONE && same(r, expected) && m->arena[3 * WINDOW + 2] == 10);
    CHECK(edd_open(m->desk, EDD_DESK_SIZE, paper_table, 72, ARENA, STORE, &place) == EDD_DONE && place == 68);
    free(before);
    free(out);
    free(table);
}

/* document 01's drive as a record of kind 2, with that interface and that device path of sixteen bytes, and the end record */
enum { WIDE = EDD_RECORD_SIZE_WIDE + 4 };

static void put_wide(uint8_t *table, const char *interface, const uint8_t *path)
{
    memset(table, 0, WIDE);
    memcpy(table, paper_table, 44);
    table[0] = 76, table[2] = 2, table[76] = 4;
    memcpy(table + 44, interface, strlen(interface));
    memcpy(table + 52, paper_table + 52, 8);
    memcpy(table + 60, path, 16);
}

static const uint8_t no_path[16] = {0}, path_16[16] = {1, 2, 3, 4, 5, 6, 7, 8, 9, 10, 11, 12, 13, 14, 15, 16};

/* 48h of guest 4 with that size, at that address of its window: the size that is returned, or AX where carry is set; and EEh behind */
static uint32_t asked(machine *m, unsigned address, unsigned size)
{
    registers r = set(0x4800, 1, 2, 0x0080, (uint16_t)(address / 16), (uint16_t)(address % 16), 8), expected = r;
    uint8_t *result = m->arena + 4 * WINDOW + address;
    unsigned room = WINDOW - address < 80 ? WINDOW - address : 80, behind = 0;

    memset(result, 0xEE, room);
    result[0] = (uint8_t)size, result[1] = (uint8_t)(size >> 8);
    CHECK(post(m, 4, &r) == EDD_DONE);
    expected.carry = r.carry, expected.ax = r.carry ? EDD_AH_BAD_PARAMETER << 8 : 0;
    CHECK(same(r, expected) && r.carry < 2);
    unsigned said = (unsigned)(result[0] | result[1] << 8), from = r.carry ? 2 : said;
    CHECK(!r.carry || said == size);
    while (from + behind < room && result[from + behind] == 0xEE)
        behind++;
    CHECK(from + behind == room);
    return r.carry ? r.ax : said;
}

/* the sizes that guests ask with: what is returned, and of a drive of interface I2O */
static void all_sizes(machine *m, int i2o)
{
    static const unsigned sizes[][3] = {{0, 0x0100, 0x0100}, {25, 0x0100, 0x0100}, {26, 26, 26}, {29, 26, 26}, {30, 30, 30}, {65, 30, 30},
                                        {66, 66, 30},        {73, 66, 30},         {74, 74, 74}, {75, 74, 74}, {65535, 74, 74}};

    for (size_t i = 0; i < sizeof sizes / sizeof sizes[0]; i++)
        CHECK(asked(m, 0x200, sizes[i][0]) == sizes[i][i2o ? 2 : 1]);
    /* as the last bytes of the window, and with a byte less */
    for (unsigned size = 26; size <= 74; size += size == 26 ? 4 : size == 30 ? 36 : 8) {
        unsigned returned = i2o && size == 66 ? 30 : size;
        CHECK(asked(m, WINDOW - returned, size) == returned);
        CHECK(asked(m, WINDOW - returned + 1, size) == 0x0100);
    }
}

static uint32_t open_table(machine *m, const uint8_t *table, size_t length, uint64_t *place)
{
    return edd_open(m->desk, EDD_DESK_SIZE, table, length, ARENA, STORE, place);
}

/* rule: exports::edd_open exports::edd_post exports::edd_write */
/* 48h of 74 bytes: document 01's drive in kind 1 and in kind 2, a longer device path, and the interface I2O */
static void device_paths(machine *m)
{
    static const uint8_t wide[74] = {74,   0,    2,    0,    2,    0,    0,    0,    16,   0,    0,    0,    63, 0,    0, 0, 0, 8, 0,
                                     0,    0,    0,    0,    0,    0,    2,    0xFF, 0xFF, 0xFF, 0xFF, 0xDD, 0xBE, 0x2C, 0, 0, 0, 'P', 'C',
                                     'I',  0x20, 'A',  'T',  'A',  0x20, 0x20, 0x20, 0x20, 0x20, 0,    0x1F, 1,  0,    0, 0, 0, 0, 0,
                                     0,    0,    0,    0,    0,    0,    0,    0,    0,    0,    0,    0,    0,  0,    0, 0, 0xA7};
    uint8_t *table = bytes(WIDE + 20, 0), *out = bytes(WIDE + 20, 0);
    const uint8_t *result = m->arena + 4 * WINDOW + 0x200;
    uint64_t place = 77, written = 77;

    /* kind 1, then the same drive as kind 2, which is written back as that */
    CHECK(open_table(m, paper_table, 72, &place) == EDD_DONE);
    all_sizes(m, 0);
    CHECK(asked(m, 0x200, 74) == 74 && memcmp(result, wide, 74) == 0);
    CHECK(asked(m, 0x200, 66) == 66 && memcmp(result + 2, wide + 2, 30) == 0 && result[32] == 0x24 && result[65] == 0x6F);
    put_wide(table, "ATA", no_path);
    CHECK(open_table(m, table, WIDE, &place) == EDD_DONE && place == 77);
    all_sizes(m, 0);
    CHECK(asked(m, 0x200, 74) == 74 && memcmp(result, wide, 74) == 0);
    CHECK(asked(m, 0x200, 66) == 66 && memcmp(result + 2, wide + 2, 30) == 0 && result[32] == 0x24 && result[65] == 0x6F);
    CHECK(edd_write(m->desk, EDD_DESK_SIZE, out, WIDE, &written) == EDD_DONE && written == WIDE && memcmp(out, table, WIDE) == 0);
    CHECK(edd_write(m->desk, EDD_DESK_SIZE, out, WIDE - 1, &written) == EDD_BUFFER_SHORT);
    /* the whole path in 74 bytes, its first half in 66; NUL there, and 20h here */
    put_wide(table, "FIBRE", path_16);
    CHECK(open_table(m, table, WIDE, &place) == EDD_DONE);
    all_sizes(m, 0);
    CHECK(asked(m, 0x200, 66) == 66 && memcmp(result + 36, table + 40, 28) == 0 && result[64] == 0 && result[65] == 0xB9);
    CHECK(asked(m, 0x200, 74) == 74 && memcmp(result + 36, "PCI FIBRE   ", 12) == 0 && memcmp(result + 48, table + 52, 24) == 0);
    CHECK(edd_write(m->desk, EDD_DESK_SIZE, out, WIDE, &written) == EDD_DONE && written == WIDE && memcmp(out, table, WIDE) == 0);
    /* I2O: 66 is answered as 30, with the pointer; a record of kind 4 behind kind 2 */
    put_wide(table, "I2O", path_16);
    memset(table + 76, 0, 24);
    table[76] = 20, table[78] = 4, table[96] = 4;
    CHECK(open_table(m, table, WIDE + 20, &place) == EDD_DONE);
    all_sizes(m, 1);
    CHECK(asked(m, 0x200, 74) == 74 && memcmp(result + 40, "I2O     ", 8) == 0 && memcmp(result + 56, path_16, 16) == 0);
    CHECK(result[72] == 0 && result[73] == 0x2B);
    CHECK(edd_place(m->desk, EDD_DESK_SIZE, m->arena, ARENA, m->store, STORE, 4, 0x1010) == EDD_DONE);
    CHECK(asked(m, 0x200, 66) == 30 && memcmp(result + 26, "\0\0\1\1", 4) == 0);
    CHECK(edd_write(m->desk, EDD_DESK_SIZE, out, WIDE + 20, &written) == EDD_DONE && memcmp(out, table, WIDE + 20) == 0);
    CHECK(open_table(m, paper_table, 72, &place) == EDD_DONE && place == 77);
    free(out);
    free(table);
}

/* rule: exports::edd_open exports::edd_write read_table */
/* tables with kind 2 that are refused, and blocks that no table leads to */
static void wide_refused(machine *m)
{
    static const struct {
        unsigned word;
        uint8_t byte, value;
    } damages[] = {{14, 0, 0}, {14, 0, 3}, {14, 2, 1}, {15, 0, 1}, {15, 7, 1}, {16 + 14, 0, 1}, {16 + 14, 0, 2}, {16 + 15, 3, 1}};
    uint8_t *table = bytes(8 * 68 + WIDE, 0), *desk = bytes(EDD_DESK_SIZE, 0);
    uint64_t place = 77, written = 77;

    put_wide(table, "ATA", path_16);
    table[0] = 68;
    CHECK(open_table(m, table, WIDE, &place) == EDD_TABLE_LENGTH && place == 0);
    table[0] = 76, table[2] = 1, place = 77;
    CHECK(open_table(m, table, WIDE, &place) == EDD_TABLE_LENGTH && place == 0);
    table[2] = 2, place = 77;
    CHECK(open_table(m, table, WIDE - 5, &place) == EDD_TABLE_CUT_OFF && place == 0);
    table[47] = 0x20; /* "ATA " */
    CHECK(open_table(m, table, WIDE, &place) == EDD_TABLE_FIELD && place == 0);
    memcpy(table, paper_table, 72); /* I2O in kind 1 */
    memcpy(table + 44, "I2O", 3);
    place = 77;
    CHECK(open_table(m, table, 72, &place) == EDD_TABLE_FIELD && place == 0);
    memcpy(table, paper_table, 68);
    put_wide(table + 68, "I2O", no_path);
    CHECK(open_table(m, table, 68 + WIDE, &place) == EDD_TABLE_OVERLAP && place == 68);
    table[68 + 25] = 8;
    CHECK(open_table(m, table, 68 + WIDE, &place) == EDD_TABLE_STORE && place == 68);
    for (size_t i = 0; i < 8 * 68; i++)
        table[i] = i % 68 == 25 ? (uint8_t)(8 * (i / 68)) : paper_table[i % 68];
    put_wide(table + 8 * 68, "USB", no_path);
    CHECK(edd_open(desk, EDD_DESK_SIZE, table, 8 * 68 + WIDE, ARENA, UINT64_MAX, &place) == EDD_TABLE_NINTH_DRIVE && place == 8 * 68);
    /* slot 0 has document 01's drive of kind 1, slot 1 none: other kinds, a path that goes on, and I2O */
    CHECK(open_table(m, paper_table, 72, &place) == EDD_DONE);
    for (size_t i = 0; i < sizeof damages / sizeof damages[0]; i++) {
        memcpy(desk, m->desk, EDD_DESK_SIZE);
        CHECK(edd_write(desk, EDD_DESK_SIZE, table, 72, &written) == EDD_DONE && written == 72);
        desk[1472 + 8 * damages[i].word + damages[i].byte] = damages[i].value;
        CHECK(edd_write(desk, EDD_DESK_SIZE, table, 72, &written) == EDD_DESK_NOT_ACCEPTED);
    }
    memcpy(desk, m->desk, EDD_DESK_SIZE);
    memcpy(desk + 1472 + 8 * 11, "I2O", 3);
    CHECK(edd_write(desk, EDD_DESK_SIZE, table, 72, &written) == EDD_DESK_NOT_ACCEPTED);
    desk[1472 + 8 * 14] = 2; /* in kind 2 it may be */
    CHECK(edd_write(desk, EDD_DESK_SIZE, table, WIDE, &written) == EDD_DONE && written == WIDE);
    free(desk);
    free(table);
}

/* a conversion of a record that lies in a block of its own, into another: 0 with the bytes in made, or 10 and nothing is written */
static uint32_t convert(int up, const uint8_t *record, size_t length, uint8_t *made, size_t room)
{
    uint8_t *in = bytes(length, 0), *out = bytes(room, 11), *before = bytes(room, 11);

    memcpy(in, record, length);
    uint32_t answer = up ? edd_convert_up(in, length, out, room) : edd_convert_down(in, length, out, room);
    CHECK(memcmp(in, record, length) == 0);
    CHECK(answer == EDD_DONE || (answer == EDD_CONVERSION && memcmp(out, before, room) == 0));
    if (answer == EDD_DONE)
        memcpy(made, out, room);
    free(before);
    free(out);
    free(in);
    return answer;
}

static uint32_t convert_up(const uint8_t *record, uint8_t *made)
{
    return convert(1, record, EDD_RECORD_SIZE, made, EDD_RECORD_SIZE_WIDE);
}

static uint32_t convert_down(const uint8_t *record, uint8_t *made)
{
    return convert(0, record, EDD_RECORD_SIZE_WIDE, made, EDD_RECORD_SIZE);
}

/* rule: exports::edd_convert_up exports::edd_convert_down */
/* up and down again, what kind 1 cannot hold, records that are not sound, and slices of other sizes */
static void conversions(void)
{
    static const struct {
        uint8_t at, value;
    } unsound[] = {{0, 0}, {1, 1}, {2, 0}, {2, 3}, {2, 4}, {3, 1}, {17, 0}, {32, 0x80}, {33, 1}, {34, 0}, {35, 8}, {36, 0}, {37, 1},
                   {38, 0}, {38, 64}, {39, 2}, {40, 'p'}, {43, 0x20}, {44, 'X'}, {47, 0x20}, {51, 1}};
    static const size_t sizes[] = {0, 1, 4, 67, 68, 69, 75, 76, 77, 80};
    uint8_t *record = bytes(80, 0), *wide = bytes(80, 0), *made = bytes(80, 0), *again = bytes(80, 0);

    /* kind 1: the bytes of document 01's record, and of one with every path byte set */
    memcpy(record, paper_table, 68);
    for (unsigned i = 0; i < 2; i++) {
        memcpy(wide, record, 68);
        memset(wide + 68, 0, 8);
        wide[0] = 76, wide[2] = 2;
        CHECK(convert_up(record, made) == EDD_DONE && memcmp(made, wide, 76) == 0);
        CHECK(convert_down(made, again) == EDD_DONE && memcmp(again, record, 68) == 0);
        CHECK(convert_up(again, made) == EDD_DONE && memcmp(made, wide, 76) == 0);
        memset(record + 52, 0xC3, 16);
    }
    /* the store and other drives are not asked for: a first block that is past every store */
    memset(record + 24, 0xFF, 8);
    CHECK(convert_up(record, made) == EDD_DONE && convert_down(made, again) == EDD_DONE && memcmp(again, record, 68) == 0);
    /* what is lost downward: any of the last eight bytes, and I2O, which is no interface of kind 1 */
    for (unsigned i = 68; i < 76; i++) {
        made[i] = 0x80;
        CHECK(convert_down(made, again) == EDD_CONVERSION);
        made[i] = 0;
    }
    CHECK(convert_down(made, again) == EDD_DONE);
    put_wide(made, "I2O", no_path);
    CHECK(convert_down(made, again) == EDD_CONVERSION);
    made[0] = 68, made[2] = 1;
    CHECK(convert_up(made, again) == EDD_CONVERSION);
    /* records that are not sound, and the other kind's record */
    for (size_t i = 0; i < sizeof unsound / sizeof unsound[0]; i++) {
        memcpy(record, paper_table, 68);
        CHECK(convert_up(record, made) == EDD_DONE);
        record[unsound[i].at] = made[unsound[i].at] = unsound[i].value;
        CHECK(convert_up(record, again) == EDD_CONVERSION);
        CHECK(convert_down(made, again) == EDD_CONVERSION);
    }
    memcpy(record, paper_table, 72);
    memset(record + 72, 0, 8);
    put_wide(wide, "ATA", no_path);
    CHECK(convert_down(record, again) == EDD_CONVERSION && convert_up(wide, again) == EDD_CONVERSION);
    for (size_t i = 0; i < sizeof sizes / sizeof sizes[0]; i++) {
        for (size_t j = 0; j < sizeof sizes / sizeof sizes[0]; j++) {
            uint32_t up = sizes[i] == 68 && sizes[j] == 76 ? EDD_DONE : EDD_CONVERSION;
            uint32_t down = sizes[i] == 76 && sizes[j] == 68 ? EDD_DONE : EDD_CONVERSION;
            CHECK(convert(1, record, sizes[i], again, sizes[j]) == up && convert(1, wide, sizes[i], again, sizes[j]) == EDD_CONVERSION);
            CHECK(convert(0, wide, sizes[i], again, sizes[j]) == down && convert(0, record, sizes[i], again, sizes[j]) == EDD_CONVERSION);
        }
    }
    CHECK(edd_convert_up(NULL, 0, NULL, 0) == EDD_CONVERSION && edd_convert_down(NULL, 0, NULL, 0) == EDD_CONVERSION);
    free(again);
    free(made);
    free(wide);
    free(record);
}

/* rule: exports::edd_write exports::edd_post exports::edd_turn exports::edd_collect exports::edd_withdraw */
static void house_refusals(machine *m)
{
    registers given = set(0x4100, 0x55AA, 2, 0x0080, 6, 7, 8), r = given;
    uint64_t guest = 77, moved = 77, written = 77;
    uint8_t *desk = bytes(EDD_DESK_SIZE, 0);

    CHECK(post(m, 8, &r) == EDD_NO_SUCH_GUEST);
    CHECK(collect(m, 8, &r) == EDD_NO_SUCH_GUEST);
    CHECK(withdraw(m, UINT64_MAX, &r) == EDD_NO_SUCH_GUEST);
    CHECK(edd_post(m->desk, EDD_DESK_SIZE, m->arena, ARENA - 1, m->store, STORE, 0, &r.ax, &r.bx, &r.cx, &r.dx, 0, 0, 0, &r.carry) ==
          EDD_LENGTH_DIFFERS);
    CHECK(edd_turn(m->desk, EDD_DESK_SIZE, m->arena, ARENA, NULL, 0, &guest, &moved) == EDD_LENGTH_DIFFERS);
    CHECK(edd_turn(NULL, 0, NULL, 0, NULL, 0, &guest, &moved) == EDD_DESK_NOT_ACCEPTED);
    memcpy(desk, m->desk, EDD_DESK_SIZE);
    desk[8 * 313] = 8; /* the turn pointer */
    CHECK(edd_turn(desk, EDD_DESK_SIZE, m->arena, ARENA, m->store, STORE, &guest, &moved) == EDD_DESK_NOT_ACCEPTED);
    CHECK(edd_write(desk, EDD_DESK_SIZE, NULL, 0, &written) == EDD_DESK_NOT_ACCEPTED);
    CHECK(same(r, given) && guest == 77 && moved == 77 && written == 77);
    free(desk);
}

/* three drives of 512 blocks, the second with a record of kind 4, the third of kind 2 and with three bad blocks, and the end record */
enum { THIRD = 2 * 68 + 20, LIST = THIRD + 76, THREE = LIST + 30 + 4 };

static uint8_t *three_drives(void)
{
    uint8_t *table = bytes(THREE, 0), *at = table;

    for (unsigned i = 0; i < 3; i++, at += 68) {
        memcpy(at, paper_table, 68);
        at[17] = 2, at[25] = (uint8_t)(2 * i); /* blocks, and the first of them */
        at[34] = 1, at[36] = 8;                /* 1 cylinder, 8 heads, 63 sectors */
        if (i == 1) {
            at[68] = 20, at[70] = 4, at[72] = 1;
            memset(at + 74, 0x5A, 14);
            at += 20;
        }
    }
    table[THIRD] = 76, table[THIRD + 2] = 2;
    memcpy(table + THIRD + 60, "a longer path...", 16);
    at = table + LIST;
    at[0] = 30, at[2] = 3, at[4] = 2, at[6] = 7, at[14] = 9, at[23] = 1; /* 7, 9 and 256 */
    at[30] = 4;
    return table;
}

/* the end of a pipe to read from, into which those bytes were written and which was then closed on the other side */
static int pipe_with(const uint8_t *table, size_t length)
{
    int ends[2] = {-1, -1};

    CHECK(pipe(ends) == 0 && write(ends[1], table, length) == (ssize_t)length && close(ends[1]) == 0);
    return ends[0];
}

/* feeds bytes that lie in a block of their own, with nothing behind them */
static uint32_t feed(uint8_t *reader, const uint8_t *from, size_t length, uint64_t *place)
{
    uint8_t *fragment = bytes(length, 0);
    memcpy(fragment, from, length);
    uint32_t answer = edd_reader_feed(reader, EDD_READER_SIZE, fragment, length, place);
    free(fragment);
    return answer;
}

/* rule: exports::edd_reader_open exports::edd_reader_feed exports::edd_reader_end exports::edd_reader_write */
/* a table out of a pipe in pieces of that size, and a desk opened with it */
static void table_through_a_pipe(machine *m, size_t piece)
{
    uint8_t *table = three_drives(), *buffer = bytes(piece, 0);
    uint8_t *reader = bytes(EDD_READER_SIZE, 3), *out = bytes(THREE, 5);
    uint64_t place = 77, written = 77;
    size_t pieces = 0;
    ssize_t n;
    int from = pipe_with(table, THREE);

    CHECK(edd_reader_open(reader, EDD_READER_SIZE, STORE) == EDD_DONE);
    while ((n = read(from, buffer, piece)) > 0) {
        pieces++;
        CHECK(feed(reader, buffer, (size_t)n, &place) == EDD_NOTHING_YET);
        CHECK(edd_reader_feed(reader, EDD_READER_SIZE, NULL, 0, &place) == EDD_NOTHING_YET);
        CHECK(edd_reader_write(reader, EDD_READER_SIZE, out, THREE, &written) == EDD_NOTHING_YET);
    }
    CHECK(n == 0 && close(from) == 0 && pieces == (THREE + piece - 1) / piece);
    CHECK(edd_reader_end(reader, EDD_READER_SIZE, &place) == EDD_DONE);
    CHECK(edd_reader_write(reader, EDD_READER_SIZE, out, THREE - 1, &written) == EDD_BUFFER_SHORT);
    CHECK(edd_reader_write(reader, EDD_READER_SIZE, NULL, 0, &written) == EDD_BUFFER_SHORT);
    CHECK(out[0] == 0 && out[THREE - 1] == (uint8_t)((THREE - 1) * 5 >> 5) && place == 77 && written == 77);
    CHECK(edd_reader_write(reader, EDD_READER_SIZE, out, THREE, &written) == EDD_DONE && written == THREE);
    CHECK(memcmp(out, table, THREE) == 0);
    /* bytes after the end are ignored, and the answer stays */
    CHECK(feed(reader, table, THREE, &place) == EDD_DONE);
    CHECK(edd_reader_feed(reader, EDD_READER_SIZE, NULL, 0, &place) == EDD_DONE);
    CHECK(edd_reader_end(reader, EDD_READER_SIZE, &place) == EDD_DONE && place == 77);
    /* the desk has those drives */
    CHECK(edd_open(m->desk, EDD_DESK_SIZE, out, (size_t)written, ARENA, STORE, &place) == EDD_DONE && place == 77);
    memset(out, 0, THREE);
    CHECK(edd_write(m->desk, EDD_DESK_SIZE, out, THREE, &written) == EDD_DONE && memcmp(out, table, THREE) == 0);
    free(buffer);
    free(out);
    free(reader);
    free(table);
}

/* fed in two pieces, cut at a place: the refusal comes with the second, is repeated, and nothing changes any more */
static void refused_once_and_for_all(const uint8_t *table, size_t length, size_t cut, uint32_t number, uint64_t at)
{
    uint8_t *reader = bytes(EDD_READER_SIZE, 3), *kept = bytes(EDD_READER_SIZE, 0), *out = bytes(EDD_TABLE_SIZE_MAX, 5);
    uint64_t place = 77, written = 77;

    CHECK(edd_reader_open(reader, EDD_READER_SIZE, STORE) == EDD_DONE);
    CHECK(feed(reader, table, cut, &place) == EDD_NOTHING_YET && place == 77);
    if (number == EDD_TABLE_CUT_OFF) {
        CHECK(feed(reader, table + cut, length - cut, &place) == EDD_NOTHING_YET && place == 77);
        CHECK(edd_reader_end(reader, EDD_READER_SIZE, &place) == number && place == at);
    } else {
        CHECK(feed(reader, table + cut, length - cut, &place) == number && place == at);
    }
    memcpy(kept, reader, EDD_READER_SIZE);
    for (unsigned i = 0; i < 2; i++) {
        place = 77;
        CHECK(feed(reader, paper_table, 72, &place) == number && place == at);
        place = 77;
        CHECK(edd_reader_feed(reader, EDD_READER_SIZE, NULL, 0, &place) == number && place == at);
        place = 77;
        CHECK(edd_reader_end(reader, EDD_READER_SIZE, &place) == number && place == at);
        CHECK(edd_reader_write(reader, EDD_READER_SIZE, out, EDD_TABLE_SIZE_MAX, &written) == number);
        CHECK(edd_reader_write(reader, EDD_READER_SIZE, NULL, 0, &written) == number);
    }
    CHECK(memcmp(reader, kept, EDD_READER_SIZE) == 0 && written == 77 && out[100] == (uint8_t)(100 * 5 >> 5));
    /* until it is opened anew */
    place = 77;
    CHECK(edd_reader_open(reader, EDD_READER_SIZE, STORE) == EDD_DONE);
    CHECK(feed(reader, paper_table, 72, &place) == EDD_NOTHING_YET);
    CHECK(edd_reader_end(reader, EDD_READER_SIZE, &place) == EDD_DONE && place == 77);
    free(out);
    free(kept);
    free(reader);
}

/* rule: exports::edd_reader_feed exports::edd_reader_end exports::edd_reader_write refused_at */
static void fragments_refused(void)
{
    uint8_t *table = three_drives(), *longer = bytes(THREE + 1, 0);

    memcpy(longer, table, THREE);
    refused_once_and_for_all(longer, THREE + 1, THREE, EDD_TABLE_TRAILING, THREE);
    refused_once_and_for_all(table, THREE - 1, 100, EDD_TABLE_CUT_OFF, THREE - 4);
    refused_once_and_for_all(table, 60, 0, EDD_TABLE_CUT_OFF, 0);
    longer[0] = 67; /* settled by the fourth byte */
    refused_once_and_for_all(longer, 4, 3, EDD_TABLE_LENGTH, 0);
    longer[0] = 68, longer[68 + 2] = 5;
    refused_once_and_for_all(longer, 68 + 4, 68 + 3, EDD_TABLE_KIND, 68);
    longer[68 + 2] = 2; /* kind 2 of length 68, kind 1 of length 76 */
    refused_once_and_for_all(longer, 68 + 4, 68 + 3, EDD_TABLE_LENGTH, 68);
    longer[68 + 2] = 1, longer[THIRD + 2] = 1;
    refused_once_and_for_all(longer, THIRD + 4, THIRD + 3, EDD_TABLE_LENGTH, THIRD);
    longer[THIRD + 2] = 2, longer[THIRD + 51] = 0x20; /* a name that is filled with spaces; known with the last byte of kind 2 */
    refused_once_and_for_all(longer, THIRD + 76, THIRD + 75, EDD_TABLE_FIELD, THIRD);
    longer[THIRD + 51] = 0, longer[68 + 39] = 2; /* by the last byte of a record */
    refused_once_and_for_all(longer, 2 * 68, 2 * 68 - 1, EDD_TABLE_FIELD, 68);
    longer[68 + 39] = 0, longer[68 + 30] = 1;
    refused_once_and_for_all(longer, THREE + 1, 2 * 68 - 1, EDD_TABLE_STORE, 68);
    longer[68 + 30] = 0, longer[68 + 25] = 1;
    refused_once_and_for_all(longer, THREE, 20, EDD_TABLE_OVERLAP, 68);
    longer[68 + 25] = 2, longer[136 + 4] = 0;
    refused_once_and_for_all(longer, 156, 155, EDD_TABLE_NOT_LAST, 136);
    longer[136 + 4] = 1, longer[LIST + 14] = 7; /* bad blocks: 7 twice; of another drive; of half a number */
    refused_once_and_for_all(longer, LIST + 30, LIST + 29, EDD_TABLE_FIELD, LIST);
    longer[LIST + 14] = 9, longer[LIST + 4] = 1;
    refused_once_and_for_all(longer, LIST + 30, LIST + 29, EDD_TABLE_NOT_LAST, LIST);
    longer[LIST + 4] = 2, longer[LIST] = 26;
    refused_once_and_for_all(longer, LIST + 4, LIST + 3, EDD_TABLE_LENGTH, LIST);
    uint8_t *nine = bytes(9 * 68, 0);
    for (size_t i = 0; i < 9; i++) {
        memcpy(nine + 68 * i, table, 68);
        nine[68 * i + 16] = 63, nine[68 * i + 17] = 0, nine[68 * i + 36] = 1;
        nine[68 * i + 24] = (uint8_t)(63 * i), nine[68 * i + 25] = (uint8_t)(63 * i >> 8);
    }
    refused_once_and_for_all(nine, 9 * 68, 9 * 68 - 1, EDD_TABLE_NINTH_DRIVE, 8 * 68);
    free(nine);
    free(longer);
    free(table);
}

/* a block that is no reader's: refused by the three calls, and nothing is written */
static void no_reader(uint8_t *block, size_t length)
{
    uint8_t *before = bytes(length, 0), *out = bytes(72, 5);
    uint64_t place = 77, written = 77;

    memcpy(before, block, length);
    CHECK(edd_reader_feed(block, length, paper_table, 72, &place) == EDD_DESK_NOT_ACCEPTED);
    CHECK(edd_reader_feed(block, length, NULL, 0, &place) == EDD_DESK_NOT_ACCEPTED);
    CHECK(edd_reader_end(block, length, &place) == EDD_DESK_NOT_ACCEPTED);
    CHECK(edd_reader_write(block, length, out, 72, &written) == EDD_DESK_NOT_ACCEPTED);
    CHECK(edd_reader_write(block, length, NULL, 0, &written) == EDD_DESK_NOT_ACCEPTED);
    CHECK(memcmp(block, before, length) == 0 && place == 77 && written == 77 && out[71] == (uint8_t)(71 * 5 >> 5));
    free(out);
    free(before);
}

/* rule: exports::edd_reader_size exports::edd_reader_open Reader.accepted */
static void readers_not_accepted(void)
{
    static const size_t sizes[] = {0, 1, EDD_READER_SIZE - 1, EDD_READER_SIZE + 1, EDD_DESK_SIZE};
    uint8_t *reader = bytes(EDD_READER_SIZE, 0);
    uint64_t place = 77;

    CHECK(edd_reader_size() == EDD_READER_SIZE);
    no_reader(reader, EDD_READER_SIZE); /* zeros */
    for (size_t i = 0; i < sizeof sizes / sizeof sizes[0]; i++) {
        uint8_t *other = bytes(sizes[i] + 1, 0);
        CHECK(edd_reader_open(other, sizes[i], STORE) == EDD_DESK_NOT_ACCEPTED && other[0] == 0);
        no_reader(other, sizes[i]);
        free(other);
    }
    CHECK(edd_reader_open(NULL, 0, STORE) == EDD_DESK_NOT_ACCEPTED);
    /* a good one with some byte changed: the course, the number, what is held, the table and what follows it */
    CHECK(edd_reader_open(reader, EDD_READER_SIZE, STORE) == EDD_DONE);
    CHECK(feed(reader, paper_table, 70, &place) == EDD_NOTHING_YET);
    static const size_t changed[] = {0,  7,  8,   15,  25,       31,       32,
                                     39, 42, 173, 174, 174 + 39, 174 + 68, EDD_READER_SIZE - 1};
    for (size_t i = 0; i < sizeof changed / sizeof changed[0]; i++) {
        reader[changed[i]] = (uint8_t)(reader[changed[i]] + 2);
        no_reader(reader, EDD_READER_SIZE);
        reader[changed[i]] = (uint8_t)(reader[changed[i]] - 2);
    }
    CHECK(feed(reader, paper_table + 70, 2, &place) == EDD_NOTHING_YET);
    CHECK(edd_reader_end(reader, EDD_READER_SIZE, &place) == EDD_DONE && place == 77);
    free(reader);
}

/* rule: exports::edd_reader_feed */
/* the header's example: good, refused, ended too soon, and with nothing in it */
static void example_of_the_pipe(machine *m)
{
    uint8_t *table = three_drives(), *out = bytes(THREE, 0);
    uint64_t written = 77;
    int from = pipe_with(table, THREE);

    CHECK(open_from_pipe(m->desk, from, ARENA, STORE) == EDD_DONE && close(from) == 0);
    CHECK(edd_write(m->desk, EDD_DESK_SIZE, out, THREE, &written) == EDD_DONE && memcmp(out, table, THREE) == 0);
    table[39] = 7;
    from = pipe_with(table, THREE);
    CHECK(open_from_pipe(m->desk, from, ARENA, STORE) == EDD_TABLE_FIELD);
    /* it has read 128 bytes and no more */
    CHECK(read(from, out, THREE) == THREE - 128 && memcmp(out, table + 128, THREE - 128) == 0 && close(from) == 0);
    table[39] = 0;
    from = pipe_with(table, 200);
    CHECK(open_from_pipe(m->desk, from, ARENA, STORE) == EDD_TABLE_CUT_OFF && close(from) == 0);
    from = pipe_with(table, 0);
    CHECK(open_from_pipe(m->desk, from, ARENA, STORE) == EDD_TABLE_CUT_OFF && close(from) == 0);
    CHECK(edd_write(m->desk, EDD_DESK_SIZE, out, THREE, &written) == EDD_DONE && written == THREE);
    free(out);
    free(table);
}

/* rule: exports::edd_window exports::edd_block exports::edd_address */
static void numbers(void)
{
    uint64_t start = 77, length = 77;
    uint32_t block = 77, cylinder = 77, head = 77, sector = 77;

    CHECK(edd_window(4103, 3, &start, &length) == EDD_DONE && start == 3 * 512 && length == 512);
    CHECK(edd_window(4103, 8, &start, &length) == EDD_DONE && start == 0 && length == 0);
    CHECK(edd_block(1024, 16, 63, 0, 0, 0, &block) == EDD_OUTSIDE && block == 77);
    CHECK(edd_block(1024, 16, 63, 1023, 15, 63, &block) == EDD_DONE && block == 1032191);
    CHECK(edd_address(1024, 16, 63, 1032192, &cylinder, &head, &sector) == EDD_OUTSIDE && cylinder == 77 && head == 77 && sector == 77);
    CHECK(edd_address(1024, 16, 63, UINT64_C(1) << 32, &cylinder, &head, &sector) == EDD_OUTSIDE);
    CHECK(edd_address(1024, 16, 63, 1032191, &cylinder, &head, &sector) == EDD_DONE && cylinder == 1023 && head == 15 && sector == 63);
}

int main(void)
{
    machine m;
    m.desk = bytes(EDD_DESK_SIZE, 1);
    m.arena = bytes(ARENA, 5);
    m.store = bytes(STORE, 7);

    CHECK(read_first_block(m.desk, paper_table, 72, m.arena, ARENA, m.store, STORE) == 0);
    CHECK(memcmp(m.arena + 2 * WINDOW + 0x200, m.store, EDD_BLOCK_SIZE) == 0);
    CHECK(read_first_block(m.desk, paper_table + 68, 4, m.arena, ARENA, m.store, STORE) == EDD_AH_BAD_PARAMETER);
    CHECK(read_first_block(m.desk, paper_table, 70, m.arena, ARENA, m.store, STORE) == -1);
    opening_and_table(&m);
    table_refusals();
    two_guests(&m);
    withdrawal(&m);
    at_once(&m);
    protected_drive(&m);
    parameter_tables(&m);
    information_flags(&m);
    worn_disk(&m);
    device_paths(&m);
    wide_refused(&m);
    conversions();
    house_refusals(&m);
    table_through_a_pipe(&m, 1);
    table_through_a_pipe(&m, 3);
    table_through_a_pipe(&m, 67);
    table_through_a_pipe(&m, 68);
    table_through_a_pipe(&m, 69);
    table_through_a_pipe(&m, 75);
    table_through_a_pipe(&m, 76);
    table_through_a_pipe(&m, 77);
    fragments_refused();
    readers_not_accepted();
    example_of_the_pipe(&m);
    numbers();
    free(m.desk);
    free(m.arena);
    free(m.store);
    printf("c: %d checks, %d failed\n", checks, failed);
    return failed != 0;
}
