/*
 * How much stack a call uses: each runs on a stack of its own, filled with a pattern, and what it has overwritten is counted. The header
 * promises two limits to hosts whose threads have small stacks. STANDIN: the model reads the whole desk in every call, and is held to the
 * larger one only.
 */
#include <stdio.h>
#include <string.h>
#include <ucontext.h>

#include "edd_desk.h"

enum { STACK = 256 * 1024, PATTERN = 0xa5, WINDOW = 65536, DRIVE_BLOCKS = 64, PACKET = 0x100 };

static _Alignas(64) uint8_t stack[STACK];
static ucontext_t caller, callee;
static uint8_t desk[EDD_DESK_SIZE], reader[EDD_READER_SIZE], table[EDD_TABLE_SIZE_MAX], out[EDD_TABLE_SIZE_MAX];
static size_t fed, piece; /* of the table, so far and next */
static uint8_t arena[EDD_GUESTS * WINDOW], store[EDD_DRIVES * DRIVE_BLOCKS * EDD_BLOCK_SIZE];
static uint16_t ax, bx, cx, dx, ds, si, es, carry;
static uint64_t first, second;
static uint32_t answer, small[3];
#ifdef STANDIN
enum { DESK_LIMIT = EDD_STACK_MAX };
#else
enum { DESK_LIMIT = EDD_STACK_DESK_MAX };
#endif
static size_t limit = EDD_STACK_MAX, most_of_all, most_at_desk, *most = &most_of_all;
static int bad;

static void do_open(void)
{
    answer = edd_open(desk, sizeof desk, table, sizeof table, sizeof arena, sizeof store, &first);
}

static void do_write(void)
{
    answer = edd_write(desk, sizeof desk, out, sizeof out, &first);
}

static void do_post(void)
{
    answer = edd_post(desk, sizeof desk, arena, sizeof arena, store, sizeof store, 7, &ax, &bx, &cx, &dx, ds, si, es, &carry);
}

static void do_turn(void)
{
    answer = edd_turn(desk, sizeof desk, arena, sizeof arena, store, sizeof store, &first, &second);
}

static void do_collect(void)
{
    answer = edd_collect(desk, sizeof desk, 7, &ax, &bx, &cx, &dx, &ds, &si, &es, &carry);
}

static void do_withdraw(void)
{
    answer = edd_withdraw(desk, sizeof desk, arena, sizeof arena, store, sizeof store, 7, &ax, &bx, &cx, &dx, &ds, &si, &es, &carry);
}

static void do_place(void)
{
    answer = edd_place(desk, sizeof desk, arena, sizeof arena, store, sizeof store, 7, 0x8000);
}

static void do_reader_open(void)
{
    answer = edd_reader_open(reader, sizeof reader, sizeof store);
    fed = 0;
}

static void do_reader_feed(void)
{
    answer = edd_reader_feed(reader, sizeof reader, table + fed, piece, &first);
    fed += piece;
}

static void do_reader_end(void)
{
    answer = edd_reader_end(reader, sizeof reader, &first);
}

static void do_reader_write(void)
{
    answer = edd_reader_write(reader, sizeof reader, out, sizeof out, &first);
}

/* the first drive's record of kind 2 to kind 1, and back */
static void do_convert_down(void)
{
    answer = edd_convert_down(table, EDD_RECORD_SIZE_WIDE, out, EDD_RECORD_SIZE);
}

static void do_convert_up(void)
{
    answer = edd_convert_up(out, EDD_RECORD_SIZE, out + EDD_RECORD_SIZE, EDD_RECORD_SIZE_WIDE);
}

static void do_numbers(void)
{
    answer = edd_window(sizeof arena, 7, &first, &second) + edd_block(4, 1, 16, 3, 0, 16, &small[0]) +
             edd_address(4, 1, 16, 63, &small[0], &small[1], &small[2]) + (edd_version() - EDD_VERSION) +
             (uint32_t)(edd_desk_size() - EDD_DESK_SIZE) + (uint32_t)(edd_reader_size() - EDD_READER_SIZE);
}

/* A stack grows downward, so what lies below the first changed byte was never used. */
static size_t used_stack(void)
{
    size_t untouched = 0;
    while (untouched < STACK && stack[untouched] == PATTERN)
        untouched++;
    return STACK - untouched;
}

static void measure(void (*call)(void), const char *name, uint32_t expected)
{
    memset(stack, PATTERN, STACK);
    getcontext(&callee);
    callee.uc_stack.ss_sp = stack;
    callee.uc_stack.ss_size = STACK;
    callee.uc_link = &caller;
    makecontext(&callee, call, 0);
    swapcontext(&caller, &callee);
    size_t used = used_stack();
    if (answer != expected || used > limit) {
        printf("stack: %s: answer %u, %zu bytes of stack\n", name, (unsigned)answer, used);
        bad = 1;
    }
    if (used > *most)
        *most = used;
}

/* 42h, 43h or 44h of twenty blocks, with its packet in the window; those from 48 on are bad */
static void set_request(unsigned function, uint8_t start)
{
    static const uint8_t packet[16] = { 16, 0, 20, 0, 0, 0x10 };
    memcpy(arena + 7 * WINDOW + PACKET, packet, sizeof packet);
    arena[7 * WINDOW + PACKET + 8] = start;
    ax = (uint16_t)(function << 8), bx = cx = ds = es = 0, dx = 0x87, si = PACKET;
}

/* the whole table in pieces of one size: the last is shorter */
static void measure_reader(size_t size)
{
    measure(do_reader_open, "reader open", EDD_DONE);
    while (fed < sizeof table) {
        piece = sizeof table - fed < size ? sizeof table - fed : size;
        measure(do_reader_feed, "reader feed", EDD_NOTHING_YET);
    }
    measure(do_reader_write, "reader write before the end", EDD_NOTHING_YET);
    measure(do_reader_end, "reader end", EDD_DONE);
    measure(do_reader_write, "reader write", EDD_DONE);
    fed = 0;
    measure(do_reader_feed, "reader feed after the end", EDD_DONE);
    measure(do_reader_end, "reader end again", EDD_DONE);
}

int main(void)
{
    for (unsigned i = 0; i < EDD_DRIVES; i++) {
        uint8_t *drive = table + 230 * i, *list = drive + 76, *parameters = drive + 210;
        drive[0] = 76, drive[2] = 2, drive[16] = DRIVE_BLOCKS, drive[34] = 4, drive[36] = 1, drive[38] = 16;
        drive[24] = (uint8_t)(DRIVE_BLOCKS * i), drive[25] = (uint8_t)(DRIVE_BLOCKS * i >> 8);
        memcpy(drive + 40, "PCI", 3);
        memcpy(drive + 44, "ATA", 3);
        list[0] = 134, list[2] = 3, list[4] = (uint8_t)i;
        for (unsigned j = 0; j < EDD_BAD_BLOCKS; j++)
            list[6 + 8 * j] = (uint8_t)(DRIVE_BLOCKS - EDD_BAD_BLOCKS + j);
        parameters[0] = 20, parameters[2] = 4, parameters[4] = (uint8_t)i;
    }
    table[230 * EDD_DRIVES] = 4;

    measure(do_open, "open", EDD_DONE);
    limit = DESK_LIMIT, most = &most_at_desk;
    measure(do_write, "write", EDD_DONE);
    measure(do_turn, "idle turn", EDD_NOTHING_YET);
    measure(do_place, "place", EDD_DONE);
    set_request(0x42, 0);
    measure(do_post, "post 42h", EDD_NOTHING_YET);
    measure(do_post, "refused post", EDD_ROW_NOT_VACANT);
    measure(do_place, "refused place", EDD_ROW_NOT_VACANT);
    measure(do_turn, "turn", EDD_DONE);
    measure(do_turn, "last turn", EDD_DONE);
    measure(do_collect, "collect", EDD_DONE);
    for (unsigned function = 0x42; function <= 0x43; function++) {
        set_request(function, 40);
        measure(do_post, "post before a bad block", EDD_NOTHING_YET);
        measure(do_turn, "turn at a bad block", EDD_DONE);
        measure(do_collect, "collect after a bad block", EDD_DONE);
    }
    set_request(0x44, 40);
    measure(do_post, "post 44h at a bad block", EDD_DONE);
    set_request(0x42, 0);
    measure(do_post, "post 42h", EDD_NOTHING_YET);
    measure(do_withdraw, "withdraw", EDD_DONE);
    ax = 0x0214, bx = 0x1000, cx = 0x0001;
    measure(do_post, "post 02h", EDD_NOTHING_YET);
    measure(do_withdraw, "withdraw", EDD_DONE);
    for (unsigned i = 0; i < 2; i++) {
        arena[7 * WINDOW + PACKET] = i ? 74 : 66;
        ax = 0x4800;
        measure(do_post, "post 48h", EDD_DONE);
    }
    measure(do_convert_down, "conversion down", EDD_DONE);
    measure(do_convert_up, "conversion up", EDD_DONE);
    out[38] = 64; /* sectors */
    measure(do_convert_up, "conversion, refused", EDD_CONVERSION);
    measure(do_numbers, "window, block, address", EDD_DONE);
    limit = EDD_STACK_MAX, most = &most_of_all;
    measure_reader(sizeof table);
    measure_reader(133);
    measure_reader(67);
    measure_reader(1);
    measure(do_reader_open, "reader open", EDD_DONE);
    measure(do_reader_end, "reader end, refused", EDD_TABLE_CUT_OFF);
    measure(do_reader_write, "reader write, refused", EDD_TABLE_CUT_OFF);
    reader[0] = 4;
    measure(do_reader_feed, "reader feed, not accepted", EDD_DESK_NOT_ACCEPTED);
    printf("stack: opening a desk and a reader's calls use at most %zu bytes of %d, the other calls %zu of %d: %s\n", most_of_all,
           EDD_STACK_MAX, most_at_desk, DESK_LIMIT, bad ? "FAILED" : "ok");
    return bad;
}
