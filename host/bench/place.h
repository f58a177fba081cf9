/*
 * place.h - a desk with its arena and store, as the benchmark needs them, and posts on it.
 */
#ifndef PLACE_H
#define PLACE_H

#include "service.h"

struct place {
    uint8_t desk[EDD_DESK_SIZE];
    uint8_t *arena, *store;
    size_t arena_length, store_length;
    unsigned drives;
};

struct registers {
    uint16_t ax, bx, cx, dx, ds, si, es, carry;
};

/*
 * What the drives' records have behind them, either or both: the bad blocks are sixteen, the last ones of each drive. And whether the
 * records are of kind 2, which are longer by eight bytes of device path.
 */
enum attached { NOTHING = 0, PARAMETERS = 1, BAD_BLOCKS = 2, WIDE = 4 };

/* The table of so many drives, each an eighth of the store. Returns its length. */
size_t place_table(uint8_t table[EDD_TABLE_SIZE_MAX], unsigned drives, unsigned attached, size_t store_length);

/* Opens a desk over an arena and a store. Stops the program if the table is refused. */
void place_open(struct place *p, const struct service *s, unsigned drives, unsigned attached, uint8_t *arena, size_t arena_length,
                uint8_t *store, size_t store_length);

/* The first bad block of every drive. */
static inline uint64_t place_first_bad(const struct place *p)
{
    return p->store_length / EDD_BLOCK_SIZE / EDD_DRIVES - EDD_BAD_BLOCKS;
}

/* Lays a packet into the guest's window and gives the registers of 42h or 43h on it. Its place in the window is PACKET. */
struct registers place_packet(struct place *p, unsigned function, unsigned guest, unsigned drive, unsigned count, uint64_t buffer,
                              uint64_t start);

#define PACKET 0x100
#define BUFFER 0x1000
#define TABLES 0x8000 /* where parameter tables are placed */

/* The calls with all that they are lent. */
static inline uint32_t place_post(struct place *p, const struct service *s, uint64_t guest, struct registers *r)
{
    return s->post(p->desk, sizeof p->desk, p->arena, p->arena_length, p->store, p->store_length, guest, &r->ax, &r->bx, &r->cx,
                   &r->dx, r->ds, r->si, r->es, &r->carry);
}

static inline uint32_t place_turn(struct place *p, const struct service *s, uint64_t *guest, uint64_t *moved)
{
    return s->turn(p->desk, sizeof p->desk, p->arena, p->arena_length, p->store, p->store_length, guest, moved);
}

static inline uint32_t place_collect(struct place *p, const struct service *s, uint64_t guest, struct registers *r)
{
    return s->collect(p->desk, sizeof p->desk, guest, &r->ax, &r->bx, &r->cx, &r->dx, &r->ds, &r->si, &r->es, &r->carry);
}

static inline uint32_t place_withdraw(struct place *p, const struct service *s, uint64_t guest, struct registers *r)
{
    return s->withdraw(p->desk, sizeof p->desk, p->arena, p->arena_length, p->store, p->store_length, guest, &r->ax, &r->bx,
                       &r->cx, &r->dx, &r->ds, &r->si, &r->es, &r->carry);
}

static inline uint32_t place_tables(struct place *p, const struct service *s, uint64_t guest, uint64_t address)
{
    return s->place(p->desk, sizeof p->desk, p->arena, p->arena_length, p->store, p->store_length, guest, address);
}

/* Stops the program with what was wrong: a benchmark of wrong answers says nothing. */
void expect(int good, const char *what);

#endif
