#include "monitor.h"

#include <errno.h>
#include <stdio.h>
#include <stdlib.h>
#include <string.h>
#include <unistd.h>

#include "tsan.h"

/*
 * A refusal, 19 to 26, says that the monitor itself made a mistake: no guest can cause one. There is no sensible way to go
 * on, so say which call it was and stop.
 */
static void refused(const char *call, uint32_t number)
{
    fprintf(stderr, "monitor: %s refused with %u\n", call, (unsigned)number);
    abort();
}

/* An answer that the header does not allow. To go on would mean to sleep for ever, or to use a wrong number. */
static void impossible(const char *call, const char *what, uint64_t guest)
{
    fprintf(stderr, "monitor: %s: %s (guest %llu)\n", call, what, (unsigned long long)guest);
    abort();
}

/* Feeds a reader what arrives, and writes out the table that it accepts. */
static uint32_t read_table(int from, size_t store_length, uint8_t table[EDD_TABLE_SIZE_MAX], uint64_t *length,
                           uint64_t *place)
{
    uint8_t reader[EDD_READER_SIZE], piece[PIECE];
    uint32_t number = edd_reader_open(reader, sizeof reader, store_length);
    ssize_t got;

    if (number != EDD_DONE)
        refused("edd_reader_open", number);
    do {
        got = read(from, piece, sizeof piece);
        if (got > 0)
            number = edd_reader_feed(reader, sizeof reader, piece, (size_t)got, place);
    } while ((got > 0 && number == EDD_NOTHING_YET) || (got < 0 && errno == EINTR));
    number = edd_reader_end(reader, sizeof reader, place);
    if (number != EDD_DONE)
        return number; /* with the number and the place of the feed, if that refused */
    return edd_reader_write(reader, sizeof reader, table, EDD_TABLE_SIZE_MAX, length);
}

uint32_t monitor_open(struct monitor *m, int table, uint8_t *arena, size_t arena_length, uint8_t *store, size_t store_length,
                      uint64_t *place)
{
    uint8_t whole[EDD_TABLE_SIZE_MAX];
    uint64_t length = 0;

    memset(m, 0, sizeof *m);
    if (edd_version() != EDD_VERSION || edd_desk_size() != sizeof m->desk || edd_reader_size() != EDD_READER_SIZE) {
        fprintf(stderr, "monitor: the library is of another version than its header\n");
        abort();
    }
    pthread_mutex_init(&m->lock, NULL);
    pthread_cond_init(&m->posted, NULL);
    for (unsigned g = 0; g < EDD_GUESTS; g++)
        pthread_cond_init(&m->served[g], NULL);
    m->arena = arena;
    m->arena_length = arena_length;
    m->store = store;
    m->store_length = store_length;
    m->running = EDD_GUESTS;
    uint32_t number = read_table(table, store_length, whole, &length, place);
    if (number != EDD_DONE)
        return number;
    return edd_open(m->desk, sizeof m->desk, whole, (size_t)length, arena_length, store_length, place);
}

void monitor_close(struct monitor *m)
{
    for (unsigned g = 0; g < EDD_GUESTS; g++)
        pthread_cond_destroy(&m->served[g]);
    pthread_cond_destroy(&m->posted);
    pthread_mutex_destroy(&m->lock);
}

void monitor_lock(struct monitor *m)
{
    pthread_mutex_lock(&m->lock);
}

void monitor_unlock(struct monitor *m)
{
    pthread_mutex_unlock(&m->lock);
}

uint8_t *monitor_window(struct monitor *m, unsigned guest)
{
    uint64_t start, length;
    edd_window(m->arena_length, guest, &start, &length);
    return m->arena + start;
}

/* ---- the calls, each with the lock held */

static uint32_t post(struct monitor *m, unsigned guest, struct registers *r)
{
    tsan_desk(m);
    tsan_window(m, guest);
    uint32_t number = edd_post(m->desk, sizeof m->desk, m->arena, m->arena_length, m->store, m->store_length, guest,
                               &r->ax, &r->bx, &r->cx, &r->dx, r->ds, r->si, r->es, &r->carry);
    if (number != EDD_DONE && number != EDD_NOTHING_YET)
        refused("edd_post", number);
    return number;
}

static uint32_t collect(struct monitor *m, unsigned guest, struct registers *r)
{
    tsan_desk(m);
    uint32_t number = edd_collect(m->desk, sizeof m->desk, guest, &r->ax, &r->bx, &r->cx, &r->dx, &r->ds, &r->si, &r->es,
                                  &r->carry);
    if (number != EDD_DONE && number != EDD_NOT_FINISHED)
        refused("edd_collect", number);
    return number;
}

static uint32_t withdraw(struct monitor *m, unsigned guest, struct registers *r)
{
    tsan_desk(m);
    tsan_window(m, guest);
    uint32_t number = edd_withdraw(m->desk, sizeof m->desk, m->arena, m->arena_length, m->store, m->store_length, guest,
                                   &r->ax, &r->bx, &r->cx, &r->dx, &r->ds, &r->si, &r->es, &r->carry);
    if (number != EDD_DONE && number != EDD_NOT_WAITING)
        refused("edd_withdraw", number);
    return number;
}

/* ---- what the monitor notes */

/* A request has waited so many turns and has ended. */
static void note_wait(struct record *n, uint64_t waited, uint64_t limit)
{
    if (waited > limit)
        n->over++;
    if (waited > n->longest) {
        n->longest = waited;
        n->longest_bound = limit;
    }
}

static struct outcome note_ending(struct record *n, const struct registers *r, enum ending ending)
{
    struct outcome outcome = { ending, n->services, n->moved };
    n->requests++;
    n->open = 0;
    if (ending == WITHDRAWN)
        n->withdrawn++;
    else if (r->carry)
        n->refused++;
    return outcome;
}

/* ---- a guest's part */

struct outcome monitor_int13(struct monitor *m, unsigned guest, struct registers *r, int patience)
{
    struct record *n = &m->guest[guest];

    n->services = n->moved = 0;
    if (post(m, guest, r) == EDD_DONE)
        return note_ending(n, r, ANSWERED);

    n->open = 1;
    n->must_have_ended = 0;
    n->accepted = n->served = m->turns;
    pthread_cond_signal(&m->posted);

    /* A wake-up may come for no reason; then edd_collect answers that the row has not finished, and the guest sleeps on. */
    while (collect(m, guest, r) == EDD_NOT_FINISHED) {
        if (n->must_have_ended)
            impossible("edd_collect", "a turn was idle, and a request still waits", guest);
        if (patience >= 0 && n->services >= (uint64_t)patience && withdraw(m, guest, r) == EDD_DONE) {
            note_wait(n, m->turns - n->accepted, 8 * (n->services + 1) - 1); /* not yet the turn that had to serve it */
            return note_ending(n, r, WITHDRAWN);
        }
        pthread_cond_wait(&m->served[guest], &m->lock);
    }
    note_wait(n, n->served - n->accepted, 8 * n->services);
    return note_ending(n, r, FINISHED);
}

void monitor_leave(struct monitor *m)
{
    monitor_lock(m);
    m->running--;
    pthread_cond_signal(&m->posted);
    monitor_unlock(m);
}

/* ---- the host's part */

/* No row waits, so every request that is still open has ended: wake its guest, which collects it or finds the mistake. */
static void wake_all(struct monitor *m)
{
    for (unsigned g = 0; g < EDD_GUESTS; g++) {
        if (m->guest[g].open) {
            m->guest[g].must_have_ended = 1;
            pthread_cond_signal(&m->served[g]);
        }
    }
}

/* The numbers that a turn hands out, before anything is done with them. */
static void check_served(const struct monitor *m, uint64_t guest, uint64_t moved)
{
    if (guest >= EDD_GUESTS)
        impossible("edd_turn", "there is no such guest", guest);
    if (!m->guest[guest].open)
        impossible("edd_turn", "a guest was served that has no request", guest);
    if (moved > EDD_TURN_BLOCKS)
        impossible("edd_turn", "more blocks were moved than a turn may move", guest);
}

void monitor_place(struct monitor *m, unsigned guest, uint64_t address)
{
    monitor_lock(m);
    tsan_desk(m);
    tsan_window(m, guest);
    uint32_t number = edd_place(m->desk, sizeof m->desk, m->arena, m->arena_length, m->store, m->store_length, guest, address);
    if (number != EDD_DONE)
        refused("edd_place", number);
    monitor_unlock(m);
}

int monitor_turn(struct monitor *m)
{
    uint64_t guest = 0, moved = 0;
    uint32_t number;

    monitor_lock(m);
    for (;;) {
        tsan_desk(m);
        number = edd_turn(m->desk, sizeof m->desk, m->arena, m->arena_length, m->store, m->store_length, &guest, &moved);
        if (number != EDD_NOTHING_YET)
            break;
        wake_all(m);
        if (m->running == 0)
            break;
        pthread_cond_wait(&m->posted, &m->lock);
    }
    if (number == EDD_NOTHING_YET) {
        monitor_unlock(m);
        return -1;
    }
    if (number != EDD_DONE)
        refused("edd_turn", number);
    check_served(m, guest, moved);
    tsan_window(m, (unsigned)guest);

    struct record *n = &m->guest[guest];
    m->turns++;
    if (m->turns - n->served > n->longest_gap)
        n->longest_gap = m->turns - n->served;
    n->served = m->turns;
    n->turns++;
    n->services++;
    n->moved += moved;
    n->blocks += moved;
    pthread_cond_signal(&m->served[guest]);
    monitor_unlock(m);
    return (int)guest;
}
