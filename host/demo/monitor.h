/*
 * monitor.h - the demo's monitor around one desk: the desk with its arena and store, one lock, and what is done under it. A
 * guest's thread calls monitor_int13; one other thread calls monitor_turn again and again. It goes by the answers of the
 * calls: it does not know how many blocks a request has, and a request may end sooner or later than its guest thinks. What
 * it counts is for the demo's table and checks. A monitor to copy, without all this, is host/example.
 *
 * The lock. All calls on the desk, its arena and its store run one at a time, under this one lock, and so does whatever
 * else looks at the desk or the store (edd_desk.h, "What may run at the same time"). A guest with no request waiting uses
 * its own window without the lock, even while a call works for another guest: a call touches no other window, which
 * host/touch tests. A guest whose request waits leaves its buffer alone until the request has ended; here it sleeps, and
 * so leaves its whole window alone. A guest must be able to sleep until its blocks have moved. OpenMP's own locks cannot
 * wait for an event, so the lock is a pthread mutex with conditions.
 *
 * The order. A guest posts. If the request waits, the guest sleeps until a turn has served it and then tries to collect;
 * edd_collect itself says whether the request has ended. After that its row is vacant, and it may post again. Instead of
 * waiting on, it may withdraw; if the last turn came first, edd_withdraw says so and there is something to collect.
 */
#ifndef MONITOR_H
#define MONITOR_H

#include <pthread.h>
#include <stddef.h>
#include <stdint.h>

#include "edd_desk.h"

struct registers {
    uint16_t ax, bx, cx, dx, ds, si, es, carry;
};

/* What the monitor notes of a guest. Changed under the lock only. The library needs none of it. */
struct record {
    uint64_t requests;        /* posts that got an answer, at once or after turns */
    uint64_t refused;         /* of these, answered with carry set, but for the withdrawn ones */
    uint64_t withdrawn;       /* of these, withdrawn while they waited */
    uint64_t blocks;          /* blocks moved by turns for this guest */
    uint64_t turns;           /* turns that served this guest */
    uint64_t longest;         /* turns from the post to the end of the request that waited longest */
    uint64_t longest_bound;   /* and the bound of that request, eight turns for each that served it */
    uint64_t longest_gap;     /* most turns from one service to the next, or from the post to the first; the bound is 8 */
    uint64_t over;            /* requests that waited longer than their bound: the theorem says none */

    int open;                 /* a request was answered with 256 and is neither collected nor withdrawn. Of this request: */
    int must_have_ended;      /* a turn was idle since its post, so it cannot be waiting any more */
    uint64_t accepted;        /* monitor->turns at its post */
    uint64_t served;          /* monitor->turns at its last service, or at its post */
    uint64_t services;        /* turns that served it */
    uint64_t moved;           /* blocks that they moved */
};

struct monitor {
    pthread_mutex_t lock;
    pthread_cond_t posted;              /* a row waits, or a guest has ended: wakes the thread that gives turns */
    pthread_cond_t served[EDD_GUESTS];  /* a turn served this guest: wakes the guest */

    uint8_t desk[EDD_DESK_SIZE];
    uint8_t *arena, *store;
    size_t arena_length, store_length;

    uint64_t turns;                     /* turns that served somebody, since the opening */
    unsigned running;                   /* guests that will post again */
    struct record guest[EDD_GUESTS];
};

/* How a request ended: at once, after turns, or withdrawn; how many turns served it, and how many blocks they moved. */
enum ending { ANSWERED, FINISHED, WITHDRAWN };
struct outcome {
    enum ending ending;
    uint64_t services, moved;
};

/*
 * Opens the desk with the table that is read from a file or a pipe, in fragments of at most PIECE bytes as they arrive, up to
 * its end or to the first refusal. The arena and the store are the caller's and stay lent until monitor_close. The result is
 * that of edd_reader_end, or edd_open's.
 */
uint32_t monitor_open(struct monitor *m, int table, uint8_t *arena, size_t arena_length, uint8_t *store, size_t store_length,
                      uint64_t *place);
#define PIECE 64
void monitor_close(struct monitor *m);

void monitor_lock(struct monitor *m);
void monitor_unlock(struct monitor *m);

/*
 * One INT 13h of a guest, from the registers it gives to the registers it gets. Call it with the lock held; it returns with
 * the lock held, and has let others in while the request waited.
 *
 *   patience  withdraw after so many services, if the request still waits; 0 withdraws right after the post, a negative
 *             number never withdraws
 */
struct outcome monitor_int13(struct monitor *m, unsigned guest, struct registers *r, int patience);

/*
 * One turn. Returns the guest that was served, or -1 when no guest will post any more. With no row waiting it sleeps until
 * there is one. Call it without the lock. An idle turn while a request still waits, or a turn for a guest that has no
 * request, would let guests sleep for ever: then the program is stopped with a message.
 */
int monitor_turn(struct monitor *m);

/*
 * Places the parameter tables of all disks at an address of a guest's window. The guest must not run meanwhile: here this is
 * done before its thread starts. Call it without the lock.
 */
void monitor_place(struct monitor *m, unsigned guest, uint64_t address);

/* A guest's thread has made its last call. Call it without the lock. */
void monitor_leave(struct monitor *m);

/* The start of a guest's window. It is the guest's own while no request of the guest waits; see "The lock". */
uint8_t *monitor_window(struct monitor *m, unsigned guest);

#endif
