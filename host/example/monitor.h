/*
 * monitor.h - INT 13h for up to eight guests over one desk. Copy this file and monitor.c.
 *
 * A guest's memory is its window of the arena (edd_window). While it is not inside monitor_int13 the guest uses its window freely,
 * without the lock. Anything else that looks at the desk or the store takes the lock.
 */
#ifndef MONITOR_H
#define MONITOR_H

#include <pthread.h>

#include "edd_desk.h"

struct registers {
    uint16_t ax, bx, cx, dx, ds, si, es, carry;
};

struct monitor {
    pthread_mutex_t lock;
    uint8_t desk[EDD_DESK_SIZE];
    uint8_t *arena, *store;
    size_t arena_length, store_length;
};

/*
 * Opens the desk over the caller's arena and store. 0: done, and the caller closes it at the end. 1 to 9: the table is bad, and
 * *place says where. 25: the library is of another version than edd_desk.h.
 */
uint32_t monitor_open(struct monitor *m, const uint8_t *table, size_t table_length, uint8_t *arena, size_t arena_length,
                      uint8_t *store, size_t store_length, uint64_t *place);
void monitor_close(struct monitor *m);

/*
 * One INT 13h of a guest, from the registers that it gives to those that it gets. Call it from the guest's own thread, without
 * the lock; it returns when the request has ended. 0: the registers are those to give the guest. Any other number is a refusal
 * of the host, and the registers are as they were: no guest can cause one, so look for the mistake in the monitor.
 */
uint32_t monitor_int13(struct monitor *m, uint64_t guest, struct registers *r);

#endif
