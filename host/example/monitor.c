/*
 * A monitor to copy. It goes by the numbers that the calls answer and keeps no count of its own. All calls on the desk, its arena
 * and its store run under one lock. Between calls the lock is free, so that other guests can post. A guest that waits gives turns
 * itself; a turn serves whoever is next, so each waiting guest helps all others, and no further thread is needed.
 */
#include "monitor.h"

uint32_t monitor_open(struct monitor *m, const uint8_t *table, size_t table_length, uint8_t *arena, size_t arena_length,
                      uint8_t *store, size_t store_length, uint64_t *place)
{
    if (edd_version() != EDD_VERSION)
        return EDD_DESK_NOT_ACCEPTED;
    uint32_t answer = edd_open(m->desk, sizeof m->desk, table, table_length, arena_length, store_length, place);
    if (answer != EDD_DONE)
        return answer;
    pthread_mutex_init(&m->lock, NULL);
    m->arena = arena;
    m->arena_length = arena_length;
    m->store = store;
    m->store_length = store_length;
    return EDD_DONE;
}

void monitor_close(struct monitor *m)
{
    pthread_mutex_destroy(&m->lock);
}

static uint32_t post(struct monitor *m, uint64_t guest, struct registers *r)
{
    pthread_mutex_lock(&m->lock);
    uint32_t answer = edd_post(m->desk, sizeof m->desk, m->arena, m->arena_length, m->store, m->store_length, guest, &r->ax, &r->bx,
                               &r->cx, &r->dx, r->ds, r->si, r->es, &r->carry);
    pthread_mutex_unlock(&m->lock);
    return answer;
}

/* 256, idle, is a good answer too: another guest's turn may have been the last that this request needed. */
static uint32_t turn(struct monitor *m)
{
    uint64_t served, moved;
    pthread_mutex_lock(&m->lock);
    uint32_t answer = edd_turn(m->desk, sizeof m->desk, m->arena, m->arena_length, m->store, m->store_length, &served, &moved);
    pthread_mutex_unlock(&m->lock);
    return answer == EDD_NOTHING_YET ? EDD_DONE : answer;
}

static uint32_t collect(struct monitor *m, uint64_t guest, struct registers *r)
{
    pthread_mutex_lock(&m->lock);
    uint32_t answer =
        edd_collect(m->desk, sizeof m->desk, guest, &r->ax, &r->bx, &r->cx, &r->dx, &r->ds, &r->si, &r->es, &r->carry);
    pthread_mutex_unlock(&m->lock);
    return answer;
}

uint32_t monitor_int13(struct monitor *m, uint64_t guest, struct registers *r)
{
    uint32_t answer = post(m, guest, r);
    if (answer != EDD_NOTHING_YET)
        return answer; /* answered at once, or refused */
    do {
        answer = turn(m);
        if (answer == EDD_DONE)
            answer = collect(m, guest, r);
    } while (answer == EDD_NOT_FINISHED);
    return answer;
}
