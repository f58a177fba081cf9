/*
 * tsan.h - tells ThreadSanitizer what a call of the library touches. It sees only code that was compiled for it, and the
 * library was not: a call without the lock, or a guest that writes its buffer while a call moves blocks there, would go
 * unnoticed. So, in that build only, the caller itself touches what the call may touch (edd_desk.h, "What may run at the
 * same time"), next to the call and under the same lock: every byte of the desk; one byte in 512 of the window of the guest
 * that is posted, served, withdrawn or placed for, so that no transfer of a block can miss them all; and one byte in 64 KiB of the
 * store. Which guest a turn serves is known only after it, so its window is touched then. In every other build this is
 * empty. A monitor needs none of it.
 */
#ifndef TSAN_H
#define TSAN_H

#include "monitor.h"

#if defined(__has_feature)
#if __has_feature(thread_sanitizer)
#define TSAN 1
#endif
#endif
#if defined(__SANITIZE_THREAD__)
#define TSAN 1
#endif

#ifdef TSAN
static inline void tsan_touch(uint8_t *bytes, size_t length, size_t step)
{
    for (size_t at = 0; at < length; at += step) {
        volatile uint8_t *byte = bytes + at;
        *byte = *byte;
    }
}

static inline void tsan_desk(struct monitor *m)
{
    tsan_touch(m->desk, sizeof m->desk, 1);
    tsan_touch(m->store, m->store_length, 65536);
}

static inline void tsan_window(struct monitor *m, unsigned guest)
{
    tsan_touch(monitor_window(m, guest), m->arena_length / EDD_GUESTS, EDD_BLOCK_SIZE);
}
#else
static inline void tsan_desk(struct monitor *m)
{
    (void)m;
}

static inline void tsan_window(struct monitor *m, unsigned guest)
{
    (void)m;
    (void)guest;
}
#endif

#endif
