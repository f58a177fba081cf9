/*
 * service.h - the exported calls of one shared object, by name. The proved library and the model have the same C names, so each is
 * loaded by itself, and both are called through the same pointers.
 */
#ifndef SERVICE_H
#define SERVICE_H

#include "edd_desk.h"

struct service {
    const char *name;
    uint32_t (*open)(uint8_t *, size_t, const uint8_t *, size_t, uint64_t, uint64_t, uint64_t *);
    uint32_t (*write)(const uint8_t *, size_t, uint8_t *, size_t, uint64_t *);
    uint32_t (*post)(uint8_t *, size_t, uint8_t *, size_t, const uint8_t *, size_t, uint64_t, uint16_t *, uint16_t *, uint16_t *,
                     uint16_t *, uint16_t, uint16_t, uint16_t, uint16_t *);
    uint32_t (*turn)(uint8_t *, size_t, uint8_t *, size_t, uint8_t *, size_t, uint64_t *, uint64_t *);
    uint32_t (*collect)(uint8_t *, size_t, uint64_t, uint16_t *, uint16_t *, uint16_t *, uint16_t *, uint16_t *, uint16_t *,
                        uint16_t *, uint16_t *);
    uint32_t (*withdraw)(uint8_t *, size_t, uint8_t *, size_t, const uint8_t *, size_t, uint64_t, uint16_t *, uint16_t *,
                         uint16_t *, uint16_t *, uint16_t *, uint16_t *, uint16_t *, uint16_t *);
    uint32_t (*place)(uint8_t *, size_t, uint8_t *, size_t, const uint8_t *, size_t, uint64_t, uint64_t);
    uint32_t (*reader_open)(uint8_t *, size_t, uint64_t);
    uint32_t (*reader_feed)(uint8_t *, size_t, const uint8_t *, size_t, uint64_t *);
    uint32_t (*reader_end)(uint8_t *, size_t, uint64_t *);
    uint32_t (*reader_write)(const uint8_t *, size_t, uint8_t *, size_t, uint64_t *);
    uint32_t (*convert_up)(const uint8_t *, size_t, uint8_t *, size_t);
    uint32_t (*convert_down)(const uint8_t *, size_t, uint8_t *, size_t);
    uint32_t (*window)(uint64_t, uint64_t, uint64_t *, uint64_t *);
    uint32_t (*block)(uint32_t, uint32_t, uint32_t, uint32_t, uint32_t, uint32_t, uint32_t *);
    uint32_t (*address)(uint32_t, uint32_t, uint32_t, uint64_t, uint32_t *, uint32_t *, uint32_t *);
};

/* Loads a shared object. Stops the program, with the reason, where that cannot be done. */
void service_load(struct service *s, const char *name, const char *path);

#endif
