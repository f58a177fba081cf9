#include "service.h"

#include <dlfcn.h>
#include <stdio.h>
#include <stdlib.h>
#include <string.h>

static void find(void *object, const char *name, void *pointer)
{
    void *found = dlsym(object, name);
    if (!found) {
        fprintf(stderr, "bench: %s\n", dlerror());
        exit(2);
    }
    memcpy(pointer, &found, sizeof found); /* C has no cast from an object's address to a function's */
}

void service_load(struct service *s, const char *name, const char *path)
{
    void *object = dlopen(path, RTLD_NOW | RTLD_LOCAL);
    if (!object) {
        fprintf(stderr, "bench: %s\n", dlerror());
        exit(2);
    }
    s->name = name;
    find(object, "edd_open", &s->open);
    find(object, "edd_write", &s->write);
    find(object, "edd_post", &s->post);
    find(object, "edd_turn", &s->turn);
    find(object, "edd_collect", &s->collect);
    find(object, "edd_withdraw", &s->withdraw);
    find(object, "edd_place", &s->place);
    find(object, "edd_reader_open", &s->reader_open);
    find(object, "edd_reader_feed", &s->reader_feed);
    find(object, "edd_reader_end", &s->reader_end);
    find(object, "edd_reader_write", &s->reader_write);
    find(object, "edd_convert_up", &s->convert_up);
    find(object, "edd_convert_down", &s->convert_down);
    find(object, "edd_window", &s->window);
    find(object, "edd_block", &s->block);
    find(object, "edd_address", &s->address);
}
