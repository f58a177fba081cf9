/*
 * demo - eight guests on OpenMP threads and a ninth thread that gives turns, over one desk, one arena and one store.
 *
 * Every guest works on its own disk, keeps its own copy of what its memory and its disk must hold, and compares after each
 * request: the registers, what it laid down, what it read, and the blocks of the store that it named. At the end the whole
 * store is compared with those copies. Three disks have a device parameter table, which the host places for half of the
 * guests: they follow the pointer of 48h to it. Every guest asks 48h for its disk's device path, and that of one disk, whose
 * record is of kind 2, has all its sixteen bytes. One disk is worn: its guest meets bad blocks, gets the good ones before them,
 * and reads on behind them. The drive table comes from another process through a pipe, and is read as it arrives. For a
 * monitor of your own, copy host/example, not this.
 *
 *   demo [-r requests] [-s seed] [-p pause]
 */
#include <omp.h>
#include <stdarg.h>
#include <stdio.h>
#include <stdlib.h>
#include <string.h>
#include <sys/wait.h>
#include <time.h>
#include <unistd.h>

#include "disks.h"
#include "guest.h"
#include "monitor.h"

#define ARENA_LENGTH (EDD_GUESTS * (size_t)WINDOW_SIZE + 5) /* five bytes that belong to nobody */
#define STORE_LENGTH ((size_t)STORE_BLOCKS * EDD_BLOCK_SIZE)
#define NOBODY 0xa5 /* what bytes that belong to no guest hold */

struct options {
    uint64_t requests, seed, pause;
};

/* ---- options */

static uint64_t number(const char *text)
{
    char *end;
    unsigned long long value = strtoull(text, &end, 0);
    if (*text == 0 || *text == '-' || *end != 0) {
        fprintf(stderr, "demo: %s is not a number\n", text);
        exit(2);
    }
    return value;
}

static struct options read_options(int argc, char **argv)
{
    struct options o = { 3000, 1, 20 };
    int letter;
    while ((letter = getopt(argc, argv, "r:s:p:")) != -1) {
        switch (letter) {
        case 'r': o.requests = number(optarg); break;
        case 's': o.seed = number(optarg); break;
        case 'p': o.pause = number(optarg); break;
        default: optind = argc + 1;
        }
    }
    if (optind != argc) {
        fprintf(stderr, "usage: demo [-r requests of each guest] [-s seed] [-p pause after each turn, microseconds]\n");
        exit(2);
    }
    return o;
}

/* ---- what is seen while it runs */

static double now(void)
{
    struct timespec t;
    clock_gettime(CLOCK_MONOTONIC, &t);
    return (double)t.tv_sec + (double)t.tv_nsec / 1e9;
}

static void rest(uint64_t microseconds)
{
    struct timespec t = { (time_t)(microseconds / 1000000), (long)(microseconds % 1000000) * 1000 };
    if (microseconds)
        nanosleep(&t, NULL);
}

/* A line for each guest. The counts are copied under the lock and printed without it: a terminal can be slow. */
static void show(struct monitor *m, uint64_t requests, int redraw)
{
    struct record copy[EDD_GUESTS];
    monitor_lock(m);
    memcpy(copy, m->guest, sizeof copy);
    monitor_unlock(m);

    if (redraw)
        printf("\033[%dA", EDD_GUESTS);
    for (unsigned g = 0; g < EDD_GUESTS; g++) {
        char bar[31] = "..............................";
        memset(bar, '#', requests ? copy[g].requests * 30 / requests : 30);
        printf("guest %u  %-10s [%s] %8llu requests %10llu blocks %8llu turns\n", g, guest_workload(g), bar,
               (unsigned long long)copy[g].requests, (unsigned long long)copy[g].blocks,
               (unsigned long long)copy[g].turns);
    }
    fflush(stdout);
}

/* ---- the host's thread */

static void give_turns(struct monitor *m, const struct options *o)
{
    int terminal = isatty(STDOUT_FILENO);
    double interval = terminal ? 0.1 : 3.0, next = now() + interval;

    if (terminal)
        show(m, o->requests, 0);
    while (monitor_turn(m) >= 0) {
        if (now() >= next) {
            show(m, o->requests, terminal);
            if (!terminal)
                printf("\n");
            next = now() + interval;
        }
        rest(o->pause);
    }
    show(m, o->requests, terminal);
}

/* ---- checks at the end */

#define NO_GUEST EDD_GUESTS /* in place of a guest's number: what belongs to no guest */

/* What was found wrong, and with whom. Only the first lines are printed: a wrong disk may have thousands of wrong blocks. */
struct faults {
    unsigned count;
    unsigned of[EDD_GUESTS + 1];
};

static void fault(struct faults *f, unsigned guest, const char *format, ...)
{
    va_list arguments;
    f->of[guest]++;
    if (f->count++ >= 20)
        return;
    printf("FAULT: ");
    if (guest != NO_GUEST)
        printf("guest %u: ", guest);
    va_start(arguments, format);
    vprintf(format, arguments);
    va_end(arguments);
    printf("\n");
}

static int is_nobodys(const uint8_t *block)
{
    for (unsigned i = 0; i < EDD_BLOCK_SIZE; i++)
        if (block[i] != NOBODY)
            return 0;
    return 1;
}

/* Whose disk has the store block; NO_GUEST where no disk has it. */
static unsigned owner_of(uint64_t block)
{
    unsigned g = 0;
    while (g < EDD_GUESTS && (block < disks[g].first || block - disks[g].first >= disks[g].blocks))
        g++;
    return g;
}

/* The store: every disk as its guest's copy, every other block as it was. */
static void check_store(struct faults *f, const uint8_t *store, const struct guest *guests)
{
    for (uint64_t block = 0; block < STORE_BLOCKS; block++) {
        const uint8_t *found = store + block * EDD_BLOCK_SIZE;
        unsigned g = owner_of(block);
        if (g == NO_GUEST) {
            if (!is_nobodys(found))
                fault(f, g, "store block %llu belongs to nobody and has changed", (unsigned long long)block);
            continue;
        }
        uint64_t own = block - disks[g].first;
        if (memcmp(found, guests[g].disk + own * EDD_BLOCK_SIZE, EDD_BLOCK_SIZE) != 0)
            fault(f, g, "block %llu of its disk is not what it wrote", (unsigned long long)own);
    }
}

/* The arena: every window as its guest's copy, the bytes at its end as they were. */
static void check_arena(struct faults *f, struct monitor *m, const struct guest *guests)
{
    for (unsigned g = 0; g < EDD_GUESTS; g++)
        if (memcmp(monitor_window(m, g), guests[g].memory, WINDOW_SIZE) != 0)
            fault(f, g, "its memory is not what it must be");
    for (size_t at = EDD_GUESTS * (size_t)WINDOW_SIZE; at < ARENA_LENGTH; at++)
        if (m->arena[at] != NOBODY)
            fault(f, NO_GUEST, "arena byte %zu belongs to nobody and has changed", at);
}

/* The desk: the table that it writes is the one that was sent. */
static void check_table(struct faults *f, struct monitor *m, const uint8_t *table, size_t length)
{
    uint8_t out[EDD_TABLE_SIZE_MAX];
    uint64_t written = 0;
    if (edd_write(m->desk, sizeof m->desk, out, sizeof out, &written) != EDD_DONE || written != length ||
        memcmp(out, table, length) != 0)
        fault(f, NO_GUEST, "the table written back is not the table sent");
}

/* The drives' records, each by itself: one of kind 1 goes up and comes down as it was, and that of kind 2 does not go down. */
static void check_conversions(struct faults *f, const uint8_t *table)
{
    uint8_t wide[EDD_RECORD_SIZE_WIDE], narrow[EDD_RECORD_SIZE];
    unsigned drive = 0;
    for (const uint8_t *at = table; at[2] != 0; at += at[0]) { /* no record is longer than 255 bytes */
        if (at[2] == 1) {
            if (edd_convert_up(at, EDD_RECORD_SIZE, wide, sizeof wide) != EDD_DONE || wide[2] != 2 ||
                edd_convert_down(wide, sizeof wide, narrow, sizeof narrow) != EDD_DONE || memcmp(narrow, at, sizeof narrow) != 0)
                fault(f, drive, "its drive's record of kind 1 does not come back from kind 2");
        } else if (at[2] == 2) {
            if (edd_convert_down(at, EDD_RECORD_SIZE_WIDE, narrow, sizeof narrow) != EDD_CONVERSION)
                fault(f, drive, "its drive's record of kind 2 loses half a device path");
        }
        drive += at[2] <= 2;
    }
}

/* The guests' own checks, and the theorem's bounds. */
static void check_guests(struct faults *f, const struct monitor *m, const struct guest *guests, uint64_t requests)
{
    for (unsigned g = 0; g < EDD_GUESTS; g++) {
        const struct record *n = &m->guest[g];
        if (guests[g].failed)
            fault(f, g, "%s", guests[g].fault);
        else if (n->requests != requests)
            fault(f, g, "%llu requests answered of %llu", (unsigned long long)n->requests, (unsigned long long)requests);
        if (n->over)
            fault(f, g, "%llu requests waited longer than 8 * ceil(n / 16) turns", (unsigned long long)n->over);
        if (n->longest_gap > 8)
            fault(f, g, "it waited %llu turns for its next part", (unsigned long long)n->longest_gap);
    }
}

/* The last line, and the exit status. */
static int verdict(const struct faults *f, uint64_t seed)
{
    if (f->count == 0) {
        printf("demo: all guests have what they wrote\n");
        return 0;
    }
    printf("demo: FAILED with seed %llu:", (unsigned long long)seed);
    for (unsigned g = 0; g < EDD_GUESTS; g++)
        if (f->of[g])
            printf(" guest %u (%u faults)", g, f->of[g]);
    if (f->of[NO_GUEST])
        printf(" what belongs to no guest (%u faults)", f->of[NO_GUEST]);
    printf("\n");
    return 1;
}

static void print_table(const struct monitor *m, const struct guest *guests)
{
    uint64_t gap = 0, followed = 0, without = 0, paths = 0;
    printf("\n%-5s  %-10s %9s %10s %9s  %-16s %8s %10s\n", "guest", "workload", "requests", "blocks", "turns",
           "longest wait", "refused", "withdrawn");
    for (unsigned g = 0; g < EDD_GUESTS; g++) {
        const struct record *n = &m->guest[g];
        printf("%-5u  %-10s %9llu %10llu %9llu  %5llu of %-7llu %8llu %10llu\n", g, guest_workload(g),
               (unsigned long long)n->requests, (unsigned long long)n->blocks, (unsigned long long)n->turns,
               (unsigned long long)n->longest, (unsigned long long)n->longest_bound, (unsigned long long)n->refused,
               (unsigned long long)n->withdrawn);
        if (n->longest_gap > gap)
            gap = n->longest_gap;
        followed += guests[g].followed;
        without += guests[g].without;
        paths += guests[g].paths;
    }
    printf("\nA wait is counted in turns from the post to the last part, \"of\" its bound 8 * ceil(n / 16).\n"
           "The longest time from one part of a request to its next: %llu turns of 8.\n"
           "The pointer of 48h was followed to a parameter table %llu times, and was FFFF:FFFF %llu times.\n",
           (unsigned long long)gap, (unsigned long long)followed, (unsigned long long)without);
    printf("48h gave %llu device paths of sixteen bytes, %llu of them to guest %u, whose disk is of kind 2 and has a logical unit there.\n",
           (unsigned long long)paths, (unsigned long long)guests[FIBRE_DISK].paths, FIBRE_DISK);
    const struct guest *worn = &guests[WORN_DISK];
    printf("The disk of guest %u is worn, %u blocks of it are bad. They ended %llu reads with 10h and %llu writes with CCh, after the\n"
           "good blocks before them had moved; %llu reads went on behind them, and 44h found them %llu times.\n", WORN_DISK,
           disks[WORN_DISK].bad_count, (unsigned long long)worn->stopped_reads, (unsigned long long)worn->stopped_writes,
           (unsigned long long)worn->went_on, (unsigned long long)worn->found);
}

/* ---- all together */

static void out_of_memory(void)
{
    fprintf(stderr, "demo: out of memory\n");
    exit(2);
}

int main(int argc, char **argv)
{
    struct options o = read_options(argc, argv);
    struct monitor monitor;
    struct guest guests[EDD_GUESTS];
    uint8_t table[EDD_TABLE_SIZE_MAX];
    size_t table_length = disks_table(table);
    uint8_t *arena = malloc(ARENA_LENGTH), *store = malloc(STORE_LENGTH);
    uint64_t place = 0;
    int from = disks_send(), too_few = 0;

    if (!arena || !store)
        out_of_memory();
    if (from < 0) {
        perror("demo: no pipe, or no process to send the table");
        return 2;
    }
    memset(arena, NOBODY, ARENA_LENGTH);
    memset(store, NOBODY, STORE_LENGTH);

    uint32_t answer = monitor_open(&monitor, from, arena, ARENA_LENGTH, store, STORE_LENGTH, &place);
    close(from);
    wait(NULL);
    if (answer != EDD_DONE) {
        fprintf(stderr, "demo: table refused %u at %llu\n", (unsigned)answer, (unsigned long long)place);
        return 2;
    }
    for (unsigned g = 0; g < EDD_GUESTS; g++) {
        if (guest_make(&guests[g], &monitor, g, o.seed) != 0)
            out_of_memory();
        memcpy(monitor_window(&monitor, g), guests[g].memory, WINDOW_SIZE);
        memcpy(store + disks[g].first * EDD_BLOCK_SIZE, guests[g].disk, disks[g].blocks * EDD_BLOCK_SIZE);
    }
    for (unsigned g = 0; g < EDD_GUESTS; g += 2) {
        monitor_place(&monitor, g, TABLES);
        guest_placed(&guests[g]);
    }
    for (unsigned g = 0; g < EDD_GUESTS; g++)
        guests[g].shared = guests[SHARED_DISK].disk; /* protected, so nobody changes it */

    printf("demo: the drive table, %zu bytes, came through a pipe in fragments of at most %d bytes\n", table_length, PIECE);
    printf("demo: %llu requests of each guest, seed %llu, a pause of %llu microseconds after each turn\n",
           (unsigned long long)o.requests, (unsigned long long)o.seed, (unsigned long long)o.pause);
    double begun = now();

    /* Thread 0 is the host and gives turns; threads 1 to 8 are the guests. All of them must run at the same time. */
    omp_set_dynamic(0);
#pragma omp parallel num_threads(EDD_GUESTS + 1) default(none) shared(monitor, guests, o, too_few)
    {
        int thread = omp_get_thread_num();
        if (omp_get_num_threads() != EDD_GUESTS + 1) {
#pragma omp single
            too_few = 1;
        } else if (thread == 0) {
            give_turns(&monitor, &o);
        } else {
            guest_run(&guests[thread - 1], o.requests);
        }
    }
    if (too_few) {
        fprintf(stderr, "demo: OpenMP gives fewer than nine threads (OMP_THREAD_LIMIT?)\n");
        return 2;
    }

    /*
     * The end of the parallel region is a barrier, so the lock is not needed any more. It is taken all the same: a tool
     * that does not see OpenMP's barrier then sees that the guests are done.
     */
    monitor_lock(&monitor);
    print_table(&monitor, guests);
    printf("\n%.1f seconds, %llu turns\n", now() - begun, (unsigned long long)monitor.turns);
    struct faults faults = { 0, { 0 } };
    check_guests(&faults, &monitor, guests, o.requests);
    check_store(&faults, store, guests);
    check_arena(&faults, &monitor, guests);
    check_table(&faults, &monitor, table, table_length);
    check_conversions(&faults, table);
    monitor_unlock(&monitor);

    monitor_close(&monitor);
    for (unsigned g = 0; g < EDD_GUESTS; g++)
        guest_free(&guests[g]);
    free(arena);
    free(store);
    return verdict(&faults, o.seed);
}
