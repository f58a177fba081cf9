/*
 * bench - what the exported calls cost. Usage: bench LIBRARY.so [MODEL.so]
 *
 * Ratios come first, nanoseconds beside them: on another machine, or a busy one, only the ratios hold. The model is the independent
 * Rust implementation of document 01 behind the same C interface, so it makes the same checks on the same desk block.
 */
#include <stdio.h>
#include <stdlib.h>
#include <string.h>

#include "measure.h"
#include "place.h"

#define MIB ((size_t)1 << 20)
#define LARGE (1024 * MIB)      /* length of the large arena and of the large store */
#define TURN_BYTES (EDD_TURN_BLOCKS * EDD_BLOCK_SIZE)
#define BELOW 1000.0            /* the aim for a call beside its data, in nanoseconds */
#define MEMCPY_TIMES 1.4        /* the aim for a turn against memcpy, not in cache */
#define MODEL_TURN 0.95         /* the aim for the same turn against the model */
#define MODEL_CALL 0.6          /* the aim for a call that moves no blocks, against the model */
#define MODEL_OPEN 1.0          /* the aim for an opening, against the model */
#define SAME 1.25               /* a call whose best times differ less costs the same */

static struct service services[2]; /* the library, and the model if there is one */
static unsigned service_count;
static uint8_t *arena, *store;     /* LARGE bytes each; every table uses parts of them */

static void line(void)
{
    printf("\n");
}

/* A call changes the desk, so the block is put back before each call of a batch. This times the putting back alone. */
static double put_back(uint8_t *desk, const uint8_t *ready, unsigned rounds)
{
    double begun = nanoseconds();
    for (unsigned i = 0; i < rounds; i++) {
        memcpy(desk, ready, EDD_DESK_SIZE);
        settle();
    }
    return (nanoseconds() - begun) / rounds;
}

/* ---- 1. a turn of sixteen blocks against memcpy of the same bytes */

enum mover { LIBRARY, MODEL, MEMCPY, MOVERS };

/* In cache: the same sixteen blocks again and again. The desk is put back before each turn, and the time for that is subtracted. */
static void turn_hot(struct times *t, int batch, enum mover mover, unsigned function)
{
    static struct place p;
    static uint8_t ready[EDD_DESK_SIZE];
    const unsigned rounds = 4000;
    uint64_t guest = 0, moved = 0;
    const struct service *s = &services[mover == MODEL ? 1 : 0];

    place_open(&p, s, 8, NOTHING, arena, 1 * MIB, store, 1 * MIB);
    struct registers r = place_packet(&p, function, 0, 0, EDD_TURN_BLOCKS, BUFFER, 0);
    expect(place_post(&p, s, 0, &r) == EDD_NOTHING_YET, "the post waits");
    memcpy(ready, p.desk, sizeof ready);

    double begun = nanoseconds();
    for (unsigned i = 0; i < rounds; i++) {
        memcpy(p.desk, ready, sizeof ready);
        settle();
        if (mover == MEMCPY)
            memcpy(function == 0x42 ? arena + BUFFER : store, function == 0x42 ? store : arena + BUFFER, TURN_BYTES);
        else
            place_turn(&p, s, &guest, &moved);
        settle();
    }
    t->with[batch] = (nanoseconds() - begun) / rounds;
    t->alone[batch] = put_back(p.desk, ready, rounds);
    expect(mover == MEMCPY || moved == EDD_TURN_BLOCKS, "sixteen blocks moved");
}

/*
 * Not in cache: eight guests with 112 blocks each, seven turns apiece. Each round uses other blocks and other memory, and none is used
 * again before all others have been. A guest can name little more than its first MiB, so the memory consists of many arenas of 8 MiB, one
 * after the other; the desk knows only the arena's length. The posts are not timed. memcpy makes the same moves in the same order.
 *
 * A processor begins the next memcpy while the last one still waits for memory, and has nothing else to do meanwhile; a turn has its
 * checks between two copies. With a fence after each move, of either kind, a move is over before the next begins.
 */
#define WALK_ARENA (8 * MIB)
#define WALK_BLOCKS 112
#define WALK_BYTES ((size_t)WALK_BLOCKS * EDD_BLOCK_SIZE)
#define WALK_PLACES ((WALK_ARENA / EDD_GUESTS - BUFFER) / WALK_BYTES)

static void turn_cold(struct times *time, int batch, enum mover mover, unsigned function, int fence)
{
    static struct place p;
    static size_t round; /* continues through all batches of all movers */
    const size_t rounds = 40, turns = EDD_GUESTS * WALK_BLOCKS / EDD_TURN_BLOCKS;
    const size_t drive_blocks = LARGE / EDD_BLOCK_SIZE / EDD_DRIVES;
    const struct service *s = &services[mover == MODEL ? 1 : 0];
    double sum = 0;

    for (size_t k = 0; k < rounds; k++, round++) {
        uint8_t *memory = arena + round / WALK_PLACES % (LARGE / WALK_ARENA) * WALK_ARENA;
        uint64_t buffer = BUFFER + round % WALK_PLACES * WALK_BYTES;
        uint64_t start = round % (drive_blocks / WALK_BLOCKS) * WALK_BLOCKS;
        uint64_t guest = 0, moved = 0, total = 0;

        place_open(&p, s, 8, NOTHING, memory, WALK_ARENA, store, LARGE);
        for (unsigned g = 0; g < EDD_GUESTS; g++) {
            struct registers r = place_packet(&p, function, g, g, WALK_BLOCKS, buffer, start);
            expect(place_post(&p, s, g, &r) == EDD_NOTHING_YET, "the post waits");
        }
        double begun = nanoseconds();
        for (size_t t = 0; t < turns; t++) {
            if (mover == MEMCPY) {
                size_t g = t % EDD_GUESTS, done = t / EDD_GUESTS * TURN_BYTES;
                uint8_t *a = memory + g * (WALK_ARENA / EDD_GUESTS) + buffer + done;
                uint8_t *b = store + (g * drive_blocks + start) * EDD_BLOCK_SIZE + done;
                memcpy(function == 0x42 ? a : b, function == 0x42 ? b : a, TURN_BYTES);
            } else {
                place_turn(&p, s, &guest, &moved);
                total += moved;
            }
            settle();
            if (fence)
                __atomic_thread_fence(__ATOMIC_SEQ_CST);
        }
        sum += nanoseconds() - begun;
        expect(mover == MEMCPY || total == turns * EDD_TURN_BLOCKS, "sixteen blocks in each turn");
    }
    time->with[batch] = sum / (double)(rounds * turns);
    time->alone[batch] = 0;
}

static void ratio_cell(const struct times *above, const struct times *below)
{
    printf("   %7.2f /%6.2f", best(above) / best(below), median(above) / median(below));
}

static void time_cell(const struct times *t)
{
    printf(" %5.0f /%5.0f", best(t), median(t));
}

/* The ratios that the aims are about, of the best times not in cache: read, then write. */
static double to_memcpy[2], to_model[2];

#define TURN_ROWS 6

static void table_turn(void)
{
    static const char *const names[TURN_ROWS] = { "read (42h), in cache", "write (43h), in cache", "read (42h), not in cache",
                                                  "write (43h), not in cache", "the same, read, fenced", "the same, write, fenced" };
    printf("1. A turn of 16 blocks against memcpy of the same 8 KiB, and against the model's turn.\n\n");
    printf("   %-28s  library / memcpy   library / model    library, ns    model, ns   memcpy, ns\n", "");
    static struct times times[TURN_ROWS][MOVERS];
    for (int b = 0; b < BATCHES; b++) {
        for (unsigned row = 0; row < TURN_ROWS; row++) {
            for (enum mover m = LIBRARY; m < MOVERS; m++) {
                if (m == MODEL && service_count < 2)
                    continue;
                if (row >= 2)
                    turn_cold(&times[row][m], b, m, row % 2 ? 0x43 : 0x42, row >= 4);
                else
                    turn_hot(&times[row][m], b, m, row % 2 ? 0x43 : 0x42);
            }
        }
    }
    for (unsigned row = 0; row < TURN_ROWS; row++) {
        const struct times *t = times[row];
        printf("   %-28s", names[row]);
        ratio_cell(&t[LIBRARY], &t[MEMCPY]);
        if (service_count == 2)
            ratio_cell(&t[LIBRARY], &t[MODEL]);
        else
            printf("   %16s", "-");
        printf(" ");
        time_cell(&t[LIBRARY]);
        if (service_count == 2)
            time_cell(&t[MODEL]);
        else
            printf(" %12s", "-");
        time_cell(&t[MEMCPY]);
        printf("\n");
        if (row / 2 == 1) {
            to_memcpy[row % 2] = best(&t[LIBRARY]) / best(&t[MEMCPY]);
            to_model[row % 2] = service_count == 2 ? best(&t[LIBRARY]) / best(&t[MODEL]) : 0;
        }
    }
    printf("\n   not in cache: a walk over %zu MiB of store and %zu MiB of guest memory; fenced: each move is over before the next begins\n",
           LARGE / MIB, LARGE / MIB);
    line();
}

/* ---- 2. a whole request: post, its turns, collect */

static double whole_request(const struct service *s, unsigned function, unsigned count)
{
    static struct place p;
    const unsigned rounds = 20000 / (count / EDD_TURN_BLOCKS + 3);
    uint64_t guest = 0, moved = 0;
    struct registers r;

    place_open(&p, s, 8, NOTHING, arena, 1 * MIB, store, 1 * MIB);
    struct registers packet = place_packet(&p, 0x42, 3, 3, count, BUFFER, 0);
    struct registers chs = { .ax = (uint16_t)(function << 8 | count), .bx = 0, .cx = 1, .dx = 0x83, .es = BUFFER / 16 };
    double begun = nanoseconds();
    for (unsigned i = 0; i < rounds; i++) {
        r = function == 0x42 ? packet : chs;
        place_post(&p, s, 3, &r);
        for (unsigned done = 0; done < count; done += EDD_TURN_BLOCKS)
            place_turn(&p, s, &guest, &moved);
        expect(place_collect(&p, s, 3, &r) == EDD_DONE && r.carry == 0, "a request finishes");
    }
    return (nanoseconds() - begun) / rounds;
}

static void table_request(void)
{
    static const struct { const char *name; unsigned function, count; } requests[] = {
        { "42h, 1 block (1 turn)", 0x42, 1 },
        { "42h, 16 blocks (1 turn)", 0x42, 16 },
        { "42h, 127 blocks (8 turns)", 0x42, 127 },
        { "02h, 1 block (1 turn)", 0x02, 1 },
        { "02h, 128 blocks (8 turns)", 0x02, 128 },
    };
    printf("2. A whole request, post and turns and collect, in cache, against the model with the same checks.\n\n");
    printf("   %-28s   library / model    library, ns    model, ns\n", "");
    static struct times times[sizeof requests / sizeof requests[0]][2];
    for (int b = 0; b < BATCHES; b++)
        for (unsigned i = 0; i < sizeof requests / sizeof requests[0]; i++)
            for (unsigned s = 0; s < service_count; s++)
                times[i][s].with[b] = whole_request(&services[s], requests[i].function, requests[i].count);
    for (unsigned i = 0; i < sizeof requests / sizeof requests[0]; i++) {
        const struct times *t = times[i];
        printf("   %-28s", requests[i].name);
        if (service_count == 2)
            ratio_cell(&t[0], &t[1]);
        else
            printf("   %16s", "-");
        printf(" ");
        time_cell(&t[0]);
        if (service_count == 2)
            time_cell(&t[1]);
        printf("\n");
    }
    line();
}

/* ---- 3. to 7. each call by itself */

/* In which stage guest 0's row must be before the call. */
enum stage { VACANT, WAITING, WAITING_ONE, WAITING_BAD, FINISHED, DAMAGED };

struct call {
    const char *name;
    enum stage stage;
    int needs_drive;
    uint32_t answer;
    uint32_t (*make)(struct place *p, const struct service *s);
};

static struct registers packet_registers;   /* 42h on the packet of guest 0, sixteen blocks */
static uint8_t open_table[EDD_TABLE_SIZE_MAX];
static size_t open_length;

static uint32_t post_41(struct place *p, const struct service *s)
{
    struct registers r = { .ax = 0x4100, .bx = 0x55aa, .dx = 0x80 };
    return place_post(p, s, 0, &r);
}

static uint32_t post_48_of(struct place *p, const struct service *s, uint8_t size)
{
    struct registers r = { .ax = 0x4800, .dx = 0x80, .si = 0x400 };
    p->arena[0x400] = size;
    p->arena[0x401] = 0;
    return place_post(p, s, 0, &r);
}

static uint32_t post_48(struct place *p, const struct service *s)
{
    return post_48_of(p, s, 66);
}

static uint32_t post_48_wide(struct place *p, const struct service *s)
{
    return post_48_of(p, s, 74);
}

static uint32_t post_44(struct place *p, const struct service *s)
{
    struct registers r = packet_registers;
    r.ax = 0x4400;
    return place_post(p, s, 0, &r);
}

static uint32_t post_unknown(struct place *p, const struct service *s)
{
    struct registers r = packet_registers;
    r.dx = 0x7f;
    return place_post(p, s, 0, &r);
}

static uint32_t post_42(struct place *p, const struct service *s)
{
    struct registers r = packet_registers;
    return place_post(p, s, 0, &r);
}

static uint32_t post_02(struct place *p, const struct service *s)
{
    struct registers r = { .ax = 0x0210, .cx = 1, .dx = 0x80, .es = BUFFER / 16 };
    return place_post(p, s, 0, &r);
}

static uint32_t post_guest_8(struct place *p, const struct service *s)
{
    struct registers r = packet_registers;
    return place_post(p, s, 8, &r);
}

static uint32_t post_length(struct place *p, const struct service *s)
{
    struct registers r = packet_registers;
    return s->post(p->desk, sizeof p->desk, p->arena, p->arena_length - 1, p->store, p->store_length, 0, &r.ax, &r.bx, &r.cx, &r.dx,
                   r.ds, r.si, r.es, &r.carry);
}

static uint32_t turn(struct place *p, const struct service *s)
{
    uint64_t guest, moved;
    return place_turn(p, s, &guest, &moved);
}

static uint32_t collect(struct place *p, const struct service *s)
{
    struct registers r;
    return place_collect(p, s, 0, &r);
}

static uint32_t withdraw(struct place *p, const struct service *s)
{
    struct registers r;
    return place_withdraw(p, s, 0, &r);
}

static uint32_t place(struct place *p, const struct service *s)
{
    return place_tables(p, s, 0, TABLES);
}

static uint32_t place_odd(struct place *p, const struct service *s)
{
    return place_tables(p, s, 0, TABLES + 1);
}

static uint32_t write_table(struct place *p, const struct service *s)
{
    uint8_t out[EDD_TABLE_SIZE_MAX];
    uint64_t written;
    return s->write(p->desk, sizeof p->desk, out, sizeof out, &written);
}

static uint32_t write_short(struct place *p, const struct service *s)
{
    uint8_t out[3];
    uint64_t written;
    return s->write(p->desk, sizeof p->desk, out, sizeof out, &written);
}

static uint32_t open_desk(struct place *p, const struct service *s)
{
    uint64_t at;
    return s->open(p->desk, sizeof p->desk, open_table, open_length, p->arena_length, p->store_length, &at);
}

/* The records of a drive as kind 1 and as kind 2; the second has eight zero bytes more. */
static uint8_t record[EDD_TABLE_SIZE_MAX], wide_record[EDD_RECORD_SIZE_WIDE];

static void make_records(void)
{
    place_table(record, 1, NOTHING, 1 * MIB);
    memcpy(wide_record, record, EDD_RECORD_SIZE);
    wide_record[0] = EDD_RECORD_SIZE_WIDE;
    wide_record[2] = 2;
}

static uint32_t convert_up(struct place *p, const struct service *s)
{
    uint8_t out[EDD_RECORD_SIZE_WIDE];
    (void)p;
    return s->convert_up(record, EDD_RECORD_SIZE, out, sizeof out);
}

static uint32_t convert_down(struct place *p, const struct service *s)
{
    uint8_t out[EDD_RECORD_SIZE];
    (void)p;
    return s->convert_down(wide_record, sizeof wide_record, out, sizeof out);
}

static uint32_t window(struct place *p, const struct service *s)
{
    uint64_t start, length;
    return s->window(p->arena_length, 5, &start, &length);
}

static uint32_t block(struct place *p, const struct service *s)
{
    uint32_t found;
    (void)p;
    return s->block(1024, 255, 63, 1000, 200, 60, &found);
}

static uint32_t address(struct place *p, const struct service *s)
{
    uint32_t cylinder, head, sector;
    (void)p;
    return s->address(1024, 255, 63, 16000000, &cylinder, &head, &sector);
}

/* With no drive a 41h is answered with 01h, which is an answer at once as well. */
static const struct call calls[] = {
    { "post 41h, answered at once", VACANT, 0, EDD_DONE, post_41 },
    { "post 48h, answered at once", VACANT, 1, EDD_DONE, post_48 },
    { "post 48h, 74 bytes at once", VACANT, 1, EDD_DONE, post_48_wide },
    { "post 44h, 16 blocks at once", VACANT, 1, EDD_DONE, post_44 },
    { "post 42h, 01h at once", VACANT, 0, EDD_DONE, post_unknown },
    { "post 42h, waits", VACANT, 1, EDD_NOTHING_YET, post_42 },
    { "post 02h, waits", VACANT, 1, EDD_NOTHING_YET, post_02 },
    { "post refused, 21", WAITING, 1, EDD_ROW_NOT_VACANT, post_42 },
    { "post refused, 20", VACANT, 0, EDD_NO_SUCH_GUEST, post_guest_8 },
    { "post refused, 24", VACANT, 0, EDD_LENGTH_DIFFERS, post_length },
    { "post refused, 25", DAMAGED, 0, EDD_DESK_NOT_ACCEPTED, post_41 },
    { "turn, idle", VACANT, 0, EDD_NOTHING_YET, turn },
    { "turn, 1 block", WAITING_ONE, 1, EDD_DONE, turn },
    { "turn, 16 blocks", WAITING, 1, EDD_DONE, turn },
    { "turn, at a bad block", WAITING_BAD, 1, EDD_DONE, turn },
    { "collect", FINISHED, 1, EDD_DONE, collect },
    { "collect refused, 22", VACANT, 0, EDD_NOT_FINISHED, collect },
    { "withdraw", WAITING, 1, EDD_DONE, withdraw },
    { "withdraw refused, 23", VACANT, 0, EDD_NOT_WAITING, withdraw },
    { "place", VACANT, 0, EDD_DONE, place },
    { "place refused, 26", VACANT, 0, EDD_BAD_PLACE, place_odd },
    { "write", VACANT, 0, EDD_DONE, write_table },
    { "write refused, 19", VACANT, 0, EDD_BUFFER_SHORT, write_short },
    { "open", VACANT, 0, EDD_DONE, open_desk },
    { "record of kind 1 to kind 2", VACANT, 0, EDD_DONE, convert_up },
    { "record of kind 2 to kind 1", VACANT, 0, EDD_DONE, convert_down },
    { "window", VACANT, 0, EDD_DONE, window },
    { "block of an address", VACANT, 0, EDD_DONE, block },
    { "address of a block", VACANT, 0, EDD_DONE, address },
};
#define CALLS (sizeof calls / sizeof calls[0])

/* Where a call is measured. */
struct setting {
    const char *name;
    unsigned drives;
    size_t arena_length, store_length;
    int crowded; /* the rows of guests 1 to 7 wait, each with sixteen blocks */
    unsigned attached; /* what each drive's record has behind it */
    int placed; /* and the tables are placed for all eight guests */
};

/* With no drive nothing can wait, while rows wait no turn is idle, and without a list no block is bad. */
static int can(const struct call *c, const struct setting *at)
{
    if (at->crowded && c->make == turn && c->answer == EDD_NOTHING_YET)
        return 0;
    if (c->stage == WAITING_BAD && !(at->attached & BAD_BLOCKS))
        return 0;
    return at->drives > 0 || !c->needs_drive;
}

/* Puts the desk into the state in which the call finds it. The other guests come after guest 0, so that a turn serves guest 0. */
static void prepare(struct place *p, const struct service *s, const struct call *c, const struct setting *at)
{
    uint64_t guest, moved;
    place_open(p, s, at->drives, at->attached, arena, at->arena_length, store, at->store_length);
    open_length = place_table(open_table, at->drives, at->attached, at->store_length);
    for (unsigned g = 0; at->placed && g < EDD_GUESTS; g++)
        expect(place_tables(p, s, g, TABLES) == EDD_DONE, "the tables are placed");
    packet_registers = place_packet(p, 0x42, 0, 0, c->stage == WAITING_ONE ? 1 : EDD_TURN_BLOCKS, BUFFER,
                                    c->stage == WAITING_BAD ? place_first_bad(p) : 0);
    if (c->stage == WAITING || c->stage == WAITING_ONE || c->stage == WAITING_BAD || c->stage == FINISHED) {
        struct registers r = packet_registers;
        expect(place_post(p, s, 0, &r) == EDD_NOTHING_YET, "the post waits");
    }
    if (c->stage == FINISHED)
        expect(place_turn(p, s, &guest, &moved) == EDD_DONE, "the turn serves");
    for (unsigned g = 1; at->crowded && g < EDD_GUESTS; g++) {
        struct registers r = place_packet(p, 0x42, g, g % at->drives, EDD_TURN_BLOCKS, BUFFER, 0);
        expect(place_post(p, s, g, &r) == EDD_NOTHING_YET, "the post waits");
    }
    if (c->stage == DAMAGED)
        p->desk[8 * 22] = 1; /* a word of guest 0's row that must be 0 in a vacant row (docs/BLOCK.md) */
}

static void one_batch(struct times *t, int batch, const struct service *s, const struct call *c, const struct setting *at)
{
    static struct place p;
    static uint8_t ready[EDD_DESK_SIZE];
    const unsigned rounds = 2000;
    uint32_t answer = c->answer;

    if (!can(c, at))
        return;
    prepare(&p, s, c, at);
    memcpy(ready, p.desk, sizeof ready);
    double begun = nanoseconds();
    for (unsigned i = 0; i < rounds; i++) {
        memcpy(p.desk, ready, sizeof ready);
        settle();
        uint32_t got = c->make(&p, s);
        if (got != c->answer)
            answer = got;
        settle();
    }
    t->with[batch] = (nanoseconds() - begun) / rounds;
    t->alone[batch] = put_back(p.desk, ready, rounds);
    expect(answer == c->answer, c->name);
}

#define SETTINGS 6

/* The result of a table of calls, from the best time of each cell. */
struct summary {
    double most;          /* the slowest call in ns, except for the turn of 16 blocks, which spends most of its time on its data */
    const char *slowest;
    double growth;        /* the last setting against the first, where that grew most; calls below 50 ns are left out */
    const char *grew;
    double dearest;       /* the highest ratio to the model of a call that moves no blocks, in the last setting */
    const char *dear;
    double opening;       /* the ratio of an opening */
};

/* Idle, refused, answered at once, waiting, collected, withdrawn: a call at the desk that moves no blocks and lays out no table. */
static int moves_nothing(const struct call *c)
{
    if (c->make == turn)
        return c->answer == EDD_NOTHING_YET;
    if (c->make == write_table || c->make == place)
        return c->answer != EDD_DONE;
    return c->make != open_desk && c->make != convert_up && c->make != convert_down && c->make != window && c->make != block &&
           c->make != address;
}

/* A row for each call, a column for each setting. The last two columns: the model in the last setting, and the ratio to it. */
static struct summary table_calls(const struct setting *settings, unsigned count)
{
    struct summary sum = { 0, "", 0, "", 0, "", 0 };
    printf("   %-28s", "");
    for (unsigned k = 0; k < count; k++)
        printf(" %12s", settings[k].name);
    printf(" %12s  %s\n", service_count == 2 ? "model" : "", service_count == 2 ? "library / model" : "");

    static struct times times[CALLS][SETTINGS], models[CALLS];
    const struct setting *last = &settings[count - 1];
    memset(times, 0, sizeof times);
    memset(models, 0, sizeof models);
    for (int b = 0; b < BATCHES; b++) {
        for (unsigned i = 0; i < CALLS; i++) {
            for (unsigned k = 0; k < count; k++)
                one_batch(&times[i][k], b, &services[0], &calls[i], &settings[k]);
            if (service_count == 2)
                one_batch(&models[i], b, &services[1], &calls[i], last);
        }
    }
    for (unsigned i = 0; i < CALLS; i++) {
        const struct times *t = times[i];
        printf("   %-28s", calls[i].name);
        for (unsigned k = 0; k < count; k++) {
            double cost = best(&t[k]);
            if (can(&calls[i], &settings[k]))
                time_cell(&t[k]);
            else
                printf(" %12s", "-");
            if (cost > sum.most && !(calls[i].make == turn && calls[i].stage == WAITING)) {
                sum.most = cost;
                sum.slowest = calls[i].name;
            }
        }
        if (best(&t[0]) >= 50 && best(&t[count - 1]) / best(&t[0]) > sum.growth) {
            sum.growth = best(&t[count - 1]) / best(&t[0]);
            sum.grew = calls[i].name;
        }
        if (service_count == 2 && can(&calls[i], last)) {
            time_cell(&models[i]);
            double ratio = best(&t[count - 1]) / best(&models[i]);
            if (best(&models[i]) >= 20)
                printf("  %5.2f", ratio);
            if (moves_nothing(&calls[i]) && ratio > sum.dearest) {
                sum.dearest = ratio;
                sum.dear = calls[i].name;
            }
            if (calls[i].make == open_desk)
                sum.opening = ratio;
        }
        printf("\n");
    }
    line();
    return sum;
}

/* ---- 8. reading the longest table: as a whole, and as it arrives */

/* All of it by edd_open for a piece of 0; else by a reader in pieces of that size, from its opening to the table written out. */
static double read_longest(const struct service *s, size_t piece)
{
    static uint8_t desk[EDD_DESK_SIZE], reader[EDD_READER_SIZE], table[EDD_TABLE_SIZE_MAX], out[EDD_TABLE_SIZE_MAX];
    const size_t length = place_table(table, EDD_DRIVES, WIDE | BAD_BLOCKS | PARAMETERS, 1 * MIB);
    const unsigned rounds = piece == 0 ? 2000 : piece < 64 ? 10 : 200;
    uint64_t at = 0, written = 0;
    uint32_t wrong = EDD_DONE;

    double begun = nanoseconds();
    for (unsigned i = 0; i < rounds; i++) {
        if (piece == 0) {
            wrong |= s->open(desk, sizeof desk, table, length, 1 * MIB, 1 * MIB, &at);
        } else {
            wrong |= s->reader_open(reader, sizeof reader, 1 * MIB);
            for (size_t fed = 0; fed < length; fed += piece)
                wrong |= s->reader_feed(reader, sizeof reader, table + fed, length - fed < piece ? length - fed : piece, &at) ^
                         EDD_NOTHING_YET;
            wrong |= s->reader_end(reader, sizeof reader, &at);
            wrong |= s->reader_write(reader, sizeof reader, out, sizeof out, &written);
        }
        settle();
    }
    double taken = (nanoseconds() - begun) / rounds;
    expect(length == EDD_TABLE_SIZE_MAX, "the longest table is as long as the header says");
    expect(wrong == EDD_DONE && (piece == 0 || (written == length && memcmp(out, table, length) == 0)), "the longest table is read");
    return taken;
}

static void table_reading(void)
{
    static const struct { const char *name; size_t piece; } readings[] = {
        { "open, the whole table", 0 },
        { "reader, one piece", EDD_TABLE_SIZE_MAX },
        { "reader, pieces of 64 bytes", 64 },
        { "reader, pieces of 1 byte", 1 },
    };
    printf("8. Reading the longest table, %d bytes: by an opening, and by a reader that is opened, fed, told the end and written out.\n\n",
           EDD_TABLE_SIZE_MAX);
    printf("   %-28s   library / model      library, ns      model, ns\n", "");
    static struct times times[sizeof readings / sizeof readings[0]][2];
    for (int b = 0; b < BATCHES; b++)
        for (unsigned i = 0; i < sizeof readings / sizeof readings[0]; i++)
            for (unsigned s = 0; s < service_count; s++)
                times[i][s].with[b] = read_longest(&services[s], readings[i].piece);
    for (unsigned i = 0; i < sizeof readings / sizeof readings[0]; i++) {
        const struct times *t = times[i];
        printf("   %-28s", readings[i].name);
        if (service_count == 2)
            ratio_cell(&t[0], &t[1]);
        else
            printf("   %16s", "-");
        for (unsigned s = 0; s < service_count; s++)
            printf(" %7.0f /%7.0f", best(&t[s]), median(&t[s]));
        printf("\n");
    }
    line();
}

int main(int argc, char **argv)
{
    static const struct setting drives[] = {
        { "no drive", 0, 1 * MIB, 1 * MIB, 0, NOTHING, 0 },
        { "1 drive", 1, 1 * MIB, 1 * MIB, 0, NOTHING, 0 },
        { "4 drives", 4, 1 * MIB, 1 * MIB, 0, NOTHING, 0 },
        { "8 drives", 8, 1 * MIB, 1 * MIB, 0, NOTHING, 0 },
    };
    static const struct setting sizes[] = {
        { "1M, 1M", 8, 1 * MIB, 1 * MIB, 0, NOTHING, 0 },
        { "64M, 1M", 8, 64 * MIB, 1 * MIB, 0, NOTHING, 0 },
        { "1G, 1M", 8, LARGE, 1 * MIB, 0, NOTHING, 0 },
        { "1M, 64M", 8, 1 * MIB, 64 * MIB, 0, 0, 0 },
        { "1M, 1G", 8, 1 * MIB, LARGE, 0, NOTHING, 0 },
        { "1G, 1G", 8, LARGE, LARGE, 0, NOTHING, 0 },
    };
    static const struct setting rows[] = {
        { "0 waiting", 8, 1 * MIB, 1 * MIB, 0, NOTHING, 0 },
        { "7 waiting", 8, 1 * MIB, 1 * MIB, 1, NOTHING, 0 },
    };
    static const struct setting tables[] = {
        { "no record", 8, 1 * MIB, 1 * MIB, 0, NOTHING, 0 },
        { "8 records", 8, 1 * MIB, 1 * MIB, 0, PARAMETERS, 0 },
        { "placed", 8, 1 * MIB, 1 * MIB, 0, PARAMETERS, 1 },
    };
    static const struct setting lists[] = {
        { "no list", 8, 1 * MIB, 1 * MIB, 0, NOTHING, 0 },
        { "8 full lists", 8, 1 * MIB, 1 * MIB, 0, BAD_BLOCKS, 0 },
    };
    if (argc < 2 || argc > 3) {
        fprintf(stderr, "usage: bench LIBRARY.so [MODEL.so]\n");
        return 2;
    }
    setvbuf(stdout, NULL, _IOLBF, 0);
    service_load(&services[0], "library", argv[1]);
    service_count = 1;
    if (argc == 3) {
        service_load(&services[1], "model", argv[2]);
        service_count = 2;
    }
    arena = malloc(LARGE);
    store = malloc(LARGE);
    if (!arena || !store) {
        fprintf(stderr, "bench: it needs %zu MiB of memory\n", 2 * LARGE / MIB);
        return 2;
    }
    /* Every page is written once, so that no first touch is timed. */
    memset(store, 2, LARGE);
    memset(arena, 1, LARGE);

    make_records();
    printf("Of %d batches: best / median. Ratios likewise: of the best times / of the medians.\n\n", BATCHES);
    table_turn();
    table_request();
    printf("3. Each call, by the number of drives; ns. Arena and store 1 MiB, other rows vacant. The model with 8 drives, the ratio of\n"
           "   the best times.\n\n");
    struct summary by_drives = table_calls(drives, 4);
    printf("4. Each call, by the length of arena and store (in this order), 8 drives; ns. Other rows vacant. The model with 1G, 1G.\n\n");
    struct summary by_size = table_calls(sizes, 6);
    printf("5. Each call, by the rows of the other guests that wait, 8 drives; ns. The model with 7 waiting.\n\n");
    struct summary by_rows = table_calls(rows, 2);
    printf("6. Each call, by the parameter tables, 8 drives; ns. Other rows vacant; placed: 8 records, placed for all guests. The model with\n"
           "   all placed.\n\n");
    struct summary by_tables = table_calls(tables, 3);
    printf("7. Each call, by the lists of bad blocks, 8 drives; ns. Other rows vacant; a full list has 16 numbers, which lie behind all blocks\n"
           "   that the calls name, but for the turn at a bad block. The model with full lists.\n\n");
    struct summary by_lists = table_calls(lists, 2);
    table_reading();

    printf("Aims\n");
    printf("   a call below %.0f ns: the slowest takes %.0f (%s), with seven other rows waiting %.0f (%s), with parameter tables %.0f"
           " (%s), with full lists %.0f (%s): %s\n", BELOW, by_drives.most, by_drives.slowest, by_rows.most, by_rows.slowest,
           by_tables.most, by_tables.slowest, by_lists.most, by_lists.slowest,
           by_drives.most < BELOW && by_rows.most < BELOW && by_tables.most < BELOW && by_lists.most < BELOW ? "met" : "NOT met");
    printf("   a turn of 16 blocks not in cache, at most %.1f times memcpy: read %.2f, write %.2f: %s\n", MEMCPY_TIMES, to_memcpy[0],
           to_memcpy[1], to_memcpy[0] <= MEMCPY_TIMES && to_memcpy[1] <= MEMCPY_TIMES ? "met" : "NOT met");
    if (service_count == 2) {
        printf("   and at most %.2f times the model: read %.2f, write %.2f: %s\n", MODEL_TURN, to_model[0], to_model[1],
               to_model[0] <= MODEL_TURN && to_model[1] <= MODEL_TURN ? "met" : "NOT met");
        printf("   a call that moves no blocks, at most %.1f times the model: the dearest %.2f (%s), with seven other rows waiting"
               " %.2f (%s), with parameter tables %.2f (%s), with full lists %.2f (%s): %s\n", MODEL_CALL, by_drives.dearest,
               by_drives.dear, by_rows.dearest, by_rows.dear, by_tables.dearest, by_tables.dear, by_lists.dearest, by_lists.dear,
               by_drives.dearest <= MODEL_CALL && by_rows.dearest <= MODEL_CALL && by_tables.dearest <= MODEL_CALL &&
               by_lists.dearest <= MODEL_CALL ? "met" : "NOT met");
        printf("   an opening of 8 drives, at most %.1f times the model: %.2f: %s\n", MODEL_OPEN, by_drives.opening,
               by_drives.opening <= MODEL_OPEN ? "met" : "NOT met");
    }
    printf("   arena and store 1024 times as long do not enter the cost: at most %.2f times (%s): %s\n", by_size.growth, by_size.grew,
           by_size.growth <= SAME ? "met" : "NOT met");
    return 0;
}
