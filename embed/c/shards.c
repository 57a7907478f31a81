/* An array whose shards have a thread each, over devices in memory, against a model: each thread has random requests for
 * the blocks of its shard, while a device fails, another slot is failed and gets a new device, and all shards rebuild it.
 * Then one more slot is failed, and each thread reads all its blocks, through the rebuilt device and without two others.
 *
 *     shards [ROUNDS]
 */
#include "raid6.h"

#include <pthread.h>
#include <sched.h>
#include <stdio.h>
#include <stdlib.h>
#include <string.h>

enum { SLOTS = 6, BLOCK = 4096, ROWS = 1024, SHARDS = 4, BLOCKS = (SLOTS - 2) * ROWS };

enum { BREAKING = 2, REBUILT = 4, FAILED_LAST = 0 };

static const struct raid6_shape shape = {SLOTS, 16, BLOCK, ROWS, SHARDS, 8, 0, 0};

static pthread_mutex_t lock = PTHREAD_MUTEX_INITIALIZER;
static struct raid6_register *reg; /* under the lock, as the next two */
static enum stage { ALL_WELL, BROKEN, FAILED, ATTACHED } stage;
static int quiet; /* shards that have seen the slot lost that is rebuilt, with no command out to its old device */

static uint8_t *device[SLOTS][2]; /* by the generation of the device; each thread has its rows */
static uint8_t *model;            /* each thread has its blocks */
static int rounds = 20000;

struct worker {
    struct raid6_shard *shard;
    struct raid6_command *command;
    unsigned number;
    uint32_t random;
    uint64_t blocks[BLOCKS], count; /* of the shard */
    enum stage stage;
    int is_quiet;
};

#define CHECK(condition)                                                     \
    do {                                                                     \
        if (!(condition)) {                                                  \
            fprintf(stderr, "shards: line %d: %s\n", __LINE__, #condition); \
            exit(1);                                                         \
        }                                                                    \
    } while (0)

static uint32_t next(struct worker *w)
{
    w->random = w->random * 1664525 + 1013904223;
    return w->random >> 8;
}

/* The device of the command performs it, if it can. */
static void perform(struct worker *w, struct raid6_command *c)
{
    uint8_t *at = device[c->slot][c->generation] + c->row * BLOCK;
    if (c->slot == BREAKING && w->stage >= BROKEN) {
        c->fault = RAID6_GONE;
        return;
    }
    if (c->is_write)
        memcpy(at, c->block, BLOCK);
    else
        memcpy(c->block, at, BLOCK);
    c->fault = RAID6_OK;
}

static void drive(struct worker *w)
{
    while (!raid6_shard_next_command(w->shard, w->command)) {
        CHECK(w->command->shard == w->number && raid6_shard_at_work(w->shard, (unsigned)w->command->slot) == 1);
        perform(w, w->command);
        CHECK(!raid6_shard_deliver(w->shard, w->command));
    }
}

/* Under the lock all changes are agreed to, and the shard looks: the state of the slot that is rebuilt. */
static int meet(struct worker *w)
{
    struct raid6_change change;
    pthread_mutex_lock(&lock);
    while (!raid6_shard_next_change(w->shard, &change)) {
        CHECK(change.slot < SLOTS && change.shard == w->number);
        CHECK(!raid6_shard_agree(w->shard, reg));
    }
    CHECK(!raid6_shard_look(w->shard, reg));
    int state = raid6_register_slot(reg, REBUILT, NULL);
    if (state == RAID6_LOST && !w->is_quiet && raid6_shard_at_work(w->shard, REBUILT) == 0) {
        w->is_quiet = 1;
        quiet++;
    }
    w->stage = stage;
    pthread_mutex_unlock(&lock);
    return state;
}

/* The reply to a request, whatever has to be done before: a loss makes more commands. */
static struct raid6_reply reply(struct worker *w)
{
    struct raid6_reply r;
    do {
        drive(w);
        meet(w);
    } while (raid6_shard_next_reply(w->shard, &r));
    return r;
}

static void read_block(struct worker *w, uint64_t block, uint64_t name)
{
    CHECK(!raid6_shard_submit(w->shard, block, NULL, name));
    struct raid6_reply r = reply(w);
    CHECK(r.user_data == name && r.kind == RAID6_DATA && !memcmp(r.block, model + block * BLOCK, BLOCK));
}

static void write_block(struct worker *w, uint64_t block, uint64_t name)
{
    uint8_t *at = model + block * BLOCK;
    for (int i = 0; i < BLOCK; i++)
        at[i] = (uint8_t)next(w);
    CHECK(!raid6_shard_submit(w->shard, block, at, name));
    struct raid6_reply r = reply(w);
    CHECK(r.user_data == name && r.kind == RAID6_DONE);
}

/* What happens to the devices, amid the requests of all threads; one thread brings it about. */
static void bring_about(int round)
{
    uint32_t generation;
    pthread_mutex_lock(&lock);
    if (stage == ALL_WELL && round > rounds / 6) {
        stage = BROKEN;
    } else if (stage == BROKEN && round > rounds / 3) {
        CHECK(!raid6_register_fail(reg, REBUILT));
        stage = FAILED;
    } else if (stage == FAILED && quiet == SHARDS) {
        CHECK(!raid6_register_attach(reg, REBUILT, &generation) && generation == 1);
        stage = ATTACHED;
    }
    pthread_mutex_unlock(&lock);
}

/* The next row is rebuilt, if the slot has its new device. */
static void rebuild(struct worker *w)
{
    uint64_t row, first, end;
    int has_new = !raid6_shard_progress(w->shard, RAID6_REBUILD, REBUILT, &row, &first, &end);
    CHECK(!has_new || (first <= row && row < end));
    if (has_new && !raid6_shard_turn(w->shard, RAID6_REBUILD))
        drive(w);
}

static void *work(void *of)
{
    struct worker *w = of;
    for (int round = 0; round < rounds; round++) {
        uint64_t block = w->blocks[next(w) % w->count];
        if (next(w) % 2)
            write_block(w, block, (uint64_t)round);
        else
            read_block(w, block, (uint64_t)round);
        if (w->number == 0)
            bring_about(round);
        rebuild(w);
    }
    /* until the last shard has rebuilt its rows */
    while (meet(w) != RAID6_IN_SYNC || w->stage < ATTACHED) {
        if (w->number == 0)
            bring_about(rounds);
        rebuild(w);
        sched_yield();
    }
    return NULL;
}

static void *compare(void *of)
{
    struct worker *w = of;
    for (uint64_t i = 0; i < w->count; i++)
        read_block(w, w->blocks[i], i);
    return NULL;
}

static void in_threads(struct worker *workers, void *(*does)(void *))
{
    pthread_t threads[SHARDS];
    for (int i = 0; i < SHARDS; i++)
        CHECK(!pthread_create(&threads[i], NULL, does, &workers[i]));
    for (int i = 0; i < SHARDS; i++)
        CHECK(!pthread_join(threads[i], NULL));
}

/* Why there is no register, and no shard. */
static void refuse_to_make(void)
{
    struct raid6_shape wrong = {4, 1, 16, 4, 2, 9, 0x7, 0};
    struct raid6_register *r;
    struct raid6_shard *s;
    uint32_t ignored;
    CHECK(raid6_register_new(&wrong, &r) == 7 && !r);
    wrong.lost = 0;
    CHECK(!raid6_register_new(&wrong, &r) && raid6_shard_new(r, 0, &s) == 6 && !s);
    raid6_register_free(r);
    wrong.window = 8;
    CHECK(!raid6_register_new(&wrong, &r) && raid6_shard_new(r, 2, &s) == 9);
    CHECK(!raid6_register_fail(r, 3) && !raid6_register_attach(r, 3, &ignored) && raid6_shard_new(r, 1, &s) == 10);
    raid6_register_free(r);
    CHECK(raid6_shard_of(&wrong, 3) == 0 && raid6_shard_of(&wrong, 4) == 1 && raid6_shard_of(&wrong, 8) == -1);
}

/* What a shard is refused, and its register: blocks 0 to 3 are of shard 0. */
static void refuse(struct raid6_shard *s, struct raid6_register *own, struct raid6_command *c)
{
    uint32_t ignored;
    for (int try = 0; try <= 256; try++) { /* each gives its buffer back */
        CHECK(raid6_shard_submit(s, 4, NULL, 0) == RAID6_WRONG_SHARD);
        CHECK(raid6_shard_submit(s, 8, NULL, 0) == RAID6_NO_SUCH_BLOCK);
    }
    CHECK(raid6_shard_deliver(s, c) == RAID6_NOT_OUT && raid6_shard_next_command(s, c) == RAID6_NONE);
    CHECK(raid6_shard_turn(s, RAID6_REBUILD) == RAID6_NOTHING_TO_DO && raid6_shard_turn(s, 3) == RAID6_NO_SUCH);
    CHECK(raid6_shard_agree(s, own) == RAID6_NONE && raid6_shard_room(s) == 256);
    CHECK(raid6_register_attach(own, 0, &ignored) == RAID6_NOT_LOST && raid6_register_fail(own, 4) == RAID6_NO_SLOT);
    CHECK(raid6_register_slot(own, 4, NULL) == -1);
}

/* A loss is to be agreed to before its shard looks, and at the register of its own array. */
static void lose_a_slot(struct raid6_shard *s, struct raid6_shard *other, struct raid6_register *own, struct raid6_command *c)
{
    struct raid6_shape wide = {4, 1, 16, 8, 2, 1, 0, 0};
    struct raid6_register *strange;
    struct raid6_change change;
    struct raid6_reply r;
    CHECK(!raid6_register_new(&wide, &strange) && raid6_shard_look(s, strange) == RAID6_WRONG_SHARD);
    CHECK(!raid6_shard_submit(s, 0, NULL, 7) && raid6_shard_room(s) == 255 && !raid6_shard_next_command(s, c));
    CHECK(raid6_shard_next_command(s, c) == RAID6_IN_USE && raid6_shard_deliver(other, c) == RAID6_NOT_OUT);
    c->fault = RAID6_GONE;
    CHECK(!raid6_shard_deliver(s, c) && raid6_shard_look(s, own) == RAID6_UNTOLD_FIRST);
    CHECK(raid6_shard_next_reply(s, &r) == RAID6_NONE);
    CHECK(!raid6_shard_next_change(s, &change) && raid6_shard_agree(s, strange) == RAID6_WRONG_SHARD);
    CHECK(!raid6_shard_next_change(s, &change) && change.slot == c->slot && change.state == RAID6_LOST);
    CHECK(raid6_register_slot(own, change.slot, NULL) == RAID6_IN_SYNC);
    CHECK(!raid6_shard_agree(s, own) && raid6_register_slot(own, change.slot, NULL) == RAID6_LOST);
    CHECK(!raid6_shard_look(s, own) && raid6_register_fail(own, change.slot) == RAID6_ALREADY_LOST);
    raid6_register_free(strange);
}

static void refuse_all(void)
{
    struct raid6_shape small = {4, 1, 16, 4, 2, 1, 0, 0};
    struct raid6_register *own;
    struct raid6_shard *s, *other;
    struct raid6_command *c;
    refuse_to_make();
    CHECK(!raid6_register_new(&small, &own) && !raid6_command_new(&small, &c));
    CHECK(!raid6_shard_new(own, 0, &s) && !raid6_shard_new(own, 1, &other));
    refuse(s, own, c);
    lose_a_slot(s, other, own, c);
    raid6_shard_command_free(s, c);
    raid6_shard_free(s);
    raid6_shard_free(other);
    raid6_register_free(own);
}

int main(int count, char **words)
{
    static struct worker workers[SHARDS];
    rounds = count > 1 ? atoi(words[1]) : rounds;
    refuse_all();
    CHECK(!raid6_register_new(&shape, &reg) && (model = calloc(BLOCKS, BLOCK)) != NULL);
    for (int slot = 0; slot < SLOTS; slot++)
        for (int generation = 0; generation < 2; generation++)
            CHECK((device[slot][generation] = calloc(ROWS, BLOCK)) != NULL);
    memset(device[REBUILT][1], 0xaa, (size_t)ROWS * BLOCK);
    for (unsigned i = 0; i < SHARDS; i++) {
        workers[i].number = i;
        workers[i].random = i;
        CHECK(!raid6_shard_new(reg, i, &workers[i].shard) && !raid6_command_new(&shape, &workers[i].command));
    }
    for (uint64_t block = 0; block < BLOCKS; block++) {
        struct worker *w = &workers[raid6_shard_of(&shape, block)];
        w->blocks[w->count++] = block;
    }
    in_threads(workers, work);
    uint64_t rebuilt = 0;
    for (int i = 0; i < SHARDS; i++)
        rebuilt += raid6_shard_count(workers[i].shard, RAID6_REBUILT);
    int failed;
    CHECK(rebuilt == ROWS && raid6_register_slot(reg, BREAKING, &failed) == RAID6_LOST && !failed);
    CHECK(!raid6_register_fail(reg, FAILED_LAST));
    in_threads(workers, compare);
    for (int i = 0; i < SHARDS; i++) {
        raid6_shard_command_free(workers[i].shard, workers[i].command);
        raid6_shard_free(workers[i].shard);
    }
    raid6_register_free(reg);
    for (int slot = 0; slot < SLOTS; slot++)
        free(device[slot][0]), free(device[slot][1]);
    free(model);
    printf("shards: %d threads, %d requests each, three losses and a rebuild of %d rows: as the model has it\n",
           SHARDS, rounds, ROWS);
    return 0;
}
