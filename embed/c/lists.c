/* Random courses with lists of random lengths, against a plain array. Each course has an array of a random shape over
 * devices in memory, driven as one or by a handle of each shard; it hands in lists by raid6_submit_run, of any lengths, up
 * to more than there is room for, and with blocks of any shard and of none. Meanwhile devices fail, can't read a block, are
 * lost without a command, failed, attached and replaced; rows are rebuilt, checked and repaired; commands are performed in
 * any order. Of each list it is told how much has to be taken, and why no more; of each loss without a command whether it
 * has to be taken, and what is left of the slot; of each read which writes its block may come from, by when they were
 * handed in and answered. At the end all requests are answered, each slot that is out is attached and rebuilt, every block
 * is read, and a check finds every row right; or a third slot fails, and every answer is one that may be.
 *
 *     lists [COURSES [SEED]]
 */
#include "raid6.h"

#include <stdio.h>
#include <stdlib.h>
#include <string.h>

enum { MOST_SLOTS = 8, MOST_SHARDS = 4, MOST_BLOCKS = 1024, MOST_COMMANDS = 40, MOST_LIST = 700, MOST_OPEN = 1024,
       MOST_WRITES = 4096, MOST_DEVICES = 64, STEPS = 160, A_SHARD = 256 };

#define CHECK(condition)                                                                                        \
    do {                                                                                                        \
        if (!(condition)) {                                                                                     \
            fprintf(stderr, "lists: course %u of seed %u, line %d: %s\n", course, seed, __LINE__, #condition); \
            exit(1);                                                                                            \
        }                                                                                                       \
    } while (0)

static unsigned course, seed;
static uint64_t chance, lists, requests, whole_lists, harmed, lost, attached, replaced;

/* The next of numbers that follow no rule, below so many. */
static uint64_t below(uint64_t many)
{
    chance ^= chance << 13, chance ^= chance >> 7, chance ^= chance << 17;
    return (chance >> 11) % many;
}

/* ---- the array, as one or as handles of its shards */

static struct raid6_shape shape;
static uint64_t blocks;
static struct raid6 *array; /* NULL: handles */
static struct raid6_register *reg;
static struct raid6_shard *handle[MOST_SHARDS];

static void make(void)
{
    array = NULL, reg = NULL;
    if (below(2)) {
        CHECK(!raid6_new(&shape, &array) && raid6_blocks(array) == blocks);
        return;
    }
    CHECK(!raid6_register_new(&shape, &reg));
    for (unsigned s = 0; s < shape.shards; s++)
        CHECK(!raid6_shard_new(reg, s, &handle[s]));
}

static void let_go(void)
{
    raid6_free(array);
    for (unsigned s = 0; s < shape.shards && reg; s++)
        raid6_shard_free(handle[s]);
    raid6_register_free(reg);
}

static int state(unsigned slot, int *failed)
{
    return array ? raid6_slot(array, slot, failed) : raid6_register_slot(reg, slot, failed);
}

static uint64_t at_work(unsigned slot)
{
    uint64_t many = 0;
    for (unsigned s = 0; s < shape.shards && reg; s++)
        many += raid6_shard_at_work(handle[s], slot);
    return array ? raid6_at_work(array, slot) : many;
}

static int turn(unsigned shard, int task)
{
    return array ? raid6_turn(array, shard, task) : raid6_shard_turn(handle[shard], task);
}

static uint64_t counted(int which)
{
    uint64_t rows = 0;
    for (unsigned s = 0; s < shape.shards; s++)
        rows += array ? raid6_count(array, s, which) : raid6_shard_count(handle[s], which);
    return rows;
}

/* ---- devices */

static struct device {
    unsigned slot;
    uint32_t generation;
    int is_gone, is_broken;
    unsigned reports; /* a bit for each shard that has rebuilt its rows there */
    int64_t unread; /* a row that can't be read until it is written; -1: none */
    uint8_t *rows;
} device[MOST_DEVICES];
static unsigned devices;

static void add_device(unsigned slot, uint32_t generation, uint8_t filling)
{
    CHECK(devices < MOST_DEVICES);
    struct device *d = &device[devices++];
    *d = (struct device){slot, generation, 0, 0, 0, -1, malloc(shape.rows * shape.block)};
    CHECK(d->rows != NULL);
    memset(d->rows, filling, shape.rows * shape.block);
}

static struct device *of(uint64_t slot, uint32_t generation)
{
    for (unsigned i = 0; i < devices; i++)
        if (device[i].slot == slot && device[i].generation == generation)
            return &device[i];
    return NULL;
}

/* Whether each shard has rebuilt its rows on it, if it isn't one of the first. */
static int is_built(const struct device *d) { return !d->generation || d->reports == (1u << shape.shards) - 1; }

/* The devices of a slot up to this generation are in use no more. */
static void forget(unsigned slot, uint32_t most)
{
    for (unsigned i = 0; i < devices; i++)
        device[i].is_gone |= device[i].slot == slot && device[i].generation <= most;
}

/* A slot that isn't in sync, or of whose devices one is broken or can't read a block, counts as out. */
static int is_out(unsigned slot)
{
    int is = state(slot, NULL) != RAID6_IN_SYNC;
    for (unsigned i = 0; i < devices; i++)
        is |= device[i].slot == slot && !device[i].is_gone && (device[i].is_broken || device[i].unread >= 0);
    return is;
}

static unsigned out(void)
{
    unsigned many = 0;
    for (unsigned slot = 0; slot < shape.slots; slot++)
        many += (unsigned)is_out(slot);
    return many;
}

static uint32_t perform(struct raid6_command *c)
{
    struct device *d = of(c->slot, c->generation);
    CHECK(d != NULL && c->row < shape.rows && c->shard < shape.shards);
    if (d->is_broken)
        return below(2) ? RAID6_GONE : c->is_write ? RAID6_WRITE_FAULT : RAID6_LENGTH;
    uint8_t *at = d->rows + c->row * shape.block;
    if (c->is_write) {
        memcpy(at, c->block, shape.block);
        d->unread = d->unread == (int64_t)c->row ? -1 : d->unread;
    } else if (d->unread == (int64_t)c->row) {
        return RAID6_READ_FAULT;
    } else {
        memcpy(c->block, at, shape.block);
    }
    return RAID6_OK;
}

static struct raid6_command *command[MOST_COMMANDS];
static unsigned filled; /* the first so many are out */

static int next_command(struct raid6_command *c)
{
    if (array)
        return raid6_next_command(array, c);
    unsigned first = (unsigned)below(shape.shards);
    for (unsigned s = 0; s < shape.shards; s++)
        if (!raid6_shard_next_command(handle[(first + s) % shape.shards], c))
            return 0;
    return RAID6_NONE;
}

static int take_commands(void)
{
    unsigned before = filled;
    while (filled < MOST_COMMANDS && !next_command(command[filled]))
        filled++;
    return filled > before;
}

/* Some command that is out is performed and delivered. */
static void deliver_one(void)
{
    unsigned which = (unsigned)below(filled);
    struct raid6_command *c = command[which];
    c->fault = perform(c);
    CHECK(!(array ? raid6_deliver(array, c) : raid6_shard_deliver(handle[c->shard], c)));
    command[which] = command[--filled];
    command[filled] = c;
}

/* ---- the plain array: of each block the writes that a read may still bring, by when they were handed in and answered */

static struct write {
    uint64_t begun, ended; /* ended: UINT64_MAX while it is open */
    uint8_t byte;
    int next; /* of the block; -1: none */
} writes[MOST_WRITES];
static unsigned write_count;
static int first_of[MOST_BLOCKS];
static uint64_t now;

static struct asked {
    uint64_t block, begun;
    int write; /* -1: a read */
    int is_open;
} asked[MOST_OPEN];
static uint64_t open_of[MOST_SHARDS], open_in_all;

static int has_failed;

static int add_write(uint64_t block, uint8_t byte, uint64_t begun, uint64_t ended)
{
    CHECK(write_count < MOST_WRITES);
    writes[write_count] = (struct write){begun, ended, byte, first_of[block]};
    first_of[block] = (int)write_count;
    return (int)write_count++;
}

/* Whether a read that began then may bring this byte: of a write that began before now, and that no other followed which
 * was answered before the read began. */
static int may_bring(uint64_t block, uint64_t begun, uint8_t byte)
{
    for (int w = first_of[block]; w >= 0; w = writes[w].next) {
        int is_over = writes[w].byte != byte;
        for (int v = first_of[block]; v >= 0 && !is_over; v = writes[v].next)
            is_over = writes[w].ended < writes[v].begun && writes[v].ended < begun;
        if (!is_over)
            return 1;
    }
    return 0;
}

/* With nothing open, a write that another followed is one that no read brings any more. */
static void prune(void)
{
    static struct write kept[MOST_WRITES];
    unsigned count = 0;
    for (uint64_t block = 0; block < blocks; block++) {
        int head = -1;
        for (int w = first_of[block]; w >= 0; w = writes[w].next) {
            int is_over = 0;
            for (int v = first_of[block]; v >= 0 && !is_over; v = writes[v].next)
                is_over = writes[w].ended < writes[v].begun;
            if (is_over)
                continue;
            kept[count] = writes[w];
            kept[count].next = head;
            head = (int)count++;
        }
        first_of[block] = head;
    }
    memcpy(writes, kept, count * sizeof *kept);
    write_count = count;
}

static unsigned shard_of(uint64_t block) { return (unsigned)raid6_shard_of(&shape, block); }

/* How many of a list have to be taken, and why no more. */
static int right_refusal(const struct raid6_request *list, uint64_t count, unsigned own, uint64_t *taken)
{
    uint64_t more[MOST_SHARDS] = {0};
    for (*taken = 0; *taken < count; ++*taken) {
        uint64_t block = list[*taken].block;
        if (array ? open_in_all + *taken == A_SHARD * shape.shards : open_of[own] + *taken == A_SHARD)
            return RAID6_BUSY;
        if (block >= blocks)
            return RAID6_NO_SUCH_BLOCK;
        unsigned shard = shard_of(block);
        if (!array && shard != own)
            return RAID6_WRONG_SHARD;
        if (has_failed)
            return RAID6_ARRAY_FAILED;
        if (open_of[shard] + more[shard] == A_SHARD)
            return RAID6_BUSY;
        more[shard]++;
    }
    return 0;
}

static uint8_t data[MOST_LIST][64];
static struct raid6_request list[MOST_LIST];

/* A list: blocks that follow one another from the start of a chunk row or from anywhere, all over the array, or of a stride;
 * reads, writes, or both; now and then a block that isn't there. */
static uint64_t fill_list(void)
{
    uint64_t row = (shape.slots - 2) * shape.chunk, most[] = {4, 40, 200, MOST_LIST}, count = below(most[below(4)] + 1);
    uint64_t step = below(3) ? 1 : below(blocks), at = below(2) ? below(blocks) / row * row : below(blocks);
    uint64_t kind = below(3), scatters = below(4) == 0, wrong = below(16) ? count : below(count + 1), place = 0;
    for (uint64_t name = 0; place < count; place++, at = (at + step) % blocks) {
        while (name < MOST_OPEN && asked[name].is_open)
            name++;
        if (name == MOST_OPEN)
            break;
        uint64_t block = place == wrong ? blocks + below(3) : scatters ? below(blocks) : at;
        int is_write = kind == 2 ? below(2) > 0 : kind == 0;
        if (is_write)
            memset(data[place], (int)below(256), shape.block);
        list[place] = (struct raid6_request){.block = block, .user_data = name, .data = is_write ? data[place] : NULL};
        asked[name++] = (struct asked){.block = block, .write = is_write ? data[place][0] : -1};
    }
    return place;
}

static void hand_in(void)
{
    uint64_t count = fill_list(), right, taken = UINT64_MAX;
    unsigned own = count && list[0].block < blocks ? shard_of(list[0].block) : 0;
    int refusal = right_refusal(list, count, own, &right);
    now++;
    CHECK(refusal == (array ? raid6_submit_run(array, list, count, &taken)
                            : raid6_shard_submit_run(handle[own], list, count, &taken)));
    CHECK(taken == right);
    for (uint64_t place = 0; place < taken; place++) {
        struct asked *a = &asked[list[place].user_data];
        a->begun = now;
        a->is_open = 1;
        a->write = a->write < 0 ? -1 : add_write(a->block, (uint8_t)a->write, now, UINT64_MAX);
        open_of[shard_of(a->block)]++;
    }
    open_in_all += taken;
    lists++, requests += taken, whole_lists += taken == count;
}

static void settle(const struct raid6_reply *r)
{
    CHECK(r->user_data < MOST_OPEN && asked[r->user_data].is_open);
    struct asked *a = &asked[r->user_data];
    now++;
    a->is_open = 0;
    open_of[shard_of(a->block)]--;
    open_in_all--;
    if (r->kind == RAID6_FAILED) {
        CHECK(has_failed); /* it acted or it did not: the write stays one that may be followed by any */
    } else if (a->write >= 0) {
        CHECK(r->kind == RAID6_DONE);
        writes[a->write].ended = now;
    } else {
        const uint8_t *block = r->block;
        CHECK(r->kind == RAID6_DATA && !memcmp(block, block + 1, shape.block - 1));
        CHECK(may_bring(a->block, a->begun, block[0]));
    }
}

/* ---- what the program does with changes and replies */

/* A lost device is in use no more, nor is the one that another has replaced. */
static void see(const struct raid6_change *change)
{
    struct device *d = of(change->slot, change->generation);
    CHECK(d != NULL && change->shard < shape.shards);
    if (change->state == RAID6_LOST)
        d->is_gone = 1;
    else
        d->reports |= 1u << change->shard;
    if (change->generation && !d->is_gone && is_built(d))
        forget(change->slot, change->generation - 1);
}

static int agree_to_changes(void)
{
    struct raid6_change change;
    int many = 0;
    for (; array && !raid6_next_change(array, &change); many++) {
        CHECK(!raid6_agree(array));
        see(&change);
    }
    for (unsigned s = 0; s < shape.shards && reg; s++)
        for (; !raid6_shard_next_change(handle[s], &change); many++) {
            CHECK(change.shard == s && !raid6_shard_agree(handle[s], reg));
            see(&change);
        }
    return many;
}

static void look(void)
{
    for (unsigned s = 0; s < shape.shards && reg; s++)
        CHECK(!raid6_shard_look(handle[s], reg));
}

static int take_replies(void)
{
    struct raid6_reply r;
    int many = reg ? agree_to_changes() : 0;
    look();
    for (; array && !raid6_next_reply(array, &r); many++)
        settle(&r);
    for (unsigned s = 0; s < shape.shards && reg; s++)
        for (; !raid6_shard_next_reply(handle[s], &r); many++)
            settle(&r);
    return many;
}

/* What was on a device that is in use no more, once each shard has looked, is asked for by nobody. */
static void spoil(void)
{
    for (unsigned i = 0; i < devices; i++)
        if (device[i].is_gone)
            memset(device[i].rows, 0xcc, shape.rows * shape.block);
}

/* Until nothing comes any more: each round ends with replies, by which shards see what others changed. */
static void drain(void)
{
    for (int is_any = 1; is_any;) {
        is_any = take_commands();
        for (; filled; is_any = 1)
            deliver_one();
        is_any |= agree_to_changes() > 0;
        is_any |= take_replies() > 0;
        is_any |= take_commands();
    }
    CHECK(open_in_all == 0);
    spoil();
    if (!has_failed)
        prune();
}

/* ---- what happens to slots */

static void fail_slot(unsigned slot)
{
    CHECK(!(array ? raid6_fail(array, slot) : raid6_register_fail(reg, slot)));
    forget(slot, UINT32_MAX);
}

/* What the loss of a device has to be answered; of two that are in use the other one stays, and has the slot in sync if it
 * is the first. */
static int right_loss(unsigned slot, uint32_t generation, int *kept)
{
    int is_lost = 1, is_there = 0;
    *kept = 0;
    for (unsigned i = 0; i < devices; i++)
        if (device[i].slot == slot && !device[i].is_gone) {
            is_lost = 0;
            is_there |= device[i].generation == generation;
            *kept |= device[i].generation < generation;
        }
    if (slot >= shape.slots)
        return RAID6_NO_SLOT;
    return has_failed ? RAID6_ARRAY_FAILED : is_lost ? RAID6_ALREADY_LOST : is_there ? 0 : RAID6_STALE;
}

/* A device fails without a command: it answers none well from then on, or is honest until each shard has looked. */
static void lose(unsigned slot, uint32_t generation)
{
    int right_kept, kept = -1, right = right_loss(slot, generation, &right_kept);
    CHECK(right == (array ? raid6_lose(array, slot, generation, &kept)
                          : raid6_register_lose(reg, slot, generation, &kept)));
    CHECK(kept == (right ? -1 : right_kept));
    if (right)
        return;
    struct device *d = of(slot, generation);
    d->is_gone = 1;
    d->is_broken |= (int)below(2);
    CHECK((state(slot, NULL) == RAID6_IN_SYNC) == kept);
    lost++;
}

/* Some device of the slot, or one that it hasn't, or has no more. */
static void lose_some(unsigned slot)
{
    uint32_t most = 0;
    for (unsigned i = 0; i < devices; i++)
        if (device[i].generation > most)
            most = device[i].generation;
    for (unsigned i = 0; i < devices; i++)
        if (device[i].slot == slot && !device[i].is_gone && below(2)) {
            lose(slot, device[i].generation);
            return;
        }
    lose(below(8) ? slot : (unsigned)shape.slots, (uint32_t)below(most + 2));
}

/* A lost slot gets a new device, once each shard has seen the loss, and then has no command of it out. */
static void attach(unsigned slot)
{
    uint32_t generation;
    if (agree_to_changes() || take_replies() || at_work(slot) || state(slot, NULL) != RAID6_LOST)
        return;
    CHECK(!(array ? raid6_attach(array, slot, &generation) : raid6_register_attach(reg, slot, &generation)));
    add_device(slot, generation, 0xaa);
    attached++;
}

/* Whether a slot has two devices. */
static int is_replaced(unsigned slot)
{
    unsigned many = 0;
    for (unsigned i = 0; i < devices; i++)
        many += device[i].slot == slot && !device[i].is_gone;
    return many > 1;
}

static int is_any_replaced(void)
{
    int is = 0;
    for (unsigned slot = 0; slot < shape.slots; slot++)
        is |= is_replaced(slot);
    return is;
}

static void replace(unsigned slot)
{
    uint32_t generation;
    int right = is_replaced(slot) ? RAID6_NOT_IN_SYNC : is_any_replaced() ? RAID6_REPLACING : 0;
    CHECK(right == (array ? raid6_replace(array, slot, &generation) : raid6_register_replace(reg, slot, &generation)));
    if (right)
        return;
    add_device(slot, generation, 0xbb);
    replaced++;
}

/* A device of the slot breaks, or can't read a row. */
static void harm(unsigned slot)
{
    for (unsigned i = 0; i < devices; i++)
        if (device[i].slot == slot && !device[i].is_gone && below(2)) {
            if (below(2))
                device[i].is_broken = 1;
            else if (is_built(&device[i]))
                device[i].unread = (int64_t)below(shape.rows);
            harmed++;
            return;
        }
}

/* Something happens to a slot, which leaves at most two out. */
static void change_slot(void)
{
    unsigned slot = (unsigned)below(shape.slots);
    if (state(slot, NULL) == RAID6_LOST && below(8))
        attach(slot);
    else if (!is_out(slot) && below(3) == 0)
        replace(slot);
    else if (!is_out(slot) && out() >= 2)
        return;
    else if (below(3) == 0)
        lose_some(slot);
    else if (state(slot, NULL) == RAID6_LOST)
        return;
    else if (below(3))
        harm(slot);
    else
        fail_slot(slot);
}

/* ---- a course */

static void make_shape(void)
{
    memset(&shape, 0, sizeof shape);
    shape.slots = 4 + below(MOST_SLOTS - 3);
    shape.chunk = 1 + below(4);
    shape.block = 16 * (1 + below(4));
    shape.shards = 1 + below(MOST_SHARDS);
    uint64_t chunks = shape.shards + below(24);
    while ((shape.slots - 2) * shape.chunk * chunks > MOST_BLOCKS)
        chunks--;
    shape.rows = chunks * shape.chunk;
    shape.window = 1 + below(8);
    blocks = shape.rows * (shape.slots - 2);
}

static void begin(void)
{
    make_shape();
    devices = 0, write_count = 0, now = 0, filled = 0, open_in_all = 0, has_failed = 0;
    memset(open_of, 0, sizeof open_of);
    memset(asked, 0, sizeof asked);
    make();
    for (unsigned slot = 0; slot < shape.slots; slot++)
        add_device(slot, 0, 0);
    for (uint64_t block = 0; block < blocks; block++) {
        first_of[block] = -1;
        add_write(block, 0, 0, 0);
    }
    for (unsigned i = 0; i < MOST_COMMANDS; i++)
        CHECK(!raid6_command_new(&shape, &command[i]));
}

static void end(void)
{
    for (unsigned i = 0; i < MOST_COMMANDS; i++) {
        if (array)
            raid6_command_free(array, command[i]);
        else
            raid6_shard_command_free(handle[0], command[i]);
    }
    let_go();
    for (unsigned i = 0; i < devices; i++)
        free(device[i].rows);
}

static void step(void)
{
    switch (below(8)) {
    case 0:
        if (write_count + MOST_LIST > MOST_WRITES)
            drain();
        hand_in();
        break;
    case 1:
        agree_to_changes();
        break;
    case 2:
        take_replies();
        break;
    case 3:
        if (below(3) == 0 && devices < MOST_DEVICES / 2)
            change_slot();
        break;
    case 4:
        turn((unsigned)below(shape.shards), (int)below(3));
        break;
    default:
        take_commands();
        for (uint64_t many = below(64); many && filled; many--)
            deliver_one();
    }
}

/* Each slot that is out is rebuilt, and each replacement ends. */
static void make_whole(void)
{
    drain();
    for (int rounds = 0; out() || is_any_replaced(); rounds++) {
        CHECK(rounds < 10000);
        for (unsigned slot = 0; slot < shape.slots; slot++)
            if (state(slot, NULL) == RAID6_LOST)
                attach(slot);
        hand_in();
        for (unsigned shard = 0; shard < shape.shards; shard++) {
            turn(shard, RAID6_REBUILD);
            turn(shard, RAID6_CHECK);
        }
        drain();
    }
}

static void read_all(void)
{
    for (uint64_t block = 0; block < blocks; block++) {
        uint64_t taken;
        unsigned own = shard_of(block);
        list[0] = (struct raid6_request){.block = block, .user_data = 0, .data = NULL};
        asked[0] = (struct asked){.block = block, .begun = ++now, .write = -1, .is_open = 1};
        open_of[own]++, open_in_all++;
        CHECK(!(array ? raid6_submit_run(array, list, 1, &taken) : raid6_shard_submit_run(handle[own], list, 1, &taken)));
        drain();
    }
}

static void check_all(void)
{
    uint64_t before = counted(RAID6_CONSISTENT), row, first, last;
    for (unsigned shard = 0; shard < shape.shards; shard++) {
        CHECK(!(array ? raid6_progress(array, shard, RAID6_CHECK, 0, &row, &first, &last)
                      : raid6_shard_progress(handle[shard], RAID6_CHECK, 0, &row, &first, &last)));
        for (; first < last; first++) {
            CHECK(!turn(shard, RAID6_CHECK));
            drain();
        }
    }
    CHECK(counted(RAID6_CONSISTENT) - before == shape.rows);
}

/* A third slot fails: what is open is answered so or as it should be, and all that comes is refused. */
static void lose_all(void)
{
    int failed = has_failed = 1;
    for (unsigned slot = 0; slot < shape.slots && (state(slot, &failed), !failed); slot++)
        if (state(slot, NULL) != RAID6_LOST)
            fail_slot(slot);
    lose_some((unsigned)below(shape.slots));
    drain();
    hand_in();
    CHECK(open_in_all == 0);
}

int main(int count, char **words)
{
    unsigned courses = count > 1 ? (unsigned)atoi(words[1]) : 1000;
    seed = count > 2 ? (unsigned)atoi(words[2]) : 1;
    for (course = 0; course < courses; course++) {
        chance = (seed + 1) * 0x9e3779b97f4a7c15u + course * 0xbf58476d1ce4e5b9u + 1;
        begin();
        for (int steps = 0; steps < STEPS; steps++)
            step();
        if (below(8)) {
            make_whole();
            read_all();
            check_all();
        } else {
            lose_all();
        }
        end();
    }
    printf("lists: %u courses of seed %u, %llu requests of %llu lists, %llu of them whole; %llu times a device did harm, %llu "
           "were lost without a command, %llu attached and %llu replaced: each answer may be\n",
           courses, seed, (unsigned long long)requests, (unsigned long long)lists, (unsigned long long)whole_lists,
           (unsigned long long)harmed, (unsigned long long)lost, (unsigned long long)attached,
           (unsigned long long)replaced);
    return 0;
}
