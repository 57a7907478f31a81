/* The library over devices in memory, against a model: random requests through a failed device, a failed slot and a
 * rebuild, one at a time or several handed in together; whole rows, which are written with no read; devices that are
 * replaced while they work, of which one fails and one is the new one that fails; refusals; a third loss.
 *
 *     model [ROUNDS]
 */
#include "raid6.h"

#include <stdio.h>
#include <stdlib.h>
#include <string.h>

enum { SLOTS = 6, BLOCK = 4096, ROWS = 1024, SHARDS = 4 };

static const struct raid6_shape shape = {SLOTS, 16, BLOCK, ROWS, SHARDS, 8, 0, 0};

static uint8_t *device[SLOTS];
static uint32_t generation[SLOTS]; /* of the device that a slot has */
static int is_broken[SLOTS];
static struct raid6_command *command, *other; /* the other is made for blocks of 16 bytes */

/* The device that is to replace a slot's, while there is one. */
static struct {
    unsigned slot;
    uint32_t generation;
    int is_broken;
    uint8_t *blocks;
} second;

#define CHECK(condition)                                                    \
    do {                                                                    \
        if (!(condition)) {                                                 \
            fprintf(stderr, "model: line %d: %s\n", __LINE__, #condition); \
            exit(1);                                                        \
        }                                                                   \
    } while (0)

/* The blocks of the command's device, if it works. */
static uint8_t *blocks_of(const struct raid6_command *c)
{
    if (second.blocks && c->slot == second.slot && c->generation == second.generation)
        return second.is_broken ? NULL : second.blocks;
    return is_broken[c->slot] || c->generation != generation[c->slot] ? NULL : device[c->slot];
}

/* The device of the command performs it, if it can. */
static void perform(struct raid6_command *c)
{
    uint8_t *blocks = blocks_of(c);
    if (!blocks) {
        c->fault = RAID6_GONE;
        return;
    }
    uint8_t *at = blocks + c->row * BLOCK;
    if (c->is_write)
        memcpy(at, c->block, BLOCK);
    else
        memcpy(c->block, at, BLOCK);
    c->fault = RAID6_OK;
}

/* All commands are performed and delivered, and all changes agreed to; a program with files writes each loss down first. */
static void drive(struct raid6 *a)
{
    struct raid6_change change;
    for (struct raid6_command *c = command; !raid6_next_command(a, c); c = c == command ? other : command) {
        CHECK(raid6_at_work(a, (unsigned)c->slot) == 1);
        perform(c);
        CHECK(!raid6_deliver(a, c));
    }
    while (!raid6_next_change(a, &change)) {
        CHECK(change.slot < SLOTS && change.shard < SHARDS);
        CHECK(!raid6_agree(a));
    }
}

/* The next reply, whatever has to be done before: a loss makes more commands. */
static struct raid6_reply reply(struct raid6 *a)
{
    struct raid6_reply r;
    drive(a);
    while (raid6_next_reply(a, &r))
        drive(a);
    return r;
}

static void fill(uint8_t *block)
{
    for (int i = 0; i < BLOCK; i++)
        block[i] = (uint8_t)rand();
}

/* Requests for blocks that follow one another, as a run: each has a block of its own. */
enum { RUN = 64 };
static uint8_t run_data[RUN][BLOCK];
static struct raid6_request run[RUN];

static void ask_for(uint64_t place, uint64_t block, int is_write)
{
    if (is_write)
        fill(run_data[place]);
    run[place] = (struct raid6_request){.block = block, .data = is_write ? run_data[place] : NULL, .user_data = place};
}

/* Each of the run has its reply, in whatever order; the model has what it wrote. */
static void answer_run(struct raid6 *a, uint8_t *model, uint64_t count)
{
    struct raid6_reply r;
    uint64_t answered = 0;
    for (uint64_t replies = 0; replies < count; replies++) {
        r = reply(a);
        CHECK(r.user_data < count && !(answered >> r.user_data & 1));
        answered |= 1ull << r.user_data;
        const struct raid6_request *asked = &run[r.user_data];
        CHECK(r.kind == (asked->data ? RAID6_DONE : RAID6_DATA));
        CHECK(asked->data || !memcmp(r.block, model + asked->block * BLOCK, BLOCK));
    }
    CHECK(raid6_next_reply(a, &r) == RAID6_NONE);
    for (uint64_t place = 0; place < count; place++)
        if (run[place].data)
            memcpy(model + run[place].block * BLOCK, run[place].data, BLOCK);
}

/* Some requests that are handed in together, of which some runs only write. */
static void hand_in_run(struct raid6 *a, uint8_t *model, uint64_t blocks)
{
    uint64_t count = (uint64_t)rand() % (RUN + 1), first = (uint64_t)rand() % blocks, taken = RUN + 1;
    int all_write = rand() % 2;
    for (uint64_t place = 0; place < count; place++)
        ask_for(place, (first + place) % blocks, all_write || rand() % 2);
    CHECK(!raid6_submit_run(a, run, count, &taken) && taken == count);
    answer_run(a, model, count);
}

/* Whole rows that are handed in together are written with no read. */
static void write_whole_rows(struct raid6 *a, uint8_t *model)
{
    uint64_t taken, commands = 0;
    for (uint64_t place = 0; place < RUN; place++)
        ask_for(place, place, 1);
    CHECK(!raid6_submit_run(a, run, RUN, &taken) && taken == RUN);
    for (; !raid6_next_command(a, command); commands++) {
        CHECK(command->is_write);
        perform(command);
        CHECK(!raid6_deliver(a, command));
    }
    CHECK(commands == RUN / (SLOTS - 2) * SLOTS);
    answer_run(a, model, RUN);
}

/* A run is taken up to the first that is refused: no such block, and a 257th request. */
static void refuse_run(struct raid6 *a, uint8_t *model, uint64_t blocks)
{
    uint64_t taken;
    for (uint64_t place = 0; place < 4; place++)
        ask_for(place, place == 2 ? blocks : place, 0);
    CHECK(raid6_submit_run(a, run, 4, &taken) == RAID6_NO_SUCH_BLOCK && taken == 2 && raid6_room(a, 0) == 254);
    answer_run(a, model, 2);
    CHECK(!raid6_submit_run(a, run, 0, &taken) && taken == 0);
    for (int most = 0; most < 256 / RUN; most++) {
        for (uint64_t place = 0; place < RUN; place++)
            ask_for(place, place, 0);
        CHECK(raid6_submit_run(a, run, most ? RUN : RUN - 1, &taken) == 0 && taken == (most ? RUN : RUN - 1));
    }
    CHECK(raid6_submit_run(a, run, 2, &taken) == RAID6_BUSY && taken == 1 && raid6_room(a, 0) == 0);
    for (int replies = 0; replies < 256; replies++)
        CHECK(reply(a).kind == RAID6_DATA);
}

/* A read or a write of any block, and its reply; now and then a run of them. */
static void request(struct raid6 *a, uint8_t *model, uint64_t blocks, uint64_t name)
{
    if (rand() % 4 == 0)
        hand_in_run(a, model, blocks);
    uint8_t data[BLOCK];
    uint64_t block = (uint64_t)rand() % blocks;
    int is_write = rand() % 2;
    if (is_write) {
        fill(data);
        memcpy(model + block * BLOCK, data, BLOCK);
    }
    CHECK(!raid6_submit(a, block, is_write ? data : NULL, name));
    struct raid6_reply r = reply(a);
    CHECK(r.user_data == name && r.kind == (is_write ? RAID6_DONE : RAID6_DATA));
    CHECK(is_write || !memcmp(r.block, model + block * BLOCK, BLOCK));
    CHECK(raid6_next_reply(a, &r) == RAID6_NONE); /* and each shard has looked */
}

/* The next row of each shard is rebuilt on a slot; how far that is rises. */
static void rebuild(struct raid6 *a, unsigned slot)
{
    for (unsigned shard = 0; shard < SHARDS; shard++) {
        uint64_t row, first, end;
        int has_new = !raid6_progress(a, shard, RAID6_REBUILD, slot, &row, &first, &end);
        CHECK(!has_new || (first <= row && row < end));
        if (!raid6_turn(a, shard, RAID6_REBUILD))
            drive(a);
    }
}

/* How many shards have rows to rebuild on a slot. */
static unsigned unbuilt(struct raid6 *a, unsigned slot)
{
    unsigned shards = 0;
    for (unsigned shard = 0; shard < SHARDS; shard++) {
        uint64_t row, first, end;
        shards += !raid6_progress(a, shard, RAID6_REBUILD, slot, &row, &first, &end);
    }
    return shards;
}

/* A slot gets a second device, of any blocks, which is to replace its own; then requests and rows, so many. */
static void replace(struct raid6 *a, uint8_t *model, uint64_t blocks, unsigned slot, int rows)
{
    uint32_t ignored;
    CHECK((second.blocks = malloc((size_t)ROWS * BLOCK)) != NULL);
    memset(second.blocks, 0xbb, (size_t)ROWS * BLOCK);
    second.slot = slot;
    second.is_broken = 0;
    CHECK(!raid6_replace(a, slot, &second.generation) && raid6_slot(a, slot, NULL) == RAID6_IN_SYNC);
    CHECK(raid6_replace(a, SLOTS, &ignored) == RAID6_NO_SLOT && raid6_replace(a, 0, &ignored) == RAID6_REPLACING);
    CHECK(raid6_replace(a, slot, &ignored) == RAID6_NOT_IN_SYNC && raid6_replace(a, 2, &ignored) == RAID6_NOT_IN_SYNC);
    for (int row = 0; row < rows; row++) {
        request(a, model, blocks, (uint64_t)row);
        rebuild(a, slot);
    }
}

/* Rows are rebuilt between requests until no shard has one left on the slot, and each shard has looked after that. */
static void rebuild_rest(struct raid6 *a, uint8_t *model, uint64_t blocks, unsigned slot)
{
    while (unbuilt(a, slot) > 0) {
        request(a, model, blocks, 1);
        rebuild(a, slot);
    }
    request(a, model, blocks, 2);
    CHECK(raid6_slot(a, slot, NULL) == RAID6_IN_SYNC);
}

/* The second device has the slot's place: the first is asked no more. */
static void take_over(unsigned slot)
{
    free(device[slot]);
    device[slot] = second.blocks;
    generation[slot] = second.generation;
    is_broken[slot] = 0;
    second.blocks = NULL;
}

/* Three devices are replaced: the second of them fails meanwhile, and of the third the new one. */
static void replace_three(struct raid6 *a, uint8_t *model, uint64_t blocks)
{
    replace(a, model, blocks, 1, 0);
    request(a, model, blocks, 0);
    CHECK(unbuilt(a, 1) == SHARDS);
    rebuild_rest(a, model, blocks, 1);
    take_over(1);
    for (int round = 0; round < 500; round++)
        request(a, model, blocks, (uint64_t)round);
    CHECK(raid6_slot(a, 1, NULL) == RAID6_IN_SYNC);

    replace(a, model, blocks, 3, 50);
    is_broken[3] = 1;
    while (raid6_slot(a, 3, NULL) == RAID6_IN_SYNC)
        request(a, model, blocks, 3);
    CHECK(raid6_slot(a, 3, NULL) == RAID6_REBUILDING);
    rebuild_rest(a, model, blocks, 3);
    take_over(3);

    replace(a, model, blocks, 5, 50);
    second.is_broken = 1;
    while (unbuilt(a, 5) > 0) {
        rebuild(a, 5);
        request(a, model, blocks, 4);
    }
    CHECK(raid6_slot(a, 5, NULL) == RAID6_IN_SYNC);
    free(second.blocks);
    second.blocks = NULL;
    for (int round = 0; round < 500; round++)
        request(a, model, blocks, (uint64_t)round);
    CHECK(raid6_slot(a, 1, NULL) == RAID6_IN_SYNC && raid6_slot(a, 3, NULL) == RAID6_IN_SYNC);
    CHECK(raid6_slot(a, 5, NULL) == RAID6_IN_SYNC && generation[3] == generation[1] + 1);
}

static void refuse(struct raid6 *a, uint64_t blocks)
{
    uint32_t ignored;
    for (int try = 0; try <= 256 * SHARDS; try++) /* each gives its buffer back */
        CHECK(raid6_submit(a, blocks, NULL, 0) == RAID6_NO_SUCH_BLOCK);
    CHECK(raid6_fail(a, SLOTS) == RAID6_NO_SLOT && raid6_fail(a, 2) == RAID6_ALREADY_LOST);
    CHECK(raid6_attach(a, SLOTS, &ignored) == RAID6_NO_SLOT && raid6_attach(a, 0, &ignored) == RAID6_NOT_LOST);
    CHECK(raid6_turn(a, SHARDS, RAID6_CHECK) == RAID6_WRONG_SHARD && raid6_turn(a, 0, 3) == RAID6_NO_SUCH);
    CHECK(raid6_turn(a, 0, RAID6_REBUILD) == RAID6_NOTHING_TO_DO && raid6_turn(a, 0, RAID6_CHECK) == RAID6_NONE);
    CHECK(raid6_deliver(a, command) == RAID6_NOT_OUT && raid6_agree(a) == RAID6_NONE);
    CHECK(raid6_room(a, blocks) == 0 && raid6_room(a, 0) == 256 && raid6_slot(a, SLOTS, NULL) == -1);
    CHECK(raid6_errno(RAID6_BUSY) != raid6_errno(RAID6_NO_SLOT) && raid6_errno(0) == 0);
}

/* A third slot is lost: what is open, and all that comes, is answered so. */
static void lose_a_third(struct raid6 *a)
{
    int has_failed;
    CHECK(!raid6_submit(a, 0, NULL, 77));
    CHECK(!raid6_fail(a, 0) && raid6_slot(a, 0, &has_failed) == RAID6_LOST && !has_failed);
    CHECK(!raid6_fail(a, 1) && raid6_slot(a, 1, &has_failed) == RAID6_LOST && has_failed);
    struct raid6_reply r = reply(a);
    CHECK(r.user_data == 77 && r.kind == RAID6_FAILED);
    CHECK(raid6_submit(a, 0, NULL, 78) == RAID6_ARRAY_FAILED && raid6_fail(a, 3) == RAID6_ARRAY_FAILED);
}

int main(int count, char **words)
{
    int rounds = count > 1 ? atoi(words[1]) : 20000;
    struct raid6 *a;
    CHECK(!raid6_new(&shape, &a) && !raid6_command_new(&shape, &command));
    struct raid6_shape of_others = shape;
    of_others.block = 16;
    CHECK(!raid6_command_new(&of_others, &other));
    uint64_t blocks = raid6_blocks(a);
    CHECK(blocks == (SLOTS - 2) * ROWS);
    for (int slot = 0; slot < SLOTS; slot++)
        CHECK((device[slot] = calloc(ROWS, BLOCK)) != NULL);
    uint8_t *model = calloc(blocks, BLOCK);
    CHECK(model != NULL);
    write_whole_rows(a, model);
    refuse_run(a, model, blocks);
    for (int round = 0; round < rounds; round++) {
        request(a, model, blocks, (uint64_t)round);
        if (round == rounds / 6)
            is_broken[2] = 1;
        if (round == rounds / 3)
            CHECK(!raid6_fail(a, 4));
        if (round == rounds / 2) {
            memset(device[4], 0xaa, (size_t)ROWS * BLOCK);
            CHECK(raid6_at_work(a, 4) == 0 && !raid6_attach(a, 4, &generation[4]));
            CHECK(generation[4] == 1 && raid6_slot(a, 4, NULL) == RAID6_REBUILDING);
        }
        if (round > rounds / 2)
            rebuild(a, 4);
    }
    while (raid6_slot(a, 4, NULL) == RAID6_REBUILDING)
        rebuild(a, 4);
    uint64_t rebuilt = 0;
    for (unsigned shard = 0; shard < SHARDS; shard++)
        rebuilt += raid6_count(a, shard, RAID6_REBUILT);
    CHECK(rebuilt == ROWS && raid6_slot(a, 4, NULL) == RAID6_IN_SYNC && raid6_slot(a, 2, NULL) == RAID6_LOST);
    replace_three(a, model, blocks);
    refuse(a, blocks);
    lose_a_third(a);
    raid6_command_free(a, command);
    raid6_command_free(a, other);
    raid6_free(a);
    for (int slot = 0; slot < SLOTS; slot++)
        free(device[slot]);
    free(model);
    printf("model: %d requests, a rebuild of %d rows, three replacements and a third loss: as the model has it\n", rounds,
           ROWS);
    return 0;
}
