/* Memory: each allocation of making an array, and then of a register and its shards, fails in turn, and each time the
 * refusal is 8 and nothing is kept. No call after it allocates, through requests, a loss and a rebuild; and nothing is left
 * at the end.
 *
 * It has the library's three functions of memory itself, so it stands over the library's own calls, without raid6.c.
 */
#include "raid6.h"

#include <stdio.h>
#include <stdlib.h>
#include <string.h>

struct tried {
    uint64_t ok;
    void *block;
};

struct mail {
    uint32_t verb, task;
    uint64_t shard_asked, slot_asked, block_asked, name_asked;
    uint8_t *stage;
    uint32_t kind, generation;
    uint64_t shard, slot, number, name;
    uint8_t *bytes;
};

enum { SUBMIT = 1, COMMAND, DELIVER, REPLY, CHANGE, AGREE, FAIL, ATTACH, TURN, CLOSE = 17, OPEN, LOOK };

enum { SLOTS = 4, ROWS = 4, BLOCK = 16, BLOCKS = 8, SHARDS = 2, REQUESTS = 20000 };

static const struct raid6_shape shape = {SLOTS, 1, BLOCK, ROWS, SHARDS, 1, 0, 0};

uint32_t r6_array_make(const struct raid6_shape *, struct mail **out);
uint32_t r6_array_make_order(const struct raid6_shape *, struct raid6_command **out);
uint32_t r6_array_call(struct mail *);
uint32_t r6_array_order(struct mail *, struct raid6_command *);
uint32_t r6_register_make(const struct raid6_shape *, struct mail **out);
uint32_t r6_register_call(struct mail *);
uint32_t r6_shard_make(struct mail **out);
uint32_t r6_shard_call(struct mail *);
uint32_t r6_shard_order(struct mail *, struct raid6_command *);
uint32_t r6_shard_meet(struct mail *shard, struct mail *reg);

static long live, made, failing = -1;

struct tried rattle_alloc(size_t size, size_t align)
{
    (void)align;
    struct tried t = {0, NULL};
    if (made++ == failing)
        return t;
    size_t *at = malloc(size + 16);
    if (!at)
        return t;
    at[0] = size;
    live += (long)size;
    return (struct tried){1, at + 2};
}

void rattle_dealloc(void *block)
{
    size_t *at = (size_t *)block - 2;
    live -= (long)at[0];
    free(at);
}

struct tried rattle_realloc(void *block, size_t kept, size_t size, size_t align)
{
    struct tried t = rattle_alloc(size, align);
    if (t.ok) {
        memcpy(t.block, block, kept < size ? kept : size);
        rattle_dealloc(block);
    }
    return t;
}

/* An array, or a shard and its register. */
struct host {
    struct mail *mail, *reg;
};

static uint32_t call(struct host h, uint32_t verb)
{
    h.mail->verb = verb;
    return h.reg ? r6_shard_call(h.mail) : r6_array_call(h.mail);
}

static uint32_t order(struct host h, struct raid6_command *c, uint32_t verb)
{
    h.mail->verb = verb;
    return h.reg ? r6_shard_order(h.mail, c) : r6_array_order(h.mail, c);
}

static uint32_t agree(struct host h)
{
    h.mail->verb = AGREE;
    return h.reg ? r6_shard_meet(h.mail, h.reg) : r6_array_call(h.mail);
}

/* A shard looks at its register. */
static void look(struct host h)
{
    h.mail->verb = LOOK;
    if (h.reg)
        r6_shard_meet(h.mail, h.reg);
}

static uint32_t at_the_register(struct host h, uint32_t verb)
{
    struct mail *m = h.reg ? h.reg : h.mail;
    m->verb = verb;
    m->slot_asked = 1;
    return h.reg ? r6_register_call(m) : r6_array_call(m);
}

/* Whether anything was handed out: a command, which is performed, or a change or a reply. */
static int goes_on(struct host h, struct raid6_command *c)
{
    static uint8_t device[SLOTS][ROWS][BLOCK];
    if (!order(h, c, COMMAND)) {
        uint8_t *at = device[c->slot][c->row];
        memcpy(c->is_write ? at : c->block, c->is_write ? c->block : at, BLOCK);
        return !order(h, c, DELIVER);
    }
    if (!call(h, CHANGE))
        return !agree(h);
    look(h);
    return !call(h, REPLY);
}

/* Requests of all blocks, of which shard has the second half, through a loss and a rebuild. */
static int serve(struct host *of_shard, struct raid6_command *c)
{
    for (int i = 0; i < REQUESTS; i++) {
        uint64_t block = (uint64_t)rand() % BLOCKS;
        struct host h = of_shard[block * SHARDS / BLOCKS];
        h.mail->task = (uint32_t)i & 1;
        h.mail->block_asked = block;
        if (call(h, SUBMIT))
            return 0;
        if (i == REQUESTS / 4 && at_the_register(h, FAIL))
            return 0;
        if (i == REQUESTS / 2 && at_the_register(h, ATTACH))
            return 0;
        while (goes_on(h, c))
            continue;
        h.mail->task = 0;
        h.mail->shard_asked = (uint64_t)i & 1;
        if (i > REQUESTS / 2)
            call(h, TURN);
    }
    for (int i = 0; i < SHARDS; i++)
        while (goes_on(of_shard[i], c))
            continue;
    return 1;
}

/* An array is both shards. */
static uint32_t make_array(struct host *of_shard)
{
    uint32_t refusal = r6_array_make(&shape, &of_shard[0].mail);
    of_shard[1] = of_shard[0];
    return refusal;
}

static void free_array(struct host *of_shard)
{
    if (of_shard[0].mail) {
        call(of_shard[0], CLOSE);
        rattle_dealloc(of_shard[0].mail);
    }
}

static uint32_t make_shards(struct host *of_shard)
{
    struct mail *reg;
    uint32_t refusal = r6_register_make(&shape, &reg);
    for (uint64_t i = 0; i < SHARDS && !refusal; i++) {
        of_shard[i].reg = reg;
        refusal = r6_shard_make(&of_shard[i].mail);
        if (!refusal) {
            of_shard[i].mail->verb = OPEN;
            of_shard[i].mail->shard_asked = i;
            refusal = r6_shard_meet(of_shard[i].mail, reg);
        }
    }
    return refusal;
}

static void free_shards(struct host *of_shard)
{
    for (int i = 0; i < SHARDS; i++)
        if (of_shard[i].mail) {
            call(of_shard[i], CLOSE);
            rattle_dealloc(of_shard[i].mail);
        }
    if (of_shard[0].reg)
        rattle_dealloc(of_shard[0].reg);
}

static int play(const char *what, uint32_t (*make)(struct host *), void (*let_go)(struct host *))
{
    struct host of_shard[SHARDS];
    struct raid6_command *c = NULL;
    uint32_t refusal;
    failing = -1;
    do {
        memset(of_shard, 0, sizeof of_shard);
        failing++;
        made = 0;
        refusal = make(of_shard);
        if (refusal)
            let_go(of_shard);
        if (refusal && (refusal != 8 || live != 0)) {
            fprintf(stderr, "memory: allocation %ld of %s: %u, %ld bytes kept\n", failing, what, refusal, live);
            return 0;
        }
    } while (refusal);
    long allocations = failing;
    failing = -1;
    if (r6_array_make_order(&shape, &c))
        return 0;
    made = 0;
    if (!serve(of_shard, c))
        return 0;
    long later = made;
    order(of_shard[0], c, CLOSE);
    rattle_dealloc(c);
    let_go(of_shard);
    printf("memory: %ld allocations of %s, each refused in turn with 8 and nothing kept; %ld later, %ld bytes left\n",
           allocations, what, later, live);
    return later == 0 && live == 0;
}

int main(void)
{
    return !(play("an array", make_array, free_array) && play("shards and their register", make_shards, free_shards));
}
