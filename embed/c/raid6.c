/* raid6.h over the calls of the library r6_array_c. */
#include "raid6.h"

#include <errno.h>
#include <stdlib.h>
#include <string.h>

enum { SUBMIT = 1, COMMAND, DELIVER, REPLY, CHANGE, AGREE, FAIL, ATTACH, TURN, SLOT, COUNT, ROOM, AT_WORK, ROWS, NEXT_ROW,
       BLOCKS, CLOSE, OPEN, LOOK, REPLACE, GATHER, SUBMIT_ALL, RELEASE, LOSE };

/* as Mail of the library's src/handle.rt, which stands at the head of an array, a shard and a register */
struct mail {
    uint32_t verb, task;
    uint64_t shard_asked, slot_asked, block_asked, name_asked;
    uint8_t *stage;
    uint32_t kind, generation;
    uint64_t shard, slot, number, name;
    uint8_t *bytes;
};

struct raid6 {
    struct mail *mail;
    uint64_t block;
};

struct raid6_shard {
    struct mail *mail;
    uint64_t block;
};

struct raid6_register {
    struct mail *mail;
    uint64_t block;
};

uint32_t r6_array_make(const struct raid6_shape *, struct mail **out);
uint32_t r6_array_make_order(const struct raid6_shape *, struct raid6_command **out);
uint32_t r6_array_call(struct mail *);
uint32_t r6_array_order(struct mail *, struct raid6_command *);
uint32_t r6_register_make(const struct raid6_shape *, struct mail **out);
uint32_t r6_register_call(struct mail *);
uint32_t r6_shard_make(struct mail **out);
uint32_t r6_shard_call(struct mail *);
uint32_t r6_shard_order(struct mail *, struct raid6_command *);
uint32_t r6_shard_meet(struct mail *shard, struct mail *reg);
uint32_t r6_shard_of(const struct raid6_shape *, uint64_t block, uint64_t *shard);

/* What the library asks of the program: memory. Blocks of devices are aligned for O_DIRECT. */
struct tried {
    uint64_t ok;
    void *block;
};

struct tried rattle_alloc(size_t size, size_t align)
{
    (void)align; /* at most 16 */
    struct tried made = {0, size && size % 4096 == 0 ? aligned_alloc(4096, size) : malloc(size ? size : 1)};
    made.ok = made.block != NULL;
    return made;
}

void rattle_dealloc(void *block) { free(block); }

struct tried rattle_realloc(void *block, size_t kept, size_t size, size_t align)
{
    (void)kept, (void)align;
    struct tried made = {0, realloc(block, size ? size : 1)};
    made.ok = made.block != NULL;
    return made;
}

static int call(struct raid6 *a, uint32_t verb)
{
    a->mail->verb = verb;
    return (int)r6_array_call(a->mail);
}

/* A number that is asked for, or 0. */
static uint64_t number(struct raid6 *a, uint32_t verb) { return call(a, verb) ? 0 : a->mail->number; }

static void ask_request(struct mail *mail, uint64_t length, uint64_t block, const void *data, uint64_t user_data)
{
    if (data)
        memcpy(mail->stage, data, length);
    mail->task = data != NULL;
    mail->block_asked = block;
    mail->name_asked = user_data;
}

/* Several requests are gathered, as many as there is room for, and handed in together, up to one that is refused. What
 * comes after those of one shard stays gathered, and is handed in next. */
static int submit_run(struct mail *mail, uint32_t ask(struct mail *), uint64_t length, const struct raid6_request *run,
                      uint64_t count, uint64_t *taken)
{
    uint64_t next = 0;
    int full, refusal;
    *taken = 0;
    do {
        for (full = 0; next < count && !full; next += !full) {
            ask_request(mail, length, run[next].block, run[next].data, run[next].user_data);
            mail->verb = GATHER;
            full = (int)ask(mail);
        }
        mail->verb = SUBMIT_ALL;
        refusal = (int)ask(mail);
        *taken += mail->number;
    } while (mail->number && (refusal ? refusal == RAID6_WRONG_SHARD : full));
    if (!refusal)
        return full;
    mail->verb = RELEASE;
    ask(mail);
    return refusal;
}

static struct raid6_change change_of(const struct mail *mail)
{
    return (struct raid6_change){.slot = (uint32_t)mail->slot, .generation = mail->generation,
                                 .shard = (uint32_t)mail->shard, .state = mail->kind ? RAID6_IN_SYNC : RAID6_LOST};
}

static struct raid6_reply reply_of(const struct mail *mail)
{
    return (struct raid6_reply){.user_data = mail->name, .block = mail->bytes, .kind = mail->kind};
}

/* The register's refusal 5 is the core's. */
static int registered(int refusal) { return refusal == 100 + RAID6_ARRAY_FAILED ? RAID6_ARRAY_FAILED : refusal; }

int raid6_errno(int refusal)
{
    switch (refusal) {
    case 0:
        return 0;
    case RAID6_BUSY:
    case RAID6_UNTOLD_FIRST:
    case RAID6_NO_FRAME:
    case RAID6_NOTHING_TO_DO:
    case RAID6_NONE:
        return EAGAIN;
    case RAID6_ARRAY_FAILED:
        return EIO;
    case RAID6_EXHAUSTED:
        return EOVERFLOW;
    case RAID6_IN_USE:
    case RAID6_NOT_LOST:
    case RAID6_NOT_IN_SYNC:
    case RAID6_REPLACING:
        return EBUSY;
    case RAID6_ALREADY_LOST:
        return EALREADY;
    case RAID6_STALE:
        return ESTALE;
    case RAID6_SPENT:
        return ENOSPC;
    default:
        return EINVAL;
    }
}

int raid6_new(const struct raid6_shape *shape, struct raid6 **array)
{
    *array = NULL;
    struct raid6 *a = malloc(sizeof *a);
    if (!a)
        return 8;
    a->mail = NULL;
    int refusal = (int)r6_array_make(shape, &a->mail);
    if (refusal) {
        free(a);
        return refusal;
    }
    a->block = shape->block;
    *array = a;
    return 0;
}

void raid6_free(struct raid6 *a)
{
    if (!a)
        return;
    call(a, CLOSE); /* lets go of all but the block of the array itself */
    free(a->mail);
    free(a);
}

uint64_t raid6_blocks(struct raid6 *a) { return number(a, BLOCKS); }

int raid6_command_new(const struct raid6_shape *shape, struct raid6_command **command)
{
    *command = NULL;
    return (int)r6_array_make_order(shape, command);
}

void raid6_command_free(struct raid6 *a, struct raid6_command *command)
{
    if (!command)
        return;
    a->mail->verb = CLOSE;
    r6_array_order(a->mail, command);
    free(command);
}

int raid6_submit(struct raid6 *a, uint64_t block, const void *data, uint64_t user_data)
{
    ask_request(a->mail, a->block, block, data, user_data);
    return call(a, SUBMIT);
}

int raid6_submit_run(struct raid6 *a, const struct raid6_request *run, uint64_t count, uint64_t *taken)
{
    return submit_run(a->mail, r6_array_call, a->block, run, count, taken);
}

uint64_t raid6_room(struct raid6 *a, uint64_t block)
{
    a->mail->block_asked = block;
    return number(a, ROOM);
}

int raid6_next_command(struct raid6 *a, struct raid6_command *command)
{
    a->mail->verb = COMMAND;
    return (int)r6_array_order(a->mail, command);
}

int raid6_deliver(struct raid6 *a, struct raid6_command *command)
{
    a->mail->verb = DELIVER;
    return (int)r6_array_order(a->mail, command);
}

int raid6_next_change(struct raid6 *a, struct raid6_change *c)
{
    int refusal = call(a, CHANGE);
    if (!refusal)
        *c = change_of(a->mail);
    return refusal;
}

int raid6_agree(struct raid6 *a) { return call(a, AGREE); }

int raid6_next_reply(struct raid6 *a, struct raid6_reply *r)
{
    int refusal = call(a, REPLY);
    if (!refusal)
        *r = reply_of(a->mail);
    return refusal;
}

int raid6_fail(struct raid6 *a, unsigned slot)
{
    a->mail->slot_asked = slot;
    return registered(call(a, FAIL));
}

int raid6_lose(struct raid6 *a, unsigned slot, uint32_t generation, int *kept)
{
    a->mail->slot_asked = slot;
    a->mail->task = generation;
    int refusal = registered(call(a, LOSE));
    if (!refusal && kept)
        *kept = (int)a->mail->number;
    return refusal;
}

/* a slot gets a new device */
static int bring(struct raid6 *a, uint32_t verb, unsigned slot, uint32_t *generation)
{
    a->mail->slot_asked = slot;
    int refusal = registered(call(a, verb));
    if (!refusal)
        *generation = (uint32_t)a->mail->number;
    return refusal;
}

int raid6_attach(struct raid6 *a, unsigned slot, uint32_t *generation) { return bring(a, ATTACH, slot, generation); }

int raid6_replace(struct raid6 *a, unsigned slot, uint32_t *generation) { return bring(a, REPLACE, slot, generation); }

uint64_t raid6_at_work(struct raid6 *a, unsigned slot)
{
    a->mail->slot_asked = slot;
    return number(a, AT_WORK);
}

int raid6_turn(struct raid6 *a, unsigned shard, int task)
{
    a->mail->shard_asked = shard;
    a->mail->task = (uint32_t)task;
    return call(a, TURN);
}

int raid6_progress(struct raid6 *a, unsigned shard, int task, unsigned slot, uint64_t *row, uint64_t *first, uint64_t *end)
{
    a->mail->shard_asked = shard;
    a->mail->slot_asked = slot;
    a->mail->task = (uint32_t)task;
    int refusal = call(a, ROWS);
    if (refusal)
        return refusal;
    *first = a->mail->slot;
    *end = a->mail->number;
    refusal = call(a, NEXT_ROW);
    if (!refusal)
        *row = a->mail->number;
    return refusal;
}

int raid6_slot(struct raid6 *a, unsigned slot, int *failed)
{
    a->mail->slot_asked = slot;
    if (call(a, SLOT))
        return -1;
    if (failed)
        *failed = (int)a->mail->number;
    return (int)a->mail->kind;
}

uint64_t raid6_count(struct raid6 *a, unsigned shard, int which)
{
    a->mail->shard_asked = shard;
    a->mail->task = (uint32_t)which;
    return number(a, COUNT);
}

/* ---- a thread for each shard */

int raid6_shard_of(const struct raid6_shape *shape, uint64_t block)
{
    uint64_t shard;
    return r6_shard_of(shape, block, &shard) ? -1 : (int)shard;
}

int raid6_register_new(const struct raid6_shape *shape, struct raid6_register **reg)
{
    *reg = NULL;
    struct raid6_register *r = malloc(sizeof *r);
    if (!r)
        return 8;
    r->mail = NULL;
    int refusal = (int)r6_register_make(shape, &r->mail);
    if (refusal) {
        free(r);
        return refusal;
    }
    r->block = shape->block;
    *reg = r;
    return 0;
}

void raid6_register_free(struct raid6_register *r)
{
    if (!r)
        return;
    free(r->mail); /* a register has no other memory */
    free(r);
}

static int register_call(struct raid6_register *r, uint32_t verb, unsigned slot)
{
    r->mail->slot_asked = slot;
    r->mail->verb = verb;
    return registered((int)r6_register_call(r->mail));
}

int raid6_register_fail(struct raid6_register *r, unsigned slot) { return register_call(r, FAIL, slot); }

int raid6_register_lose(struct raid6_register *r, unsigned slot, uint32_t generation, int *kept)
{
    r->mail->task = generation;
    int refusal = register_call(r, LOSE, slot);
    if (!refusal && kept)
        *kept = (int)r->mail->number;
    return refusal;
}

static int register_bring(struct raid6_register *r, uint32_t verb, unsigned slot, uint32_t *generation)
{
    int refusal = register_call(r, verb, slot);
    if (!refusal)
        *generation = (uint32_t)r->mail->number;
    return refusal;
}

int raid6_register_attach(struct raid6_register *r, unsigned slot, uint32_t *generation)
{
    return register_bring(r, ATTACH, slot, generation);
}

int raid6_register_replace(struct raid6_register *r, unsigned slot, uint32_t *generation)
{
    return register_bring(r, REPLACE, slot, generation);
}

int raid6_register_slot(struct raid6_register *r, unsigned slot, int *failed)
{
    if (register_call(r, SLOT, slot))
        return -1;
    if (failed)
        *failed = (int)r->mail->number;
    return (int)r->mail->kind;
}

static int shard_call(struct raid6_shard *s, uint32_t verb)
{
    s->mail->verb = verb;
    return (int)r6_shard_call(s->mail);
}

static uint64_t shard_number(struct raid6_shard *s, uint32_t verb) { return shard_call(s, verb) ? 0 : s->mail->number; }

static int meet(struct raid6_shard *s, struct raid6_register *r, uint32_t verb)
{
    s->mail->verb = verb;
    return (int)r6_shard_meet(s->mail, r->mail);
}

int raid6_shard_new(struct raid6_register *r, unsigned shard, struct raid6_shard **out)
{
    *out = NULL;
    struct raid6_shard *s = malloc(sizeof *s);
    if (!s)
        return 8;
    s->mail = NULL;
    s->block = r->block;
    int refusal = (int)r6_shard_make(&s->mail);
    if (!refusal) {
        s->mail->shard_asked = shard;
        refusal = meet(s, r, OPEN);
    }
    if (refusal) {
        free(s->mail); /* a shard that isn't open has no other memory */
        free(s);
        return refusal;
    }
    shard_call(s, ROOM); /* which tells where the stage is */
    *out = s;
    return 0;
}

void raid6_shard_free(struct raid6_shard *s)
{
    if (!s)
        return;
    shard_call(s, CLOSE); /* lets go of all but the block of the shard itself */
    free(s->mail);
    free(s);
}

void raid6_shard_command_free(struct raid6_shard *s, struct raid6_command *command)
{
    if (!command)
        return;
    s->mail->verb = CLOSE;
    r6_shard_order(s->mail, command);
    free(command);
}

int raid6_shard_submit(struct raid6_shard *s, uint64_t block, const void *data, uint64_t user_data)
{
    ask_request(s->mail, s->block, block, data, user_data);
    return shard_call(s, SUBMIT);
}

int raid6_shard_submit_run(struct raid6_shard *s, const struct raid6_request *run, uint64_t count, uint64_t *taken)
{
    return submit_run(s->mail, r6_shard_call, s->block, run, count, taken);
}

uint64_t raid6_shard_room(struct raid6_shard *s) { return shard_number(s, ROOM); }

int raid6_shard_next_command(struct raid6_shard *s, struct raid6_command *command)
{
    s->mail->verb = COMMAND;
    return (int)r6_shard_order(s->mail, command);
}

int raid6_shard_deliver(struct raid6_shard *s, struct raid6_command *command)
{
    s->mail->verb = DELIVER;
    return (int)r6_shard_order(s->mail, command);
}

int raid6_shard_next_change(struct raid6_shard *s, struct raid6_change *c)
{
    int refusal = shard_call(s, CHANGE);
    if (!refusal)
        *c = change_of(s->mail);
    return refusal;
}

int raid6_shard_agree(struct raid6_shard *s, struct raid6_register *r) { return meet(s, r, AGREE); }

int raid6_shard_look(struct raid6_shard *s, struct raid6_register *r) { return meet(s, r, LOOK); }

int raid6_shard_next_reply(struct raid6_shard *s, struct raid6_reply *r)
{
    int refusal = shard_call(s, REPLY);
    if (!refusal)
        *r = reply_of(s->mail);
    return refusal;
}

uint64_t raid6_shard_at_work(struct raid6_shard *s, unsigned slot)
{
    s->mail->slot_asked = slot;
    return shard_number(s, AT_WORK);
}

int raid6_shard_turn(struct raid6_shard *s, int task)
{
    s->mail->task = (uint32_t)task;
    return shard_call(s, TURN);
}

int raid6_shard_progress(struct raid6_shard *s, int task, unsigned slot, uint64_t *row, uint64_t *first, uint64_t *end)
{
    s->mail->slot_asked = slot;
    s->mail->task = (uint32_t)task;
    int refusal = shard_call(s, ROWS);
    if (refusal)
        return refusal;
    *first = s->mail->slot;
    *end = s->mail->number;
    refusal = shard_call(s, NEXT_ROW);
    if (!refusal)
        *row = s->mail->number;
    return refusal;
}

uint64_t raid6_shard_count(struct raid6_shard *s, int which)
{
    s->mail->task = (uint32_t)which;
    return shard_number(s, COUNT);
}
