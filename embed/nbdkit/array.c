/* The array, and the thread that works on it. Requests, orders and calls that came back are handed in by others, and it goes
 * round until nothing is left to do. Then it waits, by the kernel's ring if there is one.
 */
#include "plugin.h"

#include <errno.h>
#include <stdlib.h>
#include <string.h>
#include <time.h>

enum { MOST_TOGETHER = 256, MOST_IN_CACHE = 64 };

struct raid6 *array;
uint64_t now, heard;
static struct item *spare;                 /* commands that hold nothing */
static struct list requests;               /* not wholly handed in */
static unsigned delivered;                 /* commands, since replies were last taken */
bool is_ending;
static enum { RUNS, STOPS, STOPPED } stage;
static struct part last_syncs[MOST_SLOTS];
static unsigned syncs_left;
bool has_ring;
static sem_t started, stopped;

static struct {
    pthread_mutex_t lock; /* of what follows */
    pthread_cond_t filled;
    struct list items;
    bool is_asleep;       /* the array's thread waits until it is woken */
} inbox = {.lock = PTHREAD_MUTEX_INITIALIZER};

/* ---- requests */

/* The thread that waits for a request lets go of it once it is done. */
static void settle(struct request *r)
{
    if (r->answered == r->count)
        sem_post(&r->done);
}

/* How many blocks are handed in together: up to the end of their chunk row, so that rows which are written whole are written
 * with no read. */
static uint64_t together(const struct request *r)
{
    uint64_t row = (shape.slots - 2) * shape.chunk, left = row - (r->block + r->submitted) % row;
    left = left < r->count - r->submitted ? left : r->count - r->submitted;
    return left < MOST_TOGETHER ? left : MOST_TOGETHER;
}

/* Whether their shard had room for them. Once one is refused so are all that come after it. */
static bool hand_in(struct request *r)
{
    static struct raid6_request run[MOST_TOGETHER];
    uint64_t count = together(r), taken;
    if (raid6_room(array, r->block + r->submitted) < count)
        return false;
    for (uint64_t i = 0; i < count; i++) {
        uint64_t place = r->submitted + i;
        run[i] = (struct raid6_request){.block = r->block + place, .user_data = (uintptr_t)&r->parts[place],
                                        .data = r->act == WRITE ? r->data + place * BLOCK : NULL};
    }
    int refusal = raid6_submit_run(array, run, count, &taken);
    r->submitted += taken;
    if (refusal) {
        r->error = raid6_errno(refusal);
        r->answered += r->count - r->submitted;
        r->submitted = r->count;
    }
    return true;
}

static bool submit(void)
{
    uint64_t count = 0, before;
    for (struct request *r; (r = (struct request *)requests.first); settle(r)) {
        for (; r->submitted < r->count; count += r->submitted - before) {
            before = r->submitted;
            if (count >= MOST_IN_CACHE || !hand_in(r))
                return count;
        }
        list_take(&requests);
    }
    return count;
}

bool answer_requests(void)
{
    struct raid6_reply reply;
    bool is_any = false;
    delivered = 0;
    for (; !raid6_next_reply(array, &reply); is_any = true) {
        struct part *part = (struct part *)(uintptr_t)reply.user_data;
        struct request *r = part->request;
        if (reply.kind == RAID6_DATA)
            memcpy(r->data + (size_t)(part - r->parts) * BLOCK, reply.block, BLOCK);
        else if (reply.kind == RAID6_FAILED)
            r->error = EIO;
        r->answered++;
        settle(r);
    }
    return is_any;
}

static void settle_flush(struct request *r)
{
    r->answered++;
    r->error = has_failed() ? EIO : 0;
    settle(r);
}

/* A member that can't sync may have lost what it took. */
static void end_flush(struct part *part, bool has_failed)
{
    if (has_failed && is_live(part->member))
        lose_member(part->member, "its sync failed");
    settle_flush(part->request);
}

/* Every member that is in sync, or that a rebuild writes, has blocks of requests that were answered. */
static void flush(struct request *r)
{
    r->count++; /* until all have begun */
    for (unsigned s = 0; s <= shape.slots; s++) {
        struct part *part = &r->parts[s];
        part->end = end_flush;
        if (s < shape.slots ? raid6_slot(array, s, NULL) != RAID6_LOST : is_replacing)
            member_sync(s < shape.slots ? members[s] : second, part);
        else
            settle_flush(r);
    }
    settle_flush(r);
}

/* ---- commands */

void deliver(struct work *w, enum raid6_fault fault)
{
    w->command->fault = fault;
    raid6_deliver(array, w->command);
    delivered++;
    w->item.next = spare;
    spare = &w->item;
}

/* There are as many as the array has out, at most 64 * (slots + 2) of each shard: so no member's commands wait for
 * another's. Without memory what is out has to come back first. */
static struct work *take_spare(void)
{
    struct work *w = (struct work *)spare;
    if (w) {
        spare = w->item.next;
        return w;
    }
    w = calloc(1, sizeof *w);
    if (w && raid6_command_new(&shape, &w->command)) {
        free(w);
        return NULL;
    }
    return w;
}

static bool hand_out(void)
{
    bool is_any = false;
    for (struct work *w; (w = take_spare()); is_any = true) {
        if (raid6_next_command(array, w->command)) {
            w->item.next = spare;
            spare = &w->item;
            break;
        }
        struct member *m = member_of(w->command->slot, w->command->generation);
        if (m && !m->is_broken)
            member_give(m, w);
        else
            deliver(w, RAID6_GONE);
    }
    for (unsigned s = 0; s <= shape.slots; s++)
        member_begin(s < shape.slots ? members[s] : second);
    return is_any;
}

/* ---- rounds */

static void end_last_sync(struct part *part, bool has_failed)
{
    struct member *m = part->member;
    if (has_failed && members[m->slot] == m && !m->is_lost) {
        tell("slot %u: %s: its last sync failed", m->slot, m->path);
        if (!is_third(m, NO_ROW))
            write_down(m, true);
    }
    if (!--syncs_left)
        stage = STOPPED;
}

/* Once nothing is under way all members are synced, and then nothing is done any more. */
static void go_on_stopping(void)
{
    bool is_busy = requests.first || second->commands || second->oldest;
    for (unsigned s = 0; s < shape.slots; s++)
        is_busy |= members[s]->commands || members[s]->oldest;
    is_ending = !is_busy;
    syncs_left = (unsigned)shape.slots;
    for (unsigned s = 0; s < shape.slots && is_ending; s++) {
        last_syncs[s].end = end_last_sync;
        member_sync(members[s], &last_syncs[s]);
    }
}

static void receive(struct item *item)
{
    if (item->kind == CALL)
        member_receive((struct call *)item);
    else if (item->kind == ORDER)
        order_add((struct order *)item);
    else if (item->kind == OPENED)
        order_opened(item);
    else if (item->kind == STOP)
        stage = STOPS;
    else if (((struct request *)item)->act == FLUSH)
        flush((struct request *)item);
    else
        list_add(&requests, item);
}

uint64_t clock_now(void)
{
    struct timespec t;
    clock_gettime(CLOCK_MONOTONIC_COARSE, &t);
    return (uint64_t)t.tv_sec * 1000 + (uint64_t)t.tv_nsec / 1000000;
}

/* Calls that came back are delivered in the order in which they did. */
static bool receive_all(struct item *item)
{
    bool is_any = item != NULL; /* a shard may see at the round's end, with the replies, what came in: then there is more */
    for (struct item *next; item; item = next) {
        next = item->next;
        receive(item);
        if (delivered >= MOST_IN_CACHE)
            answer_requests();
    }
    return is_any;
}

/* Once the server stops no rebuild or check goes on. */
static bool play_round(void)
{
    lose_silent();
    close_gone();
    bool is_any = members_retry();
    is_any |= obey_all();
    is_any |= submit();
    is_any |= stage == RUNS && turn();
    is_any |= hand_out();
    is_any |= make_changes();
    is_any |= answer_requests();
    if (stage != RUNS && !is_any && !is_ending)
        go_on_stopping();
    return is_any;
}

/* ---- the thread */

/* What other threads bring. */
void array_hand(struct item *item)
{
    pthread_mutex_lock(&inbox.lock);
    list_add(&inbox.items, item);
    bool wakes = inbox.is_asleep;
    inbox.is_asleep = false;
    pthread_mutex_unlock(&inbox.lock);
    if (wakes && has_ring)
        ring_wake();
    else if (wakes)
        pthread_cond_signal(&inbox.filled);
}

/* Under the lock. */
static void sleep_until(uint64_t due)
{
    uint64_t later = due + 5; /* the coarse clock has passed it then */
    struct timespec at = {(time_t)(later / 1000), (long)(later % 1000 * 1000000)};
    while (inbox.is_asleep && clock_now() < due)
        if (due == UINT64_MAX)
            pthread_cond_wait(&inbox.filled, &inbox.lock);
        else
            pthread_cond_timedwait(&inbox.filled, &inbox.lock, &at);
}

static struct item *take_inbox(void)
{
    pthread_mutex_lock(&inbox.lock);
    struct item *items = inbox.items.first;
    inbox.items.first = NULL;
    inbox.is_asleep = false;
    pthread_mutex_unlock(&inbox.lock);
    return items;
}

/* Lets what the members have begin, and waits until something comes in, if there is nothing else to do. */
static struct item *take_ended(bool is_any)
{
    uint64_t due = is_any ? 0 : members_due();
    due = due < orders_due() ? due : orders_due();
    pthread_mutex_lock(&inbox.lock);
    bool waits = inbox.is_asleep = !is_any && !inbox.items.first;
    if (waits && !has_ring)
        sleep_until(due);
    pthread_mutex_unlock(&inbox.lock);
    struct item *ended = has_ring ? ring_turn(waits, due) : NULL;
    now = clock_now();
    heard = has_ring ? heard : now;
    return ended;
}

static void *serve(void *unused)
{
    bool is_any = true;
    has_ring = io != IO_THREADS && ring_make();
    sem_post(&started);
    while (stage != STOPPED) {
        struct item *ended = take_ended(is_any);
        is_any = receive_all(ended);
        is_any |= receive_all(take_inbox());
        is_any |= play_round();
    }
    if (has_ring)
        ring_end();
    sem_post(&stopped);
    return unused;
}

/* ---- beginning and end */

const char *array_make(void)
{
    static const char *const refusals[] = {
        "", "slots: 4 to 32", "chunk: 1 to 128", "block", "the members have too few blocks or too many",
        "shards: 1 to 16, and no more than chunks of a member", "window: 1 to 8", "three slots are lost: the array has failed",
        "no memory"};
    for (unsigned s = 0; s < shape.slots; s++)
        shape.lost |= (uint32_t)members[s]->is_lost << s;
    int refusal = raid6_new(&shape, &array);
    for (unsigned s = 0; s <= shape.slots && !refusal; s++)
        refusal = member_make(s < shape.slots ? members[s] : second) ? 0 : 8;
    return refusal ? refusals[refusal] : NULL;
}

const char *array_start(void)
{
    pthread_condattr_t monotonic;
    pthread_t thread;
    pthread_condattr_init(&monotonic);
    pthread_condattr_setclock(&monotonic, CLOCK_MONOTONIC);
    pthread_cond_init(&inbox.filled, &monotonic);
    pthread_condattr_destroy(&monotonic);
    sem_init(&started, 0, 0);
    sem_init(&stopped, 0, 0);
    if (pthread_create(&thread, NULL, serve, NULL))
        return "a thread can't be started";
    pthread_detach(thread); /* with calls at work that hang it doesn't end */
    while (sem_wait(&started))
        continue;
    for (unsigned s = 0; s < shape.slots; s++)
        if (members[s]->store && !store_start(members[s]->store))
            return "a member's thread can't be started";
    return io == IO_RING && !has_ring ? "liburing or the kernel has no ring" : NULL;
}

/* A member that hangs is lost at its time limit, and then isn't waited for. */
void array_stop(void)
{
    struct item stop = {.kind = STOP};
    array_hand(&stop);
    while (sem_wait(&stopped))
        continue;
    for (unsigned s = 0; s <= shape.slots; s++) {
        struct member *m = s < shape.slots ? members[s] : second;
        member_let_go(m);
        free(m->unread);
    }
    members_free();
    for (struct work *w; (w = (struct work *)spare);) {
        spare = w->item.next;
        raid6_command_free(array, w->command);
        free(w);
    }
    raid6_free(array);
    state_unlock();
}
