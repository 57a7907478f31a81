/* What waits at a member, and is at work there. Commands of one row are performed in the order in which they came, each by
 * itself: so a read and a write of one block are each one step, also in the page cache. Commands of rows that follow one
 * another, and that wait together, are one call. Calls have buffers of their own: a command is answered from the buffer or
 * without it, and whoever performs a call never touches the command's block.
 *
 * A block that can't be read is no reason to do without the member: the read is tried again, and then the array writes the
 * block anew and reads it. A member that can't write, or that ends before the row, is broken: it is asked nothing more.
 */
#include "plugin.h"

#include <errno.h>
#include <stdio.h>
#include <stdlib.h>
#include <string.h>

static struct works later;      /* commands to be tried again, the first first */
static struct item *spare;      /* calls */
static unsigned let_go, let_go_of[MOST_SLOTS]; /* files whose last calls haven't come back: all, and of each slot */

/* ---- queues and rows */

static void enqueue(struct works *queue, struct work *w, bool is_first)
{
    w->queue = queue;
    w->before = is_first ? NULL : queue->last;
    w->after = is_first ? queue->first : NULL;
    *(w->before ? &w->before->after : &queue->first) = w;
    *(w->after ? &w->after->before : &queue->last) = w;
}

static void dequeue(struct work *w)
{
    if (!w->queue)
        return;
    *(w->before ? &w->before->after : &w->queue->first) = w->after;
    *(w->after ? &w->after->before : &w->queue->last) = w->before;
    w->queue = NULL;
}

/* Where the first command of a row stands, or would. */
static struct work **place_of(struct member *m, uint64_t row)
{
    struct work **at = &m->rows[row % ROW_LISTS];
    while (*at && (*at)->command->row != row)
        at = &(*at)->next_of_list;
    return at;
}

void member_give(struct member *m, struct work *w)
{
    struct work **at = place_of(m, w->command->row), *first = *at;
    *w = (struct work){.command = w->command, .member = m};
    m->commands++;
    if (!first) {
        *at = w;
        enqueue(&m->ready, w, false);
        return;
    }
    *(first->follower ? &first->last->follower : &first->follower) = w;
    first->last = w;
}

/* The first of its row is answered; the next one may begin. */
static void finish(struct work *w, enum raid6_fault fault)
{
    struct member *m = w->member;
    struct work **at = place_of(m, w->command->row), *next = w->follower;
    *at = next ? next : w->next_of_list;
    if (next) {
        next->last = w->last;
        next->next_of_list = w->next_of_list;
        enqueue(&m->ready, next, false);
    }
    dequeue(w);
    m->commands--;
    deliver(w, fault);
}

bool is_unread(const struct member *m, uint64_t row)
{
    return m->unread[row / 8] >> row % 8 & 1;
}

static void set_unread(struct member *m, uint64_t row, bool is)
{
    uint8_t bit = (uint8_t)(1u << row % 8);
    m->unread[row / 8] = is ? m->unread[row / 8] | bit : m->unread[row / 8] & (uint8_t)~bit;
}

/* ---- calls */

static struct call *make_call(void)
{
    struct call *c = (struct call *)spare;
    if (c) {
        spare = c->item.next;
        return c;
    }
    c = calloc(1, sizeof *c);
    if (c)
        c->buffer = aligned_alloc(BLOCK, (size_t)MOST_MERGED * BLOCK);
    if (!c || !c->buffer) {
        tell("no memory for a call: the server ends");
        abort();
    }
    c->item.kind = CALL;
    return c;
}

static void free_call(struct call *c)
{
    c->item.next = spare;
    spare = &c->item;
}

void members_free(void)
{
    for (struct call *c; (c = (struct call *)spare);) {
        spare = c->item.next;
        free(c->buffer);
        free(c);
    }
}

static void put(struct member *m, struct call *c)
{
    c->member = m;
    c->begun = clock_now();
    c->older = m->newest;
    c->newer = NULL;
    *(m->newest ? &m->newest->newer : &m->oldest) = c;
    m->newest = c;
    m->calls++;
    store_put(m->store, c);
}

static void take_off(struct member *m, struct call *c)
{
    *(c->older ? &c->older->newer : &m->oldest) = c->newer;
    *(c->newer ? &c->newer->older : &m->newest) = c->older;
    m->calls--;
}

/* What waits of a row, if it may be part of a call. A block that is written anew is by itself. */
static struct work *mergeable(struct member *m, uint64_t row, uint32_t is_write)
{
    struct work *w = *place_of(m, row);
    return w && w->queue == &m->ready && !w->is_alone && w->command->is_write == is_write && !is_unread(m, row) ? w : NULL;
}

/* The rows before and after that of a command, as many as wait and are to be done alike. */
static void gather(struct member *m, struct call *c, struct work *w)
{
    uint32_t is_write = w->command->is_write;
    c->row = w->command->row;
    dequeue(w);
    list_add(&c->works, &w->item);
    for (c->count = 1; c->count < MOST_MERGED && (w = mergeable(m, c->row + c->count, is_write)); c->count++) {
        dequeue(w);
        list_add(&c->works, &w->item);
    }
    for (; c->count < MOST_MERGED && c->row && (w = mergeable(m, c->row - 1, is_write)); c->count++, c->row--) {
        dequeue(w);
        list_add_first(&c->works, &w->item);
    }
}

static void begin(struct member *m, struct work *w)
{
    struct call *c = make_call();
    c->act = w->command->is_write ? WRITE_ROWS : READ_ROWS;
    c->part = NULL;
    c->works.first = NULL;
    if (mergeable(m, w->command->row, w->command->is_write)) {
        gather(m, c, w);
    } else {
        c->row = w->command->row;
        c->count = 1;
        dequeue(w);
        list_add(&c->works, &w->item);
    }
    uint8_t *at = c->buffer;
    for (struct item *item = c->works.first; item && c->act == WRITE_ROWS; item = item->next, at += BLOCK)
        memcpy(at, ((struct work *)item)->command->block, BLOCK);
    put(m, c);
}

void member_begin(struct member *m)
{
    while (m->ready.first && m->calls < depth)
        begin(m, m->ready.first);
}

void member_sync(struct member *m, struct part *part)
{
    part->member = m;
    if (m->is_broken) {
        part->end(part, true);
        return;
    }
    struct call *c = make_call();
    c->act = SYNC_FILE;
    c->part = part;
    c->works.first = NULL;
    put(m, c);
}

/* ---- errors */

static void try_later(struct work *w)
{
    w->due = now + PAUSE;
    enqueue(&later, w, false);
}

bool members_retry(void)
{
    bool is_any = false;
    for (struct work *w; (w = later.first) && w->due <= now; is_any = true) {
        dequeue(w);
        enqueue(&w->member->ready, w, true);
    }
    return is_any;
}

/* When the oldest of its calls has been at work for so long. */
static uint64_t due_of(const struct member *m, uint64_t time)
{
    uint64_t since = m->oldest && m->oldest->begun > m->excused ? m->oldest->begun : m->excused;
    return m->oldest && timeout ? since + time : UINT64_MAX;
}

bool member_is_silent(const struct member *m, uint64_t time)
{
    return due_of(m, time) <= heard;
}

uint64_t members_due(void)
{
    uint64_t due = due_of(second, timeout * 1000);
    if (later.first && later.first->due < due)
        due = later.first->due;
    for (unsigned s = 0; s < shape.slots; s++) {
        uint64_t its = due_of(members[s], timeout * 1000);
        due = its < due ? its : due;
    }
    return due;
}

/* Whether the member has told as many read errors within a minute as it may. */
static bool has_many_errors(struct member *m)
{
    if (now - m->minute >= MINUTE) {
        m->minute = now;
        m->errors = 0;
    }
    return ++m->errors >= most_errors && most_errors;
}

static void tell_read_fault(struct work *w)
{
    struct member *m = w->member;
    set_unread(m, w->command->row, true);
    if (has_many_errors(m) && !is_third(m, NO_ROW))
        lose_member(m, "it has too many read errors");
    else
        finish(w, RAID6_READ_FAULT);
}

/* Each error that the array is told has a line; of those that are tried again one in a minute has. */
static void tell_error(const struct work *w, int why, bool is_again)
{
    struct member *m = w->member;
    if (is_again && m->told && now - m->told < MINUTE)
        return;
    if (is_again)
        m->told = now;
    tell("slot %u: %s: a %s of row %llu: %s%s", m->slot, m->path, w->command->is_write ? "write" : "read",
         (unsigned long long)w->command->row, why == FILE_ENDS ? "the file ends before it" : strerror(why),
         is_again ? ": it is tried again, and so are others without a line, for a minute" : "");
}

/* A read is tried again a few times. An error by which a third slot would be out is no answer before the time limit. */
static void fail(struct work *w, int why)
{
    struct member *m = w->member;
    bool is_read = why != FILE_ENDS && !w->command->is_write;
    if (!w->tries++)
        w->since = now;
    bool is_held = is_third(m, is_read ? w->command->row : NO_ROW) && (!timeout || now - w->since < timeout * 1000);
    bool is_again = is_held || (is_read && w->tries <= retries);
    tell_error(w, why, is_again);
    if (is_again) {
        try_later(w);
    } else if (is_read) {
        tell_read_fault(w);
    } else {
        finish(w, why == FILE_ENDS ? RAID6_LENGTH : RAID6_WRITE_FAULT);
        member_take_back(m);
    }
}

/* ---- what came back */

/* A block that couldn't be read was written. It is to be on the member, and its next read is to come from there and not from
 * the page cache: so it is synced, and then dropped from the page cache. */
static bool renew(struct member *m, struct call *c)
{
    if (c->act == FORGET_ROWS) {
        set_unread(m, c->row, false);
        tell("slot %u: %s: row %llu was written anew", m->slot, m->path, (unsigned long long)c->row);
        return false;
    }
    c->act = c->act == SYNC_FILE ? FORGET_ROWS : SYNC_FILE;
    put(m, c);
    return true;
}

static void end_whole(struct member *m, struct call *c)
{
    const uint8_t *at = c->buffer;
    for (struct work *w; (w = (struct work *)list_take(&c->works)); at += BLOCK) {
        if (c->act == READ_ROWS) {
            memcpy(w->command->block, at, BLOCK);
            if (is_unread(m, w->command->row))
                set_unread(m, w->command->row, false);
        }
        finish(w, RAID6_OK);
    }
}

/* Of several rows nobody knows which one failed: each is done by itself. */
static void end_failed(struct member *m, struct call *c)
{
    bool is_one = c->count == 1;
    for (struct work *w; (w = (struct work *)list_take(&c->works));) {
        w->is_alone = true;
        if (is_one)
            fail(w, c->error);
        else
            enqueue(&m->ready, w, false);
    }
}

static void end_call(struct member *m, struct call *c)
{
    if (c->part) {
        struct part *part = c->part;
        c->part = NULL;
        part->end(part, c->error);
    } else if (c->error && c->act != FORGET_ROWS) {
        end_failed(m, c);
    } else if (c->act != READ_ROWS && is_unread(m, c->row) && renew(m, c)) {
        return;
    } else {
        end_whole(m, c);
    }
    free_call(c);
}

unsigned member_calls_left(unsigned slot)
{
    return let_go_of[slot];
}

static void close_let_go(struct store *s)
{
    let_go_of[s->slot]--;
    tell("slot %u: the last call on a file that was let go has returned: it is closed; members with such calls: %u", s->slot,
         --let_go);
    store_end(s);
}

/* While a member waits for the call, its file isn't let go. */
void member_receive(struct call *c)
{
    struct store *s = c->store;
    struct member *m = c->member;
    s->at_work--;
    if (m) {
        take_off(m, c);
        end_call(m, c);
        return;
    }
    free_call(c);
    if (s->is_let_go && !s->at_work)
        close_let_go(s);
}

/* ---- the end of a member */

/* Whoever performs its calls may never come back: they keep their buffers, and nobody waits for them. */
void member_take_back(struct member *m)
{
    struct call *calls = m->oldest;
    m->is_broken = true;
    m->oldest = m->newest = NULL;
    m->calls = 0;
    for (struct call *c = calls; c; c = c->newer) {
        c->member = NULL;
        c->works.first = NULL;
    }
    for (unsigned i = 0; i < ROW_LISTS && m->commands; i++)
        while (m->rows[i])
            finish(m->rows[i], RAID6_GONE);
    for (struct call *c = calls; c; c = c->newer) {
        struct part *part = c->part;
        c->part = NULL;
        if (part)
            part->end(part, true);
    }
}

void member_let_go(struct member *m)
{
    member_take_back(m);
    struct store *s = m->store;
    m->store = NULL;
    if (s && s->at_work) {
        s->is_let_go = true;
        let_go_of[s->slot]++;
        tell("slot %u: %s is let go: %u calls have not returned; members with such calls: %u", m->slot, m->path, s->at_work,
             ++let_go);
    } else if (s) {
        store_end(s);
    }
}

bool member_make(struct member *m)
{
    m->unread = calloc(shape.rows / 8 + 1, 1);
    return m->unread != NULL;
}

const char *member_open(struct member *m, bool may_grow)
{
    const char *why = store_open(&m->store, m->slot, m->path, may_grow);
    m->is_broken = why != NULL;
    return why;
}

/* It gets another file, which is open. */
const char *member_exchange(struct member *m, const char *path, struct store *store)
{
    member_let_go(m);
    snprintf(m->path, sizeof m->path, "%s", path);
    memset(m->unread, 0, shape.rows / 8 + 1);
    m->errors = 0;
    if (!store_start(store)) {
        store_end(store);
        return "its thread can't be started";
    }
    m->store = store;
    m->is_broken = false;
    return NULL;
}
