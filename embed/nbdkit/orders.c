/* The orders, and what they begin: rebuilds, checks, repairs. None waits for what hangs. */
#include "plugin.h"

#include <stdio.h>
#include <stdlib.h>
#include <string.h>
#include <errno.h>

enum { CLASSES = RAID6_REBUILT, MOST_TURNS = 1024, ROW = 1000 * BLOCK / 1024 };

/* A file that an order names. It is opened by a thread of its own, since that may hang. */
struct opening {
    struct item item;
    struct order *order; /* NULL: it doesn't wait any more */
    bool is_over;
    unsigned slot;
    uint64_t since;
    struct store *store; /* NULL: `why` not */
    const char *why;
    char path[MOST_PATH];
};

static const char waits[] = "it waits"; /* an order that isn't done with */
static struct list orders;
static struct {
    const char *name; /* NULL: none is under way */
    int task;
    uint64_t left[MOST_SHARDS], end[MOST_SHARDS], before[CLASSES];
} scrub;

static struct {
    uint64_t room, since, due; /* `room` in thousandths of a KiB, as it was then; `due`: when it suffices for a row again */
} pace = {.due = UINT64_MAX};

/* ---- rebuilds, checks, repairs */

/* Begins the next row of a task in a shard, as far as the speed lets it: a row is a block of each member. */
static int begin_row(unsigned shard, int task)
{
    uint64_t most = speed * 100 + ROW, room = pace.room + (now - pace.since) * speed;
    pace.room = room < most ? room : most;
    pace.since = now;
    if (speed && pace.room < ROW) {
        pace.due = now + (ROW - pace.room) / speed + 1;
        return RAID6_NO_FRAME;
    }
    int refusal = raid6_turn(array, shard, task);
    pace.room -= speed && !refusal ? ROW : 0;
    return refusal;
}

static uint64_t rows_of(int class)
{
    uint64_t rows = 0;
    for (unsigned h = 0; h < shape.shards; h++)
        rows += raid6_count(array, h, class);
    return rows;
}

static uint64_t rows_judged(unsigned shard)
{
    uint64_t rows = 0;
    for (int class = RAID6_CONSISTENT; class <= RAID6_SKIPPED; class++)
        rows += raid6_count(array, shard, class);
    return rows;
}

static const char *begin_scrub(int task)
{
    uint64_t row, first, end;
    if (scrub.name)
        return "a check or a repair is under way";
    for (unsigned h = 0; h < shape.shards; h++) {
        raid6_progress(array, h, task, 0, &row, &first, &end);
        scrub.left[h] = end - first;
        scrub.end[h] = rows_judged(h) + scrub.left[h];
    }
    for (int class = 0; class < CLASSES; class++)
        scrub.before[class] = rows_of(class);
    scrub.name = task == RAID6_CHECK ? "check" : "repair";
    scrub.task = task;
    return NULL;
}

static void end_scrub(void)
{
    static const char *const names[CLASSES] = {"consistent", "wrong_p", "wrong_q", "wrong_data", "many", "skipped", "repaired"};
    char line[300] = "";
    for (int class = 0; class < CLASSES; class++)
        snprintf(strchr(line, 0), 40, " %s %llu", names[class], (unsigned long long)(rows_of(class) - scrub.before[class]));
    tell("%s ended:%s", scrub.name, line);
    scrub.name = NULL;
}

/* No more rows of a shard are under way than of a rebuild, so that requests find room, and no more are passed over in a
 * round than take a moment. */
static bool turn_scrub(void)
{
    bool is_any = false, is_over = true;
    for (unsigned h = 0; h < shape.shards; h++) {
        for (unsigned turns = 0; turns < MOST_TURNS && scrub.left[h]; turns++, is_any = true) {
            if (scrub.end[h] - scrub.left[h] >= rows_judged(h) + shape.window)
                break;
            int refusal = begin_row(h, scrub.task);
            if (refusal && refusal != RAID6_NONE)
                break;
            scrub.left[h]--;
        }
        is_over &= rows_judged(h) == scrub.end[h];
    }
    if (is_over || has_failed())
        end_scrub();
    return is_any;
}

bool turn(void)
{
    bool is_any = false, is_rebuilding = is_replacing;
    for (unsigned s = 0; s < shape.slots; s++)
        is_rebuilding |= members[s]->is_lost && members[s]->store;
    for (unsigned h = 0; h < shape.shards && is_rebuilding; h++)
        while (!begin_row(h, RAID6_REBUILD))
            is_any = true;
    return (scrub.name && turn_scrub()) | is_any;
}

/* ---- orders */

static void tell_slot(unsigned slot)
{
    static const char *const states[] = {"in sync", "lost", "rebuilding"};
    const struct member *m = members[slot];
    uint64_t row, first, end, left = 0;
    for (unsigned h = 0; h < shape.shards; h++)
        if (!raid6_progress(array, h, RAID6_REBUILD, slot, &row, &first, &end))
            left += end - row;
    int state = raid6_slot(array, slot, NULL);
    if (state == RAID6_IN_SYNC && m->is_lost) /* until its last rows are on disk, and that is written down */
        state = RAID6_REBUILDING;
    bool has_two = has_second(slot);
    tell("slot %u is %s, %llu rows to go, %s%s%s", slot, has_two ? "being replaced" : states[state], (unsigned long long)left,
         m->path, has_two ? " by " : "", has_two ? second->path : "");
}

static void tell_status(void)
{
    make_changes();
    answer_requests(); /* with the replies each shard looks, and sees the new members whose rows it has to build */
    tell("the array %s", has_failed() ? "has failed" : "works");
    for (unsigned s = 0; s < shape.slots; s++)
        tell_slot(s);
}

/* Whether the member of another slot, or the second, has this name: a start would take the one file for the other. */
static bool is_named(const char *path, unsigned slot)
{
    for (unsigned s = 0; s < shape.slots; s++)
        if (s != slot && !strcmp(path, members[s]->path))
            return true;
    return is_replacing && !strcmp(path, second->path);
}

static void *open_file(void *of)
{
    struct opening *o = of;
    o->why = store_open(&o->store, o->slot, o->path, true);
    array_hand(&o->item);
    return NULL;
}

static const char *begin_opening(struct order *order, unsigned slot, const char *path)
{
    pthread_t opener;
    struct opening *o = calloc(1, sizeof *o);
    if (!o)
        return strerror(ENOMEM);
    *o = (struct opening){.item.kind = OPENED, .order = order, .slot = slot, .since = now};
    snprintf(o->path, sizeof o->path, "%s", path);
    if (pthread_create(&opener, NULL, open_file, o)) {
        free(o);
        return "its thread can't be started";
    }
    pthread_detach(opener);
    order->opening = o;
    return waits;
}

/* Of an opening that nobody waits for the file is closed. */
void order_opened(struct item *item)
{
    struct opening *o = (struct opening *)item;
    o->is_over = true;
    if (o->order)
        return;
    if (o->store)
        store_end(o->store);
    free(o);
}

static void give_up_opening(struct order *order)
{
    struct opening *o = order->opening;
    order->opening = NULL;
    o->order = NULL;
    if (o->is_over)
        order_opened(&o->item);
}

static uint64_t due_of(const struct order *order)
{
    return order && order->opening && timeout ? order->opening->since + timeout * 1000 : UINT64_MAX;
}

uint64_t orders_due(void)
{
    uint64_t due = due_of((struct order *)orders.first);
    return due < pace.due ? due : pace.due;
}

/* The file for a member: open; or why not, or that the order waits for it. */
static const char *get_file(struct order *order, unsigned slot, const char *path, struct store **store)
{
    struct opening *o = order->opening;
    if (path[0] != '/')
        return "the path has to begin with /";
    if (strlen(path) >= MOST_PATH - 1)
        return "the path is too long";
    if (!o)
        return begin_opening(order, slot, path);
    if (!o->is_over && due_of(order) > now)
        return waits;
    if (!o->is_over)
        return "the file isn't open after the time limit";
    order->opening = NULL;
    const char *why = o->why;
    *store = o->store;
    free(o);
    return why;
}

/* The state file has the new member's name before the array writes to it. */
static const char *attach(struct order *order, unsigned slot, const char *path)
{
    struct store *store = NULL;
    struct member *m = members[slot];
    if (raid6_slot(array, slot, NULL) != RAID6_LOST)
        return "the slot is not lost";
    if (is_named(path, slot))
        return "another slot has a member of this name";
    const char *why = get_file(order, slot, path, &store);
    if (why || (why = member_exchange(m, path, store)))
        return why;
    if (!state_save())
        return strerror(errno);
    return raid6_attach(array, slot, &m->generation) ? "the array takes no more" : NULL;
}

/* The state file has nothing of the second member until it has the slot's place: a start is to begin on the slot's own. */
static const char *replace(struct order *order, unsigned slot, const char *path)
{
    struct store *store = NULL;
    if (raid6_slot(array, slot, NULL) != RAID6_IN_SYNC || members[slot]->is_lost || has_second(slot))
        return "the slot is not in sync, or is being replaced";
    if (is_replacing)
        return "another slot is being replaced";
    if (is_named(path, MOST_SLOTS))
        return "a slot has a member of this name";
    const char *why = get_file(order, slot, path, &store);
    if (why || (why = member_exchange(second, path, store)))
        return why;
    second->slot = slot;
    second->is_lost = true;
    reports = 0;
    is_replacing = !raid6_replace(array, slot, &second->generation);
    return is_replacing ? NULL : "the array takes no more";
}

/* The slot's own member, or of two the one with this file. */
static const char *break_member(unsigned slot, const char *path)
{
    struct member *m = members[slot];
    if (path[0] && strcmp(path, m->path))
        m = second;
    if (m == second && (!has_second(slot) || strcmp(path, m->path)))
        return "the slot has no such member";
    member_take_back(m);
    return NULL;
}

static const char *fail(unsigned slot, const char *how)
{
    unsigned out = 0;
    if (how[0] && strcmp(how, "force"))
        return "no such order";
    for (unsigned s = 0; s < shape.slots; s++)
        out += s != slot && members[s]->is_lost;
    if (out >= 2 && !members[slot]->is_lost && !how[0])
        return "two slots are out, so the array would fail; with the word force it is done";
    lose(slot);
    return NULL;
}

/* What is lost is let go at once: this says whether it is closed and unlocked. */
static const char *remove_member(unsigned slot)
{
    if (raid6_slot(array, slot, NULL) != RAID6_LOST)
        return "the slot is not lost";
    return member_calls_left(slot) ? "calls on its file have not returned" : NULL;
}

static const char *change_slot(struct order *order, const char *verb, unsigned slot, const char *path)
{
    if (slot >= shape.slots)
        return "no such slot";
    if (has_failed())
        return "the array has failed";
    if (!strcmp(verb, "attach"))
        return attach(order, slot, path);
    if (!strcmp(verb, "replace"))
        return replace(order, slot, path);
    if (!strcmp(verb, "remove"))
        return path[0] ? "no such order" : remove_member(slot);
    if (!strcmp(verb, "break"))
        return break_member(slot, path);
    return strcmp(verb, "fail") ? "no such order" : fail(slot, path);
}

/* The slot that a word names, or one that no array has. */
static unsigned slot_of(const char *word)
{
    char *end;
    unsigned long slot = strtoul(word, &end, 10);
    return word[0] >= '0' && word[0] <= '9' && !*end && slot < MOST_SLOTS ? (unsigned)slot : MOST_SLOTS;
}

/* Whether the array has commands yet of a member that is lost, which are handed out in this round and answered: a new one
 * has to wait for that. */
static bool is_awaited(const char *verb, unsigned slot)
{
    return !strcmp(verb, "attach") && slot < shape.slots && raid6_slot(array, slot, NULL) == RAID6_LOST &&
           raid6_at_work(array, slot);
}

/* Whether an order is done with. */
static bool obey(struct order *order)
{
    char verb[8] = "", number[8] = "", path[MOST_PATH] = "";
    const char *text = order->text, *why = NULL;
    int words = sscanf(text, "%7s %7s %4095[^\n]", verb, number, path);
    unsigned slot = slot_of(number);
    if (is_awaited(verb, slot))
        return false;
    if (words >= 2)
        why = change_slot(order, verb, slot, path);
    else if (!strcmp(text, "status"))
        tell_status();
    else if (!strcmp(text, "check") || !strcmp(text, "repair"))
        why = begin_scrub(text[0] == 'c' ? RAID6_CHECK : RAID6_REPAIR);
    else
        why = "no such order";
    if (why == waits)
        return false;
    if (order->opening)
        give_up_opening(order);
    tell("%s: %s", text, why ? why : "done");
    return true;
}

bool obey_all(void)
{
    bool is_any = false;
    pace.due = UINT64_MAX;
    for (struct order *order; (order = (struct order *)orders.first) && obey(order); is_any = true) {
        list_take(&orders);
        free(order);
    }
    return is_any;
}

/* The state is told at once, whatever orders wait. */
void order_add(struct order *order)
{
    if (strcmp(order->text, "status")) {
        list_add(&orders, &order->item);
    } else {
        obey(order);
        free(order);
    }
}
