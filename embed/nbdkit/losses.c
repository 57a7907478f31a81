/* What becomes of members that fail, are silent or are replaced, and what a start has to find of it. */
#include "plugin.h"

bool is_replacing;
uint32_t reports;
static struct {
    struct part part;
    uint32_t generation, shard; /* whose report waits for a sync */
    bool is_under_way, is_ended, has_failed;
} report;
static struct part rebuilt[MOST_SLOTS]; /* of slots whose rebuild is complete */

bool has_failed(void)
{
    int failed;
    raid6_slot(array, 0, &failed);
    return failed;
}

/* Whether a slot has two members: its own, and the second, which is to replace it. */
bool has_second(uint64_t slot)
{
    return is_replacing && second->slot == slot;
}

/* The member of a command or a change; NULL of one that has gone. */
struct member *member_of(uint64_t slot, uint32_t generation)
{
    if (members[slot]->generation == generation)
        return members[slot];
    return has_second(slot) && second->generation == generation ? second : NULL;
}

/* Whether the array has the member, in sync or to be built. */
bool is_live(const struct member *m)
{
    return m == members[m->slot] ? raid6_slot(array, m->slot, NULL) != RAID6_LOST : m == second && is_replacing;
}

/* Whether three slots would be out without this member, or of a row three blocks. A slot that has another isn't out. */
bool is_third(const struct member *m, uint64_t row)
{
    unsigned out = 0;
    if (has_second(m->slot) || members[m->slot]->is_lost || members[m->slot] != m)
        return false;
    for (unsigned s = 0; s < shape.slots; s++)
        out += s != m->slot && (members[s]->is_lost || (row != NO_ROW && is_unread(members[s], row)));
    return out >= 2;
}

/* The second is the slot's own member from here on. */
static void take_over(bool is_lost)
{
    struct member *old = members[second->slot];
    tell("slot %u: %s has the place of %s", second->slot, second->path, old->path);
    write_down(second, is_lost);
    second = old;
    is_replacing = false;
}

static void give_up_second(void)
{
    tell("slot %u: %s is lost, and not to replace %s any more", second->slot, second->path, members[second->slot]->path);
    is_replacing = false;
}

/* The slot is lost, with both members if it has two. */
void lose(unsigned slot)
{
    struct member *m = members[slot];
    if (!has_failed() && raid6_slot(array, slot, NULL) != RAID6_LOST) {
        struct member *other = has_second(slot) ? second : NULL;
        if (other)
            give_up_second();
        write_down(m, true);
        raid6_fail(array, slot);
        answer_requests(); /* so the shards look before anything else is delivered */
        if (other)
            member_let_go(other);
    }
    member_let_go(m);
}

/* A member is lost alone, by what no command tells. Its commands are answered before the array hears it, and the shards look
 * before anything else is delivered. */
void lose_member(struct member *m, const char *why)
{
    tell("slot %u: %s: %s", m->slot, m->path, why);
    if (!has_second(m->slot)) {
        if (m == members[m->slot])
            lose(m->slot);
        else
            member_let_go(m);
        return;
    }
    member_take_back(m);
    if (!has_second(m->slot)) /* a sync of it that failed has told it by now */
        return;
    if (m == second)
        give_up_second();
    else
        take_over(true);
    raid6_lose(array, m->slot, m->generation, NULL);
    answer_requests();
    member_let_go(m);
}

/* As the server ends a sync that hangs is one that fails. */
static void lose_if_silent(struct member *m)
{
    if (member_is_silent(m, timeout * 1000) && is_ending)
        member_take_back(m);
    else if (member_is_silent(m, timeout * 1000))
        lose_member(m, "it hasn't answered within the time limit");
}

static bool is_sole(const struct member *m)
{
    return !m->is_lost && !has_second(m->slot);
}

/* Where one has been silent for the time limit, and so many for half of it that three slots would be out, it is no fault of
 * theirs. */
static bool is_stalled(void)
{
    unsigned out = 0, silent = 0;
    for (unsigned s = 0; s < shape.slots; s++) {
        silent += is_sole(members[s]) && member_is_silent(members[s], timeout * 1000);
        out += members[s]->is_lost || (is_sole(members[s]) && member_is_silent(members[s], timeout * 500));
    }
    return silent && out > 2 && !is_ending && !has_failed();
}

/* After a stall each has the time limit anew. */
void lose_silent(void)
{
    static uint64_t told, looked;
    if (looked == heard)
        return;
    looked = heard;
    bool waits = is_stalled();
    lose_if_silent(second);
    for (unsigned s = 0; s < shape.slots; s++)
        if (waits && is_sole(members[s]))
            members[s]->excused = heard;
        else
            lose_if_silent(members[s]);
    if (!waits || (told && now - told < MINUTE))
        return;
    told = now;
    tell("so many members are silent that the array would fail without them: they are waited for");
}

/* ---- changes that shards ask for */

static void end_report_sync(struct part *part, bool has_failed)
{
    (void)part;
    report.is_under_way = false;
    report.is_ended = true;
    report.has_failed = has_failed;
}

/* Once each shard has rebuilt its rows on the second, a start has to find it in the slot, with its blocks on disk: so the
 * report waits for a sync. If one before that fails, the commands of the other shards tell the array, and the second is lost
 * alone. */
static bool receive_report(const struct raid6_change *change)
{
    if (!report.is_ended || report.generation != change->generation || report.shard != change->shard) {
        report.generation = change->generation;
        report.shard = change->shard;
        report.is_under_way = true;
        report.is_ended = false;
        report.part.end = end_report_sync;
        member_sync(second, &report.part);
    }
    if (!report.is_ended)
        return false;
    report.is_ended = false;
    if (report.has_failed) { /* the report isn't asked for any more */
        lose_member(second, "its sync failed");
        return true;
    }
    reports |= 1u << change->shard;
    if (reports == (1u << shape.shards) - 1)
        take_over(false);
    return true;
}

/* What a start has to find, before the change is made. Of two members that a slot has, one is lost alone. False: not yet. */
static bool prepare(const struct raid6_change *change, struct member *m)
{
    if (!m || has_failed())
        return true;
    if (change->state != RAID6_LOST)
        return m != second || receive_report(change);
    if (m == second)
        give_up_second();
    else if (has_second(change->slot))
        take_over(true);
    else if (!m->is_lost)
        write_down(m, true);
    else if (is_live(m))
        tell("slot %u: %s is lost before it has all rows", m->slot, m->path);
    return true;
}

static void end_rebuild_sync(struct part *part, bool has_failed)
{
    struct member *m = part->member;
    if (has_failed && is_live(m))
        lose_member(m, "its sync failed");
    else if (m->is_lost && members[m->slot] == m && raid6_slot(array, m->slot, NULL) == RAID6_IN_SYNC)
        write_down(m, false);
}

/* Until the new device has its blocks on disk, a start has to count it as lost. */
static void end_rebuild(const struct raid6_change *change)
{
    struct member *m = members[change->slot];
    if (!m->is_lost || m->generation != change->generation || raid6_slot(array, change->slot, NULL) != RAID6_IN_SYNC)
        return;
    rebuilt[change->slot].end = end_rebuild_sync;
    member_sync(m, &rebuilt[change->slot]);
}

/* What a member that is lost has yet is answered after that, so that the change is the one that was told. */
bool make_changes(void)
{
    struct raid6_change change;
    bool is_any = false;
    for (; !report.is_under_way && !raid6_next_change(array, &change); is_any = true) {
        struct member *m = member_of(change.slot, change.generation);
        if (!prepare(&change, m))
            break;
        raid6_agree(array);
        if (change.state == RAID6_IN_SYNC)
            end_rebuild(&change);
        else if (m)
            member_let_go(m);
    }
    return is_any;
}

/* The member that another has replaced goes once it has no commands. */
void close_gone(void)
{
    if (!is_replacing && second->store && !second->commands && !second->oldest)
        member_let_go(second);
}
