/* Linux's lib/raid6, built as its own test is for user space: every set of routines that this processor can run. */
#include "bench.h"
#include <linux/raid/pq.h>

const char raid6_empty_zero_page[PAGE_SIZE] __attribute__((aligned(PAGE_SIZE)));

static void *blocks[MOST_BLOCKS];
static const struct raid6_recov_calls *recovery;

/* The nth set for P and Q, or null. */
static const struct raid6_calls *parity_set(size_t n)
{
    for (size_t i = 0; raid6_algos[i]; i++)
        if ((!raid6_algos[i]->valid || raid6_algos[i]->valid()) && n-- == 0)
            return raid6_algos[i];
    return NULL;
}

/* The nth set that restores, or null. */
static const struct raid6_recov_calls *recovery_set(size_t n)
{
    for (size_t i = 0; raid6_recov_algos[i]; i++)
        if ((!raid6_recov_algos[i]->valid || raid6_recov_algos[i]->valid()) && n-- == 0)
            return raid6_recov_algos[i];
    return NULL;
}

static void parity(const struct task *task) { raid6_call.gen_syndrome((int)task->m + 2, LENGTH, blocks); }

/* A recovery computes P and Q by the set that is the fastest for them here. */
static void choose_fastest_parity(const struct task *task)
{
    const struct raid6_calls *fastest = NULL;
    double least = 1e9;
    for (size_t n = 0; parity_set(n); n++)
        for (int try = 0; try < 10; try++) {
            raid6_call = *parity_set(n);
            double begun = thread_seconds();
            for (int round = 0; round < 100; round++)
                parity(task);
            double took = thread_seconds() - begun;
            if (took < least) {
                least = took;
                fastest = parity_set(n);
            }
        }
    if (fastest)
        raid6_call = *fastest;
}

static void choose(const struct task *task, size_t way)
{
    for (size_t i = 0; i < task->m + 2; i++)
        blocks[i] = task->blocks[i];
    blocks[task->m] = task->made[0];
    blocks[task->m + 1] = task->made[1];
    if (task->work == PARITY) {
        raid6_call = *parity_set(way);
        return;
    }
    if (way == 0)
        choose_fastest_parity(task);
    blocks[task->m] = task->blocks[task->m];
    blocks[task->m + 1] = task->blocks[task->m + 1];
    blocks[task->x] = task->made[0];
    blocks[task->y] = task->made[1];
    recovery = recovery_set(way);
}

static size_t ways(const struct task *task)
{
    size_t n = 0;
    if (task->work == PARITY)
        while (parity_set(n))
            n++;
    if (task->work == RESTORE && task->x < task->y && task->x < task->m && task->y <= task->m)
        while (recovery_set(n))
            n++;
    return n;
}

static void do_round(const struct task *task)
{
    int count = (int)task->m + 2;
    if (task->work == PARITY)
        parity(task);
    else if (task->y == task->m)
        recovery->datap(count, LENGTH, (int)task->x, blocks);
    else
        recovery->data2(count, LENGTH, (int)task->x, (int)task->y, blocks);
}

const struct library linux_raid6 = {"Linux", ways, choose, do_round};
