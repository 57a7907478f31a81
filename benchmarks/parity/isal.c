/* ISA-L, which chooses its instructions when it runs. */
#include "bench.h"
#include <isa-l.h>
#include <stdlib.h>
#include <string.h>

static unsigned char tables[32 * 2 * MOST_BLOCKS];
static void *blocks[MOST_BLOCKS];
static void (*chosen)(const struct task *task);

static void must_be_0(int failed)
{
    if (failed)
        exit(1);
}

static void parity(const struct task *task) { must_be_0(pq_gen((int)task->m + 2, LENGTH, blocks)); }

static void check(const struct task *task) { must_be_0(pq_check((int)task->m + 2, LENGTH, blocks)); }

static void sum(const struct task *task) { must_be_0(xor_gen((int)task->m + 1, LENGTH, blocks)); }

static void scale_add(const struct task *task)
{
    gf_vect_mad(LENGTH, 1, 0, tables, task->blocks[1], task->made[0]);
}

static void restore(const struct task *task)
{
    ec_encode_data(LENGTH, (int)task->m, 2, tables, (unsigned char **)blocks, (unsigned char **)task->made);
}

/* The block at a position is the sum of the data by these: a row of the unit matrix, of ones, of powers of 2. */
static unsigned char coefficient(size_t m, size_t position, size_t index)
{
    if (position < m)
        return position == index;
    return position == m ? 1 : power_of_2(index);
}

/* The lost blocks as sums of those that are kept. */
static void choose_restore(const struct task *task)
{
    size_t m = task->m, lost[2] = {task->x, task->y}, kept = 0;
    unsigned char kept_rows[MOST_DATA * MOST_DATA], inverse[MOST_DATA * MOST_DATA], lost_rows[2 * MOST_DATA];
    for (size_t position = 0; position < m + 2; position++) {
        if (position == task->x || position == task->y)
            continue;
        for (size_t i = 0; i < m; i++)
            kept_rows[kept * m + i] = coefficient(m, position, i);
        blocks[kept++] = task->blocks[position];
    }
    must_be_0(gf_invert_matrix(kept_rows, inverse, (int)m));
    for (size_t k = 0; k < 2; k++)
        for (size_t j = 0; j < m; j++) {
            unsigned char sum = 0;
            for (size_t i = 0; i < m; i++)
                sum ^= product(coefficient(m, lost[k], i), inverse[i * m + j]);
            lost_rows[k * m + j] = sum;
        }
    ec_init_tables((int)m, 2, lost_rows, tables);
    chosen = restore;
}

/* One lost block of data: the sum of the others and P. */
static void choose_sum(const struct task *task)
{
    size_t kept = 0;
    for (size_t position = 0; position < task->m + 1; position++)
        if (position != task->x)
            blocks[kept++] = task->blocks[position];
    blocks[kept] = task->made[0];
    chosen = sum;
}

static void choose(const struct task *task, size_t way)
{
    unsigned char factor = FACTOR;
    (void)way;
    if (task->work == RESTORE && task->x == task->y) {
        choose_sum(task);
    } else if (task->work == RESTORE) {
        choose_restore(task);
    } else if (task->work == SCALE_ADD) {
        ec_init_tables(1, 1, &factor, tables);
        chosen = scale_add;
    } else {
        memcpy(blocks, task->blocks, (task->m + 2) * sizeof *blocks);
        chosen = check;
        if (task->work == PARITY) {
            memcpy(blocks + task->m, task->made, sizeof task->made);
            chosen = parity;
        }
    }
}

static size_t ways(const struct task *task)
{
    (void)task;
    return 1;
}

static void do_round(const struct task *task) { chosen(task); }

const struct library isal = {"ISA-L", ways, choose, do_round};
