/* The kernels of r6_kernels and r6_recover beside the same form in C, ISA-L and Linux's lib/raid6: one process, the same
 * bytes, each in turn, every result compared with a plain one.
 *
 * This file is also the heap of the library. It hands out memory from one arena and never takes a block back within a
 * run, so it knows where the library's blocks stand. The others have theirs at multiples of 64.
 */
#include "bench.h"
#include <stdio.h>
#include <stdlib.h>
#include <string.h>
#include <time.h>

enum { ARENA = 1 << 20, TRIES = 25, WORK_BYTES = 1 << 27, ROOM = 2 };

/* Where the library's blocks begin: so many bytes after a multiple of 64, or as glibc's heap has them, each 16 bytes
 * further after one than the block before. */
enum place { AT_64 = 0, AT_16 = 16, AS_MALLOC = -1 };

struct bytes {
    const unsigned char *begin;
    size_t length;
};

uint8_t r6_parity_rounds(struct bytes row, size_t length, uint64_t rounds);
uint8_t r6_restore_rounds(struct bytes row, size_t length, size_t x, size_t y, uint64_t rounds);
uint8_t r6_check_rounds(struct bytes row, size_t length, uint64_t rounds);
uint8_t r6_scale_add_rounds(struct bytes row, size_t length, uint8_t constant, uint64_t rounds);

static enum place place;
static _Alignas(64) unsigned char arena[ARENA];
static size_t arena_used;
static unsigned char *handed_out[ROOM + MOST_BLOCKS + 1]; /* room for two, the row's blocks, and one more */
static size_t handed_out_count;

struct tried {
    uint64_t ok;
    void *block;
};

struct tried rattle_alloc(size_t size, size_t align)
{
    struct tried none = {0, NULL};
    (void)align; /* at most 16 */
    size_t skew = place == AS_MALLOC ? 16 : (size_t)place;
    size_t rounded = place == AS_MALLOC ? (size + 8 + 15) / 16 * 16 : (size + skew + 63) / 64 * 64;
    if (rounded + skew > ARENA - arena_used)
        return none;
    struct tried made = {1, arena + arena_used + skew};
    arena_used += rounded;
    if (size == LENGTH && handed_out_count < sizeof handed_out / sizeof *handed_out)
        handed_out[handed_out_count++] = made.block;
    return made;
}

struct tried rattle_realloc(void *block, size_t kept, size_t size, size_t align)
{
    struct tried made = rattle_alloc(size, align);
    if (made.ok)
        memcpy(made.block, block, kept < size ? kept : size);
    return made;
}

void rattle_dealloc(void *block) { (void)block; }

double thread_seconds(void)
{
    struct timespec now;
    clock_gettime(CLOCK_THREAD_CPUTIME_ID, &now);
    return (double)now.tv_sec + (double)now.tv_nsec * 1e-9;
}

static void fail(const char *what)
{
    fprintf(stderr, "%s\n", what);
    exit(1);
}

unsigned char product(unsigned char a, unsigned char b)
{
    unsigned char sum = 0;
    for (; b; b >>= 1) {
        if (b & 1)
            sum ^= a;
        a = (unsigned char)(a << 1 ^ (a & 0x80 ? 0x1d : 0));
    }
    return sum;
}

unsigned char power_of_2(size_t exponent)
{
    unsigned char power = 1;
    while (exponent-- > 0)
        power = product(power, 2);
    return power;
}

/* ---- the task, and what it has to give */

static _Alignas(64) unsigned char row[MOST_BLOCKS][LENGTH];
static _Alignas(64) unsigned char wanted[2][LENGTH];
static _Alignas(64) unsigned char made[2][LENGTH];

/* Data of no pattern, and their P and Q byte by byte. */
static void fill_row(size_t m)
{
    for (size_t k = 0; k < LENGTH; k++) {
        row[m][k] = row[m + 1][k] = 0;
        for (size_t i = 0; i < m; i++) {
            row[i][k] = (unsigned char)rand();
            row[m][k] ^= row[i][k];
            row[m + 1][k] ^= product(row[i][k], power_of_2(i));
        }
    }
}

static struct task task_of(enum work work, size_t m, size_t x, size_t y)
{
    struct task task = {.work = work, .m = m, .x = x, .y = y, .made = {made[0], made[1]}};
    fill_row(m);
    for (size_t i = 0; i < m + 2; i++)
        task.blocks[i] = row[i];
    memcpy(wanted[0], work == SCALE_ADD ? row[0] : row[x], LENGTH);
    memcpy(wanted[1], row[y], LENGTH);
    for (size_t k = 0; work == SCALE_ADD && k < LENGTH; k++)
        wanted[0][k] ^= product(FACTOR, row[1][k]);
    return task;
}

static int has_second(const struct task *task)
{
    return task->work == PARITY || (task->work == RESTORE && task->x != task->y);
}

static int is_wanted(const unsigned char *block, size_t n) { return memcmp(block, wanted[n], LENGTH) == 0; }

/* ---- one try of each */

/* The row as the library gets it: what it has to make is garbage there. */
static struct bytes given(const struct task *task)
{
    static _Alignas(64) unsigned char copy[MOST_BLOCKS][LENGTH];
    memcpy(copy, row, (task->m + 2) * LENGTH);
    if (task->work == PARITY || task->work == RESTORE) {
        memset(copy[task->x], 0x55, LENGTH);
        memset(copy[task->y], 0x55, LENGTH);
    }
    struct bytes bytes = {copy[0], (task->m + 2) * LENGTH};
    return bytes;
}

/* Odd, so that what is added to a block in each round is there once. */
static uint64_t rounds_of(const struct task *task)
{
    return WORK_BYTES / LENGTH / (task->work == SCALE_ADD ? 1 : task->m) | 1;
}

/* Whether the nth block that was wanted is there: among those at x and y, and the room, as restored blocks change places
 * with it. */
static int made_by_rattle(const struct task *task, size_t n)
{
    unsigned char **blocks = handed_out + ROOM;
    if (task->work == CHECK || (n == 1 && !has_second(task)))
        return 1;
    if (task->work == SCALE_ADD)
        return is_wanted(blocks[task->m + 2], n);
    if (task->work == PARITY)
        return is_wanted(blocks[task->m + n], n);
    return is_wanted(blocks[task->x], n) || is_wanted(blocks[task->y], n) || is_wanted(handed_out[0], n) ||
           is_wanted(handed_out[1], n);
}

static double rattle_seconds(const struct task *task)
{
    struct bytes bytes = given(task);
    uint64_t rounds = rounds_of(task);
    uint8_t failed = 1;
    arena_used = handed_out_count = 0;
    double begun = thread_seconds();
    switch (task->work) {
    case PARITY:
        failed = r6_parity_rounds(bytes, LENGTH, rounds);
        break;
    case RESTORE:
        failed = r6_restore_rounds(bytes, LENGTH, task->x, task->y, rounds);
        break;
    case CHECK:
        failed = r6_check_rounds(bytes, LENGTH, rounds);
        break;
    case SCALE_ADD:
        failed = r6_scale_add_rounds(bytes, LENGTH, FACTOR, rounds);
        break;
    }
    double took = thread_seconds() - begun;
    if (failed)
        fail("the library refused its work");
    if (!made_by_rattle(task, 0) || !made_by_rattle(task, 1))
        fail("Rattle differs");
    return took;
}

static double library_seconds(const struct task *task, const struct library *library, size_t way)
{
    memset(made, 0x55, sizeof made);
    if (task->work == SCALE_ADD)
        memcpy(made[0], row[0], LENGTH);
    library->choose(task, way);
    uint64_t rounds = rounds_of(task);
    double begun = thread_seconds();
    for (uint64_t round = 0; round < rounds; round++)
        library->round(task);
    double took = thread_seconds() - begun;
    if (__builtin_cpu_supports("avx"))
        __asm__ volatile("vzeroupper"); /* ISA-L leaves upper halves behind, which slow SSE down */
    if ((task->work != CHECK && !is_wanted(made[0], 0)) || (has_second(task) && !is_wanted(made[1], 1)))
        fail(library->name);
    return took;
}

/* ---- the table */

static const struct library *const libraries[] = {
    &c_lanes,
#ifdef WITH_ISAL
    &isal,
#endif
#ifdef WITH_LINUX
    &linux_raid6,
#endif
};

enum { LIBRARIES = sizeof libraries / sizeof *libraries };

static void take_least(double *least, double took)
{
    if (took < *least)
        *least = took;
}

/* The least of many tries, all in turn, by the thread's own time; of a library with several ways the fastest. */
static void measure(const char *name, const struct task *task)
{
    double rattle = 1e9, other[LIBRARIES];
    for (size_t n = 0; n < LIBRARIES; n++)
        other[n] = 1e9;
    for (int try = 0; try < TRIES; try++) {
        take_least(&rattle, rattle_seconds(task));
        for (size_t n = 0; n < LIBRARIES; n++)
            for (size_t way = 0; way < libraries[n]->ways(task); way++)
                take_least(&other[n], library_seconds(task, libraries[n], way));
    }
    double bytes = (double)rounds_of(task) * (double)LENGTH * (task->work == SCALE_ADD ? 1 : (double)task->m) / 1e9;
    if (place == AS_MALLOC)
        printf("%6s", "malloc");
    else
        printf("%6d", place);
    printf(" %-24s %3zu %12.1f", name, task->m, bytes / rattle);
    for (size_t n = 0; n < LIBRARIES; n++) {
        if (other[n] < 1e9)
            printf(" %9.1f %5.2f", bytes / other[n], other[n] / rattle);
        else
            printf(" %9s %5s", "-", "-");
    }
    printf("\n");
    fflush(stdout);
}

static void measure_row(size_t m)
{
    struct task task = task_of(PARITY, m, m, m + 1);
    measure("P and Q", &task);
    task = task_of(CHECK, m, m, m + 1);
    measure("check", &task);
    task = task_of(RESTORE, m, 1, 1);
    measure("one data block", &task);
    task = task_of(RESTORE, m, 1, m - 1);
    measure("two data blocks", &task);
    task = task_of(RESTORE, m, 1, m);
    measure("a data block and P", &task);
    task = task_of(RESTORE, m, 1, m + 1);
    measure("a data block and Q", &task);
}

int main(int count, char **words)
{
    const enum place places[] = {AT_64, AS_MALLOC, AT_16};
    size_t tried = count > 1 ? strtoul(words[1], NULL, 10) : 3;
    printf("%6s %-24s %3s %12s", "blocks", "", "m", "Rattle GB/s");
    for (size_t n = 0; n < LIBRARIES; n++)
        printf(" %9s ratio", libraries[n]->name);
    printf("\n");
    for (size_t n = 0; n < tried && n < 3; n++) {
        place = places[n];
        for (size_t m = 4; m <= MOST_DATA; m *= 2)
            measure_row(m);
        struct task task = task_of(SCALE_ADD, 4, 0, 1);
        measure("c times a block, added", &task);
    }
    return 0;
}
