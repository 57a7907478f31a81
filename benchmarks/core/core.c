/* The core of a shard: how many requests it serves in a second, beside their copies and parities alone; what a completion
 * costs as more commands are out; and how much memory a core takes.
 *
 * This file is also the heap of the library. It hands out memory from one arena, counts the bytes that the library has, and
 * never uses a block again within a run.
 */
#include <stdbool.h>
#include <stdint.h>
#include <stdio.h>
#include <stdlib.h>
#include <string.h>
#include <time.h>

/* a round of a rebuild is short beside what is made before the first, and gets more tries */
enum { ARENA = 64 << 20, LINE = 64, TRIES = 40, REBUILD_TRIES = 400 };

enum rows { APART, ONE_ROW, DEGRADED, WHOLE, CONSECUTIVE };

uint8_t r6_core_serve(size_t slots, uint8_t rows, bool writes, size_t width, uint64_t rounds);
uint8_t r6_core_serve_together(size_t slots, uint8_t rows, bool writes, size_t width, uint64_t rounds);
uint8_t r6_core_alone(size_t slots, uint8_t rows, bool writes, size_t width, uint64_t rounds);
uint8_t r6_core_agrees(size_t slots, uint8_t rows, bool together, size_t width, uint64_t rounds);
uint8_t r6_core_rebuild(bool eight, uint64_t rounds);
uint8_t r6_core_rebuild_alone(uint64_t rows);
uint8_t r6_core_rebuild_agrees(bool eight, uint64_t rounds);
uint8_t r6_core_deliver(bool one_row, bool writes, uint64_t requests, uint64_t rounds);
uint8_t r6_core_deliver_beside(uint64_t writes, uint64_t rounds);
uint8_t r6_table_rounds(uint32_t capacity, uint32_t entries, uint64_t rounds);
uint8_t r6_core_make(size_t slots, uint64_t chunk, size_t block, uint64_t rows);

static _Alignas(LINE) unsigned char arena[ARENA];
static size_t arena_used;
static uint64_t blocks_handed_out;
static size_t bytes_held, most_bytes_held;

struct tried {
    uint64_t ok;
    void *block;
};

/* the size of a block stands in the line before it */
static size_t *size_of(void *block) { return (size_t *)((unsigned char *)block - LINE); }

struct tried rattle_alloc(size_t size, size_t align)
{
    struct tried none = {0, NULL};
    (void)align; /* at most 16 */
    size_t rounded = LINE + (size + LINE - 1) / LINE * LINE;
    if (rounded > ARENA - arena_used)
        return none;
    struct tried made = {1, arena + arena_used + LINE};
    arena_used += rounded;
    *size_of(made.block) = size;
    blocks_handed_out++;
    bytes_held += size;
    if (bytes_held > most_bytes_held)
        most_bytes_held = bytes_held;
    return made;
}

void rattle_dealloc(void *block) { bytes_held -= *size_of(block); }

struct tried rattle_realloc(void *block, size_t kept, size_t size, size_t align)
{
    rattle_dealloc(block);
    struct tried made = rattle_alloc(size, align);
    if (made.ok)
        memcpy(made.block, block, kept < size ? kept : size);
    else
        bytes_held += *size_of(block);
    return made;
}

static void empty_arena(void)
{
    if (bytes_held != 0) {
        fprintf(stderr, "the library kept %zu bytes\n", bytes_held);
        exit(1);
    }
    arena_used = 0;
    blocks_handed_out = 0;
    most_bytes_held = 0;
}

static void check(uint8_t answer)
{
    if (answer != 0) {
        fprintf(stderr, "want of memory, or a request without an answer\n");
        exit(1);
    }
}

/* the time of this thread alone */
static double seconds(void)
{
    struct timespec now;
    clock_gettime(CLOCK_THREAD_CPUTIME_ID, &now);
    return (double)now.tv_sec + (double)now.tv_nsec * 1e-9;
}

/* what is measured */
struct work {
    enum { SERVE, ALONE, REBUILD, REBUILD_ALONE, TOGETHER, DELIVER, BESIDE, TABLE } kind;
    uint8_t rows; /* enum rows */
    bool writes;
    uint32_t slots; /* or a table's room */
    uint32_t count; /* requests, entries, or rows at a time */
    uint64_t rounds;
};

static void do_rounds(const struct work *work, uint64_t rounds)
{
    switch (work->kind) {
    case SERVE:
        check(r6_core_serve(work->slots, work->rows, work->writes, work->count, rounds));
        break;
    case ALONE:
        check(r6_core_alone(work->slots, work->rows, work->writes, work->count, rounds));
        break;
    case REBUILD:
        check(r6_core_rebuild(work->count == 8, rounds));
        break;
    case REBUILD_ALONE:
        check(r6_core_rebuild_alone(work->count * rounds));
        break;
    case TOGETHER:
        check(r6_core_serve_together(work->slots, work->rows, work->writes, work->count, rounds));
        break;
    case DELIVER:
        check(r6_core_deliver(work->rows == ONE_ROW, work->writes, work->count, rounds));
        break;
    case BESIDE:
        check(r6_core_deliver_beside(work->count, rounds));
        break;
    case TABLE:
        check(r6_table_rounds(work->slots, work->count, rounds));
        break;
    }
}

/* the time of so many rounds, with all that is made before the first */
static double seconds_of(const struct work *work, uint64_t rounds)
{
    empty_arena();
    double begun = seconds();
    do_rounds(work, rounds);
    return seconds() - begun;
}

static double lesser(double one, double other) { return one < other ? one : other; }

/* how many blocks the heap hands out for so many rounds */
static uint64_t blocks_of(const struct work *work, uint64_t rounds)
{
    empty_arena();
    do_rounds(work, rounds);
    return blocks_handed_out;
}

/* the first rounds may take room for a queue, and later ones nothing */
static void check_memory(const struct work *work, uint64_t few, uint64_t many)
{
    if (blocks_of(work, few) != blocks_of(work, many)) {
        fprintf(stderr, "a round took memory\n");
        exit(1);
    }
}

static bool is_rebuild(const struct work *work) { return work->kind == REBUILD || work->kind == REBUILD_ALONE; }

/* the least time of a round, without that of making the array: tries with and without rounds take turns */
static double seconds_a_round(const struct work *work)
{
    if (is_rebuild(work))
        check_memory(work, work->rounds / 2, work->rounds);
    else
        check_memory(work, 300, 600);
    double with = 1e9, without = 1e9;
    for (int i = 0; i < (is_rebuild(work) ? REBUILD_TRIES : TRIES); i++) {
        with = lesser(with, seconds_of(work, work->rounds));
        without = lesser(without, seconds_of(work, 0));
    }
    return (with - without) / (double)work->rounds;
}

static const struct {
    uint32_t slots;
    uint8_t rows; /* enum rows */
    uint32_t width;
} arrays[] = {
    {6, APART, 1}, {6, APART, 64}, {6, APART, 256}, {6, ONE_ROW, 64}, {6, ONE_ROW, 256},
    {6, DEGRADED, 1}, {8, APART, 1}, {8, APART, 64}, {32, APART, 1}, {32, APART, 64}};

enum { ARRAYS = sizeof arrays / sizeof arrays[0] };

static const char *const words[] = {"apart", "one row", "degraded", "whole"};

static void print_requests(void)
{
    printf("%-8s %6s %10s %6s %10s %10s %10s\n", "requests", "slots", "rows", "width", "core ns", "alone ns", "beside ns");
    for (int writes = 1; writes >= 0; writes--) {
        for (int i = 0; i < ARRAYS; i++) {
            uint32_t width = arrays[i].width;
            struct work work = {SERVE, arrays[i].rows, writes, arrays[i].slots, width, (writes ? 2048 : 8192) / width};
            double served = seconds_a_round(&work) / width * 1e9;
            work.kind = ALONE;
            double alone = seconds_a_round(&work) / width * 1e9;
            printf("%-8s %6u %10s %6u %10.0f %10.0f %10.0f\n", writes ? "writes" : "reads", work.slots, words[work.rows],
                   width, served, alone, served - alone);
        }
    }
}

/* writes of one row, each of the next of its blocks of data: as many as the core takes, or a few less, so that the row is
 * written as a whole by most holds */
static const struct {
    uint32_t slots;
    uint32_t width;
} whole_rows[] = {{4, 256}, {6, 256}, {8, 252}, {18, 256}, {32, 240}};

enum { WHOLE_ROWS = sizeof whole_rows / sizeof whole_rows[0] };

static void print_whole_rows(void)
{
    printf("\n%-8s %10s %10s %10s\n", "slots", "core ns", "alone ns", "ratio");
    for (int i = 0; i < WHOLE_ROWS; i++) {
        uint32_t width = whole_rows[i].width;
        struct work work = {SERVE, WHOLE, true, whole_rows[i].slots, width, 16};
        double served = seconds_a_round(&work) / width * 1e9;
        work.kind = ALONE;
        double alone = seconds_a_round(&work) / width * 1e9;
        printf("%-8u %10.0f %10.0f %10.2f\n", work.slots, served, alone, alone / served);
    }
}

/* writes of consecutive blocks that fill rows, in lists of 256 and 64 or a few less, so that each list has whole rows */
static const struct {
    uint32_t slots;
    uint32_t width;
} lists[] = {{4, 256}, {4, 64}, {6, 256}, {6, 64}, {8, 252}, {8, 60}, {32, 240}, {32, 60}};

enum { LISTS = sizeof lists / sizeof lists[0] };

static void print_lists(void)
{
    printf("\n%-8s %8s %12s %12s %10s %10s\n", "slots", "list", "one by one", "together", "alone ns", "ratio");
    for (int i = 0; i < LISTS; i++) {
        uint32_t width = lists[i].width;
        struct work work = {SERVE, CONSECUTIVE, true, lists[i].slots, width, 4096 / width};
        double each = seconds_a_round(&work) / width * 1e9;
        work.kind = TOGETHER;
        double together = seconds_a_round(&work) / width * 1e9;
        work.kind = ALONE;
        double alone = seconds_a_round(&work) / width * 1e9;
        printf("%-8u %8u %9.0f ns %9.0f ns %10.0f %10.2f\n", work.slots, width, each, together, alone, together / alone);
    }
}

/* each row is rebuilt once, so that there are no more rounds than rows */
enum { ROWS = 256 };

static void print_rebuilds(void)
{
    printf("\n%-8s %10s %10s %10s\n", "rebuilds", "core ns", "alone ns", "ratio");
    for (uint32_t width = 1; width <= 8; width += 7) {
        struct work work = {REBUILD, APART, true, 6, width, ROWS / width};
        double served = seconds_a_round(&work) / width * 1e9;
        work.kind = REBUILD_ALONE;
        double alone = seconds_a_round(&work) / width * 1e9;
        printf("%-8u %10.0f %10.0f %10.2f\n", width, served, alone, served / alone);
    }
}

static void print_completions(void)
{
    static const uint32_t requests[] = {1, 64, 256};
    printf("\n%-8s %10s %8s %12s\n", "requests", "rows", "of them", "completion");
    for (int writes = 0; writes <= 1; writes++) {
        for (uint8_t rows = APART; rows <= ONE_ROW; rows++) {
            for (int i = 0; i < 3; i++) {
                struct work work = {DELIVER, rows, writes, 6, requests[i], 10000};
                printf("%-8s %10s %8u %9.0f ns\n", writes ? "writes" : "reads", words[rows], requests[i],
                       seconds_a_round(&work) * 1e9);
            }
        }
    }
}

static void print_reads_beside(void)
{
    static const uint32_t writes[] = {0, 1, 64, 255};
    printf("\n%-8s %12s\n", "writes", "read beside");
    for (int i = 0; i < 4; i++) {
        struct work work = {BESIDE, ONE_ROW, true, 6, writes[i], 10000};
        printf("%-8u %9.0f ns\n", writes[i], seconds_a_round(&work) * 1e9);
    }
}

static void print_tables(void)
{
    static const uint32_t room_and_entries[][2] = {
        {512, 1}, {512, 64}, {512, 192}, {2176, 1}, {2176, 64}, {2176, 192}, {2176, 2000}};
    printf("\n%-8s %8s %12s\n", "room", "entries", "round");
    for (int i = 0; i < 7; i++) {
        struct work work = {TABLE, APART, false, room_and_entries[i][0], room_and_entries[i][1], 100000};
        printf("%-8u %8u %9.1f ns\n", work.slots, work.count, seconds_a_round(&work) * 1e9);
    }
}

static void print_memory(void)
{
    static const size_t slots[] = {4, 6, 32};
    printf("\n%-8s %12s %12s\n", "slots", "bytes", "of buffers");
    for (int i = 0; i < 3; i++) {
        empty_arena();
        check(r6_core_make(slots[i], 1, 4096, 64));
        /* 64 frames, each of a buffer for each slot and three more, and 64 direct buffers */
        printf("%-8zu %12zu %12zu\n", slots[i], most_bytes_held, 64 * (slots[i] + 4) * 4096);
    }
    empty_arena();
}

/* the core's writes leave the same blocks on the devices as those that are done alone */
static void compare_blocks(void)
{
    for (int i = 0; i < ARRAYS; i++) {
        empty_arena();
        if (r6_core_agrees(arrays[i].slots, arrays[i].rows, false, arrays[i].width, 2) != 0) {
            fprintf(stderr, "the core's writes leave other blocks than those alone\n");
            exit(1);
        }
    }
    for (int i = 0; i < WHOLE_ROWS; i++) {
        empty_arena();
        if (r6_core_agrees(whole_rows[i].slots, WHOLE, false, whole_rows[i].width, 2) != 0) {
            fprintf(stderr, "the core's writes of a row leave other blocks than those alone\n");
            exit(1);
        }
    }
    /* one round: buffers come back in another order where writes of a row don't start together */
    for (int i = 0; i < 2 * LISTS; i++) {
        empty_arena();
        if (r6_core_agrees(lists[i / 2].slots, CONSECUTIVE, i % 2, lists[i / 2].width, 1) != 0) {
            fprintf(stderr, "the core's writes of consecutive blocks leave other blocks than those alone\n");
            exit(1);
        }
    }
    for (int eight = 0; eight <= 1; eight++) {
        empty_arena();
        if (r6_core_rebuild_agrees(eight, eight ? ROWS / 8 : ROWS) != 0) {
            fprintf(stderr, "the core's rebuild leaves other blocks than that alone\n");
            exit(1);
        }
    }
}

int main(void)
{
    compare_blocks();
    print_requests();
    print_whole_rows();
    print_lists();
    print_rebuilds();
    print_completions();
    print_reads_beside();
    print_tables();
    print_memory();
    return 0;
}
