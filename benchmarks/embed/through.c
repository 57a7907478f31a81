/* What requests cost through raid6.h, over devices in memory.
 *
 *     through rounds WRITES SLOTS CALLERS ROUNDS    so many rounds, for a counter of instructions: see `count`
 *     through calls                                 the least time of each call, in ns
 *
 * A round is of CALLERS requests, each of a row of its own.
 */
#include "raid6.h"

#include <stdio.h>
#include <stdlib.h>
#include <string.h>
#include <time.h>

enum { BLOCK = 4096, ROWS = 256, SLOTS = 32, BATCH = 64, TRIES = 20000 };

static uint8_t *device[SLOTS];

static void must(int refusal)
{
    if (refusal) {
        fprintf(stderr, "through: a call was refused with %d\n", refusal);
        exit(1);
    }
}

static struct raid6 *array_of(unsigned slots, struct raid6_command **commands, int count)
{
    const struct raid6_shape shape = {slots, 1, BLOCK, ROWS, 1, 8, 0, 0};
    struct raid6 *array;
    must(raid6_new(&shape, &array));
    for (int i = 0; i < count; i++)
        must(raid6_command_new(&shape, &commands[i]));
    for (unsigned slot = 0; slot < slots; slot++)
        device[slot] = calloc(ROWS, BLOCK);
    return array;
}

static void perform(struct raid6_command *command)
{
    uint8_t *there = device[command->slot] + command->row * BLOCK;
    if (command->is_write)
        memcpy(there, command->block, BLOCK);
    else
        memcpy(command->block, there, BLOCK);
    command->fault = RAID6_OK;
}

static void serve(struct raid6 *array, struct raid6_command *command, unsigned slots, int writes, uint64_t callers)
{
    static const uint8_t data[BLOCK];
    struct raid6_reply reply;
    for (uint64_t caller = 0; caller < callers; caller++)
        must(raid6_submit(array, caller * (slots - 2), writes ? data : NULL, caller));
    for (uint64_t replies = 0; replies < callers;) {
        while (!raid6_next_command(array, command)) {
            perform(command);
            must(raid6_deliver(array, command));
        }
        while (!raid6_next_reply(array, &reply))
            replies++;
    }
}

static double now(void)
{
    struct timespec at;
    clock_gettime(CLOCK_MONOTONIC, &at);
    return (double)at.tv_sec * 1e9 + (double)at.tv_nsec;
}

enum call { SUBMIT, COMMAND, DELIVER, REPLY, CALLS };

/* The time since *from goes to a call, if it is the least of that call. */
static void least(double *of, enum call call, double *from)
{
    double at = now();
    if (at - *from < of[call])
        of[call] = at - *from;
    *from = now();
}

static void time_calls(void)
{
    static const char *const names[] = {"submit", "next_command", "deliver", "next_reply"};
    struct raid6_command *commands[BATCH];
    struct raid6 *array = array_of(6, commands, BATCH);
    struct raid6_reply reply;
    double of[CALLS] = {1e9, 1e9, 1e9, 1e9};
    for (int try = 0; try < TRIES; try++) {
        double from = now();
        for (uint64_t i = 0; i < BATCH; i++)
            must(raid6_submit(array, i * 4, NULL, i));
        least(of, SUBMIT, &from);
        for (int i = 0; i < BATCH; i++)
            must(raid6_next_command(array, commands[i]));
        least(of, COMMAND, &from);
        for (int i = 0; i < BATCH; i++)
            commands[i]->fault = RAID6_OK;
        from = now();
        for (int i = 0; i < BATCH; i++)
            must(raid6_deliver(array, commands[i]));
        least(of, DELIVER, &from);
        for (int i = 0; i < BATCH; i++)
            must(raid6_next_reply(array, &reply));
        least(of, REPLY, &from);
    }
    for (int call = 0; call < CALLS; call++)
        printf("%-14s %5.1f ns\n", names[call], of[call] / BATCH);
}

static uint64_t number(const char *text) { return strtoull(text, NULL, 10); }

int main(int count, char **words)
{
    if (count == 2 && !strcmp(words[1], "calls")) {
        time_calls();
        return 0;
    }
    if (count != 6 || strcmp(words[1], "rounds"))
        return 2;
    struct raid6_command *command;
    unsigned slots = (unsigned)number(words[3]);
    struct raid6 *array = array_of(slots, &command, 1);
    for (uint64_t round = number(words[5]); round > 0; round--)
        serve(array, command, slots, number(words[2]) != 0, number(words[4]));
    return 0;
}
