/* Refuses each growth of what the library r6_growths_c makes: alone, and with all after it.
 *
 *   heap          prints for each call how many growths it has; a refusal that isn't answered as it has to be is named,
 *                 and the status is 1
 *   heap given    the heap counts refusals and refuses nothing, to show that this is found
 *
 * This file is also the heap of the library. It numbers the growths of a call from 1. A call that is refused one has to
 * answer 1 and to have given back all that it had.
 */
#include <stdbool.h>
#include <stdint.h>
#include <stdio.h>
#include <stdlib.h>
#include <string.h>

/* as many refusals of a call are named at most */
enum { MOST = 10 };

enum answer { MADE, NO_MEMORY, NO_ARRAY };

uint8_t r6_growths_core(size_t slots, size_t block, uint64_t rows, size_t shards, size_t window);
uint8_t r6_growths_exchange(size_t slots, size_t parts);

struct tried {
    uint64_t ok;
    void *block;
};

/* growths of the call so far, how many of them were refused, and how many blocks it has */
static uint64_t growths, refused, held;
/* the first growth that is refused, or 0, and the last */
static uint64_t first, last;
static bool gives;

static bool is_refused(void)
{
    growths++;
    if (first == 0 || growths < first || growths > last)
        return false;
    refused++;
    return !gives;
}

struct tried rattle_alloc(size_t size, size_t align)
{
    struct tried made = {0, NULL};
    (void)align; /* at most 16, as malloc's */
    if (is_refused())
        return made;
    made.block = malloc(size ? size : 1);
    made.ok = made.block != NULL;
    held += made.ok;
    return made;
}

void rattle_dealloc(void *block)
{
    held--;
    free(block);
}

struct tried rattle_realloc(void *block, size_t kept, size_t size, size_t align)
{
    struct tried made = {0, NULL};
    (void)kept;
    (void)align;
    if (is_refused())
        return made;
    made.block = realloc(block, size ? size : 1);
    made.ok = made.block != NULL;
    return made;
}

/* What is made, and of what. */
struct call {
    const char *name;
    size_t slots, block, rows, shards, window;
};

static const struct call calls[] = {
    {"core", 4, 16, 4, 1, 1},      {"core", 4, 16, 4, 4, 8},        {"core", 6, 4096, 64, 1, 1},
    {"core", 8, 512, 1024, 16, 8}, {"core", 32, 16, 64, 1, 8},      {"core", 32, 512, 16777216, 16, 8},
    {"exchange", 4, 0, 0, 0, 0},   {"exchange", 32, 0, 0, 0, 0},
};

enum { CALLS = sizeof calls / sizeof calls[0] };

/* Makes the call; `begin` and `end` are the first and the last growth that are refused. */
static enum answer answer_of(const struct call *call, uint64_t begin, uint64_t end)
{
    growths = refused = held = 0;
    first = begin;
    last = end;
    if (strcmp(call->name, "core") == 0)
        return r6_growths_core(call->slots, call->block, call->rows, call->shards, call->window);
    return r6_growths_exchange(call->slots, call->slots);
}

static void print(const struct call *call)
{
    printf("%s of %zu slots", call->name, call->slots);
    if (call->block != 0)
        printf(", blocks of %zu bytes, %zu rows, %zu shards, window %zu", call->block, call->rows, call->shards, call->window);
}

/* Whether a refusal was answered as it has to be: the growths `begin` to `end` are refused. */
static bool is_answered(const struct call *call, uint64_t begin, uint64_t end)
{
    enum answer answer = answer_of(call, begin, end);
    if (answer == NO_MEMORY && held == 0 && refused != 0)
        return true;
    printf("FOUND ");
    print(call);
    printf(": growth %llu%s: answer %d, %llu blocks kept, %llu refused\n", (unsigned long long)begin,
           begin == end ? "" : " and all after it", answer, (unsigned long long)held, (unsigned long long)refused);
    return false;
}

/* How many refusals of a call were not answered as they have to be. */
static uint64_t sweep(const struct call *call)
{
    if (answer_of(call, 0, 0) != MADE || held != 0 || growths == 0) {
        printf("FOUND ");
        print(call);
        printf(": not made, or %llu blocks kept\n", (unsigned long long)held);
        return 1;
    }
    uint64_t count = growths, found = 0;
    for (uint64_t number = 1; number <= count && found < MOST; number++) {
        found += !is_answered(call, number, number);
        found += !is_answered(call, number, UINT64_MAX);
    }
    print(call);
    printf(": %llu growths\n", (unsigned long long)count);
    return found;
}

int main(int words, char **word)
{
    gives = words == 2 && strcmp(word[1], "given") == 0;
    uint64_t found = 0;
    for (int i = 0; i < CALLS; i++)
        found += sweep(&calls[i]);
    return found != 0;
}
