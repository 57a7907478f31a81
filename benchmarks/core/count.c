/* So many rounds of one kind of work, for a counter of instructions: see `count`. */
#define main time_all
#include "core.c"
#undef main

static uint32_t number(const char *text) { return (uint32_t)strtoul(text, NULL, 10); }

int main(int count, char **words)
{
    if (count != 7)
        return 2;
    struct work work = {.kind = number(words[1]), .rows = (uint8_t)number(words[2]), .writes = number(words[3]) != 0,
                        .slots = number(words[4]), .count = number(words[5])};
    empty_arena();
    do_rounds(&work, number(words[6]));
    return 0;
}
