/* The kernels at every length: P and Q, the blocks that are restored, the class of a row, a multiple that is added, and
 * what a changed block adds to P and Q; each compared with what is made byte by byte. checks/kernels builds it over the
 * library of each compiler and level.
 *
 * This file is also the heap of the library, so it sees the blocks that a work leaves.
 */
#include <stdint.h>
#include <stdio.h>
#include <stdlib.h>
#include <string.h>

enum { MOST_LENGTH = 4096, MOST_BLOCKS = 32, ARENA = 1 << 19, MOST_MADE = 128, SHORT = 16, TRIES_OF_SHORT = 24 };

struct bytes {
    const unsigned char *begin;
    size_t length;
};

uint8_t r6_parity_rounds(struct bytes row, size_t length, uint64_t rounds);
uint8_t r6_restore_rounds(struct bytes row, size_t length, size_t x, size_t y, uint64_t rounds);
uint8_t r6_check_rounds(struct bytes row, size_t length, uint64_t rounds);
uint8_t r6_scale_add_rounds(struct bytes row, size_t length, uint8_t constant, uint64_t rounds);
uint8_t r6_delta_rounds(struct bytes row, size_t length, uint32_t index, uint64_t rounds);

/* ---- the heap: blocks begin a few bytes after a multiple of 64, each at another distance */

static _Alignas(64) unsigned char arena[ARENA];
static size_t arena_used;
static struct made {
    const unsigned char *begin;
    size_t size;
} made[MOST_MADE];
static size_t made_count;

struct tried {
    uint64_t ok;
    void *block;
};

struct tried rattle_alloc(size_t size, size_t align)
{
    struct tried none = {0, NULL};
    size_t skew = made_count % 4 * 16; /* align is at most 16 */
    size_t needed = (size + skew + 63) / 64 * 64;
    (void)align;
    if (needed > ARENA - arena_used || made_count == MOST_MADE)
        return none;
    struct tried block = {1, arena + arena_used + skew};
    arena_used += needed;
    made[made_count].begin = block.block;
    made[made_count++].size = size;
    return block;
}

struct tried rattle_realloc(void *block, size_t kept, size_t size, size_t align)
{
    struct tried larger = rattle_alloc(size, align);
    if (larger.ok)
        memcpy(larger.block, block, kept < size ? kept : size);
    return larger;
}

void rattle_dealloc(void *block) { (void)block; }

/* ---- the field, by its definition */

static unsigned char product(unsigned char a, unsigned char b)
{
    unsigned char sum = 0;
    for (; b; b >>= 1) {
        if (b & 1)
            sum ^= a;
        a = (unsigned char)(a << 1 ^ (a & 0x80 ? 0x1d : 0));
    }
    return sum;
}

static unsigned char products[256][256];

static void fill_products(void)
{
    for (int a = 0; a < 256; a++)
        for (int b = 0; b < 256; b++)
            products[a][b] = product((unsigned char)a, (unsigned char)b);
}

/* ---- one row */

static unsigned char row[MOST_BLOCKS * MOST_LENGTH], given[MOST_BLOCKS * MOST_LENGTH], sum[MOST_LENGTH];
static unsigned char powers[MOST_BLOCKS];
static size_t tried;

static void fail(const char *what, size_t length, size_t m)
{
    fprintf(stderr, "%s: length %zu, %zu data blocks\n", what, length, m);
    exit(1);
}

static void fill_row(size_t length, size_t m)
{
    unsigned char *p = row + m * length, *q = p + length;
    memset(p, 0, 2 * length);
    for (size_t i = 0; i < m; i++)
        for (size_t k = 0; k < length; k++) {
            unsigned char byte = row[i * length + k] = (unsigned char)(rand() >> 7);
            p[k] ^= byte;
            q[k] ^= products[powers[i]][byte];
        }
}

static struct bytes hand_in(size_t length, size_t m, size_t x, size_t y)
{
    struct bytes bytes = {given, (m + 2) * length};
    memcpy(given, row, bytes.length);
    for (size_t k = 0; k < length; k++) {
        given[x * length + k] = (unsigned char)~row[x * length + k];
        given[y * length + k] = (unsigned char)~row[y * length + k];
    }
    arena_used = made_count = 0;
    return bytes;
}

static int is_there(const unsigned char *block, size_t length)
{
    for (size_t n = 0; n < made_count; n++)
        if (made[n].size == length && memcmp(made[n].begin, block, length) == 0)
            return 1;
    return 0;
}

static void try_parity(size_t length, size_t m)
{
    if (r6_parity_rounds(hand_in(length, m, m, m + 1), length, 1))
        fail("P and Q: refused", length, m);
    if (!is_there(row + m * length, length))
        fail("P", length, m);
    if (!is_there(row + (m + 1) * length, length))
        fail("Q", length, m);
}

static void try_restore(size_t length, size_t m, size_t x, size_t y)
{
    if (r6_restore_rounds(hand_in(length, m, x, y), length, x, y, 1))
        fail("restore: refused", length, m);
    if (!is_there(row + x * length, length) || !is_there(row + y * length, length))
        fail("restore", length, m);
}

/* A full row is found full, and one with a byte changed isn't. */
static void try_check(size_t length, size_t m)
{
    struct bytes bytes = {row, (m + 2) * length};
    size_t at = (size_t)rand() % bytes.length;
    arena_used = made_count = 0;
    if (r6_check_rounds(bytes, length, 1))
        fail("check: a full row", length, m);
    row[at] ^= (unsigned char)(rand() % 255 + 1);
    arena_used = made_count = 0;
    if (!r6_check_rounds(bytes, length, 1))
        fail("check: a row with a changed byte", length, m);
}

static void try_scale_add(size_t length, size_t m)
{
    unsigned char constant = (unsigned char)(rand() % 254 + 2);
    struct bytes bytes = {row, (m + 2) * length};
    for (size_t k = 0; k < length; k++)
        sum[k] = row[k] ^ products[constant][row[length + k]];
    arena_used = made_count = 0;
    if (r6_scale_add_rounds(bytes, length, constant, 1) || !is_there(sum, length))
        fail("a multiple, added", length, m);
}

/* The data block at some index changes from block 0 to block 1: so much is added to P, and so much to Q. */
static void try_delta(size_t length, size_t m)
{
    uint32_t index = (uint32_t)rand() % MOST_BLOCKS;
    struct bytes bytes = {row, (m + 2) * length};
    arena_used = made_count = 0;
    if (r6_delta_rounds(bytes, length, index, 1))
        fail("a change: refused", length, m);
    for (size_t k = 0; k < length; k++)
        sum[k] = row[k] ^ row[length + k];
    if (!is_there(sum, length))
        fail("a change, to P", length, m);
    for (size_t k = 0; k < length; k++)
        sum[k] = products[powers[index]][sum[k]];
    if (!is_there(sum, length))
        fail("a change, to Q", length, m);
}

static void try_row(size_t length, size_t m)
{
    fill_row(length, m);
    size_t x = (size_t)rand() % m, y = (x + 1 + (size_t)rand() % (m - 1)) % m;
    try_parity(length, m);
    try_restore(length, m, x, x);
    try_restore(length, m, x, y);
    try_restore(length, m, x, m);
    try_restore(length, m, x, m + 1);
    try_scale_add(length, m);
    try_delta(length, m);
    try_check(length, m);
    tried++;
}

int main(void)
{
    static const size_t data_blocks[] = {2, 3, 6};
    fill_products();
    for (size_t i = 0, power = 1; i < MOST_BLOCKS; i++, power = product((unsigned char)power, 2))
        powers[i] = (unsigned char)power;
    for (size_t length = 1; length <= MOST_LENGTH; length++) {
        for (size_t n = 0; n < sizeof data_blocks / sizeof *data_blocks; n++)
            for (size_t try = 0; try < (length < SHORT ? TRIES_OF_SHORT : 1); try++)
                try_row(length, data_blocks[n]);
        if (length % 128 == 1 || length == MOST_LENGTH)
            for (size_t m = 30; m >= 29; m--)
                try_row(length, m);
    }
    printf("%zu rows of 1 to %d bytes a block\n", tried, MOST_LENGTH);
    return 0;
}
