/* What the files of the benchmark share: a task on a row, and the libraries that do it. */
#include <stddef.h>
#include <stdint.h>

enum { LENGTH = 4096, MOST_DATA = 16, MOST_BLOCKS = MOST_DATA + 2, FACTOR = 0x8e };

enum work {
    PARITY,    /* P and Q from the data */
    RESTORE,   /* the blocks at x and y, which may be one, from the others */
    CHECK,     /* whether P and Q are those of the data */
    SCALE_ADD, /* FACTOR times block 1, added to the first block of `made` */
};

struct task {
    enum work work;
    size_t m, x, y;
    unsigned char *blocks[MOST_BLOCKS]; /* the m blocks of data, then P, then Q */
    unsigned char *made[2];             /* where P and Q, or the blocks at x and y, go */
};

struct library {
    const char *name;
    size_t (*ways)(const struct task *task); /* in how many ways it can do the task */
    void (*choose)(const struct task *task, size_t way);
    void (*round)(const struct task *task);
};

extern const struct library c_lanes, isal, linux_raid6;

double thread_seconds(void);
unsigned char product(unsigned char a, unsigned char b);
unsigned char power_of_2(size_t exponent);
