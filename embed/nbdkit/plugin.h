/* The parts of the plugin. raid6-plugin.c has nbdkit's calls; array.c has the array and its thread; losses.c what becomes of
 * members that fail or are replaced; orders.c the orders, with rebuilds and checks; member.c what waits at a member; store.c
 * and ring.c the system calls on member files; state.c what a later start has to know.
 *
 * All that isn't said to be otherwise is of the array's thread alone, once it has started.
 */
#ifndef PLUGIN_H
#define PLUGIN_H

#include <pthread.h>
#include <semaphore.h>
#include <stdbool.h>
#include <stdint.h>

#include "raid6.h"

enum { BLOCK = 4096, MOST_SLOTS = 32, MOST_SHARDS = 16, MOST_PATH = 4096, MOST_DEPTH = 256 };
enum { PAUSE = 500, MINUTE = 60000 }; /* milliseconds */

/* What comes in for the array: the head of a struct of this kind. */
struct item {
    struct item *next;
    enum { REQUEST, ORDER, OPENED, CALL, STOP } kind;
};

struct list {
    struct item *first, *last; /* `last` counts only where there is a first */
};

void list_add(struct list *, struct item *);
void list_add_first(struct list *, struct item *);
struct item *list_take(struct list *); /* the first; NULL: none */

/* A sync of a member that somebody waits for: `end` is called once, and the part is free then. */
struct part {
    void (*end)(struct part *, bool has_failed);
    struct request *request; /* of a flush */
    struct member *member;
};

/* Of whole blocks. Whoever hands it in waits for `done`. A flush has a part for each member, the second too. */
struct request {
    struct item item;
    enum act { READ, WRITE, FLUSH } act;
    int error;
    uint8_t *data;
    uint64_t block, count, submitted, answered;
    sem_t done;
    struct part parts[];
};

struct order {
    struct item item;
    struct opening *opening; /* of the file that it names, once that has begun */
    char text[MOST_PATH + 32];
};

/* A command of the array, and where it is at its member. */
struct work {
    struct item item; /* in a list of such that wait or are at work together */
    struct raid6_command *command;
    struct member *member;
    struct work *next_of_list;         /* of the rows that share a list in the member's table */
    struct work *follower, *last;      /* those of the same row that wait for it; `last` counts where there is one */
    struct work *before, *after;       /* in a queue */
    struct works *queue;               /* that it stands in; NULL: it is at work, or follows another */
    struct call *call;                 /* by which it is at work */
    uint64_t since, due;               /* when it first failed; when it is tried again */
    unsigned tries;
    bool is_alone;                     /* it failed among others, and is not to be merged again */
};

struct works {
    struct work *first, *last;
};

/* A system call on a member's file: rows that follow one another, by a buffer of its own, or the whole file. Once nobody
 * waits for it it goes on with its buffer alone. */
struct call {
    struct item item;
    enum { READ_ROWS, WRITE_ROWS, SYNC_FILE, FORGET_ROWS } act;
    struct store *store;
    uint64_t row, count;
    uint8_t *buffer; /* of MOST_MERGED blocks */
    uint64_t done;   /* bytes, by whoever performs it */
    int error;       /* an errno; or FILE_ENDS */
    struct member *member;      /* NULL: nobody waits for it */
    struct call *older, *newer; /* of the calls at work of the member */
    uint64_t begun;
    struct list works;  /* in the order of their rows */
    struct part *part;  /* of a sync */
};

enum { MOST_MERGED = 64, FILE_ENDS = -1, ROW_LISTS = 1024 };
#define NO_ROW UINT64_MAX

/* An open member file, and what performs calls on it: the ring, or threads. */
struct store {
    int file;
    bool is_let_go, has_ring;
    unsigned slot;     /* for the log */
    unsigned at_work;  /* calls that haven't come back */
    pthread_mutex_t lock;  /* of what follows */
    pthread_cond_t filled;
    struct list calls;     /* that nobody has begun */
    unsigned threads, busy, queued;
    bool ends;
};

struct member {
    char path[MOST_PATH];
    unsigned slot;
    uint32_t generation;
    bool is_lost;    /* as the state file has it, of a slot's own member */
    bool is_broken;  /* it gets no more commands */
    struct store *store;   /* NULL: it has no file */
    uint8_t *unread; /* a bit for each row whose last read failed and that isn't written since */
    struct work *rows[ROW_LISTS]; /* the first of each row that it has commands of */
    struct works ready;
    struct call *oldest, *newest; /* of those at work */
    unsigned commands, calls;     /* that it has; at work */
    unsigned errors;              /* read errors that the array was told, since `minute` */
    uint64_t minute, told;        /* `told`: when the log had one that is tried again */
    uint64_t excused;             /* until then its silence doesn't count */
};

extern struct raid6_shape shape;
extern struct raid6 *array;
extern struct member *members[MOST_SLOTS]; /* the one that each slot has */
extern struct member *second;              /* the one that is to replace another, or that has gone, while it has commands */
extern bool is_replacing;                  /* a slot is being replaced, by the second member */
extern int is_direct;                      /* members are opened with O_DIRECT */
extern uint64_t depth, timeout, retries, most_errors, speed; /* parameters; timeout in seconds, speed in KiB a second */
extern uint64_t now;   /* milliseconds */
extern uint64_t heard; /* when the thread last asked: what came back before it has come in */
uint64_t clock_now(void);
enum io { IO_BEST, IO_RING, IO_THREADS };
extern enum io io;

void tell(const char *format, ...) __attribute__((format(printf, 1, 2)));

/* store.c: NULL, or why not. An open file is locked, against a second server and against a second slot. */
const char *store_open(struct store **, unsigned slot, const char *path, bool may_grow);
bool store_start(struct store *);
void store_put(struct store *, struct call *);
void store_end(struct store *); /* nothing of it is at work */

/* ring.c */
#ifdef HAS_RING
bool ring_make(void);         /* whether there is one */
void ring_put(struct call *); /* to be begun at a turn */
struct item *ring_turn(bool waits, uint64_t due);
void ring_wake(void);         /* by any thread */
void ring_end(void);
#else
static inline bool ring_make(void) { return false; }
static inline void ring_put(struct call *c) { (void)c; }
static inline struct item *ring_turn(bool waits, uint64_t due) { return (void)waits, (void)due, NULL; }
static inline void ring_wake(void) {}
static inline void ring_end(void) {}
#endif

/* member.c. Commands of one row are performed in the order in which they came. */
const char *member_open(struct member *, bool may_grow);
const char *member_exchange(struct member *, const char *path, struct store *);
bool member_make(struct member *);
void member_give(struct member *, struct work *);
void member_sync(struct member *, struct part *);
void member_begin(struct member *); /* what waits, as far as its depth goes */
void member_take_back(struct member *); /* all that it has is answered, and it gets no more */
void member_let_go(struct member *);    /* and its file is closed once nothing is at work */
void member_receive(struct call *);
bool member_is_silent(const struct member *, uint64_t milliseconds);
bool is_unread(const struct member *, uint64_t row);
unsigned member_calls_left(unsigned slot); /* files of it that were let go and whose calls haven't come back */
void members_free(void);
bool members_retry(void); /* what is due */
uint64_t members_due(void); /* when something is, at the latest; UINT64_MAX: never */

/* losses.c */
bool has_second(uint64_t slot);
bool has_failed(void);
bool is_live(const struct member *);
struct member *member_of(uint64_t slot, uint32_t generation);
bool is_third(const struct member *, uint64_t row);
void lose(unsigned slot);
void lose_member(struct member *, const char *why);
void lose_silent(void);
bool make_changes(void);
void close_gone(void);
extern uint32_t reports; /* a bit for each shard that has rebuilt its rows on the second */

/* orders.c */
bool obey_all(void);
void order_add(struct order *);
void order_opened(struct item *);
uint64_t orders_due(void);
bool turn(void);

/* state.c. write_down returns once it is on disk that a slot has this member, and whether it is lost; or not at all. */
extern const char *state_path;
const char *state_lock(void); /* against a second server, as long as this one lives */
void state_unlock(void);
const char *state_load(bool *is_there);
bool state_save(void);
void write_down(struct member *, bool is_lost);

/* array.c */
const char *array_make(void);
const char *array_start(void);
void array_stop(void);
void array_hand(struct item *); /* by any thread */
extern bool has_ring, is_ending; /* `is_ending`: nothing is done any more but the last syncs */
void deliver(struct work *, enum raid6_fault);
bool answer_requests(void);

#endif
