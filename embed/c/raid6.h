/* raid6.h: the core of a RAID-6 array, for C and C++.
 *
 * The library has no thread, no device and no clock: the program hands in requests and the completions of its devices,
 * and takes out commands for them and replies. P and Q over 4 to 32 slots, md's left-symmetric layout.
 *
 *   raid6_submit, _next_command .. (a device performs it) .. _deliver, _next_change, _agree, _next_reply
 *
 * THREADS   An object (array, shard, register, command) is used by one call at a time, from any thread. No call blocks,
 *           sleeps or does I/O. Only the _new functions allocate (malloc). An array is driven by one thread; a program
 *           that wants a thread for each of its shards has a handle of each and one of their register (below).
 * BLOCKS    A block is `block` bytes, the unit of requests and commands: no parts of one, and several are not atomic.
 * MEMORY    A command's block is the program's until raid6_deliver: other calls may run while a device works on it. A
 *           reply's block is lent until the next call on its array. raid6_submit and raid6_submit_run copy `data`; no
 *           other block is copied between the program and the library.
 * RESULTS   0 is success. A positive number is a refusal (enum raid6_refusal): the array has not changed, but for NONE of
 *           raid6_turn (a row was passed over) and raid6_next_reply (shards may have seen a loss or a new device), and for
 *           the requests of a run before the one that is refused.
 * DEVICES   (1) A command is performed at most once, before it is delivered, and only by the device of its slot and
 *           generation; one of another generation is delivered with RAID6_GONE. (2) Every command is delivered, to the array
 *           that handed it out, and an error before any command that the device performed after it. (3) A read that
 *           succeeded has what was last written there. (4) A read and a write of one block may be at work together: the
 *           device performs each as a whole. Buffered files don't (torn blocks): use O_DIRECT, or let commands of one
 *           slot and row wait for each other.
 */
#ifndef RAID6_H
#define RAID6_H

#include <stdint.h>

#ifdef __cplusplus
extern "C" {
#endif

struct raid6;          /* an array */
struct raid6_shard;    /* one shard of an array whose shards have a thread each */
struct raid6_register; /* which slots of such an array are in sync, for all its shards */

enum raid6_refusal {
    RAID6_NO_SUCH_BLOCK = 1,  /* the array has no block of this number                                (EINVAL) */
    RAID6_WRONG_SHARD = 2,    /* the array has no shard of this number; another shard has the block; or the register
                               * is of an array of another shape                                      (EINVAL) */
    RAID6_BUSY = 4,           /* 256 requests of the block's shard have no taken reply: take replies  (EAGAIN) */
    RAID6_ARRAY_FAILED = 5,   /* a third slot went out: for good                                         (EIO) */
    RAID6_EXHAUSTED = 6,      /* 2^60 commands or requests                                         (EOVERFLOW) */
    RAID6_NOT_OUT = 7,        /* raid6_deliver: the command holds nothing to deliver                  (EINVAL) */
    RAID6_UNTOLD_FIRST = 8,   /* raid6_shard_look: the shard asks for a change: agree to it first     (EAGAIN) */
    RAID6_NO_FRAME = 9,       /* raid6_turn: 64 rows are held: turn again after a delivery            (EAGAIN) */
    RAID6_NOTHING_TO_DO = 10, /* raid6_turn: no row to rebuild now, or the next row is held           (EAGAIN) */
    RAID6_UNKNOWN_CHANGE = 11, /* raid6_agree: the change isn't asked for any more                    (EINVAL) */
    RAID6_NO_SUCH = 90,       /* no such slot, shard, task or count                                   (EINVAL) */
    RAID6_NONE = 91,          /* nothing to hand out now                                              (EAGAIN) */
    RAID6_IN_USE = 92,        /* raid6_next_command: this one isn't delivered yet                      (EBUSY) */
    RAID6_NO_SLOT = 101,      /* raid6_fail, raid6_lose, raid6_attach, raid6_replace: no such slot    (EINVAL) */
    RAID6_ALREADY_LOST = 102, /* raid6_fail, raid6_lose: the slot is lost                           (EALREADY) */
    RAID6_STALE = 103,        /* raid6_lose: the slot has no device of this generation any more       (ESTALE) */
    RAID6_NOT_LOST = 104,     /* raid6_attach: only a lost slot takes a new device                     (EBUSY) */
    RAID6_SPENT = 107,        /* raid6_attach, raid6_replace: 1,048,575 new devices                   (ENOSPC) */
    RAID6_NOT_IN_SYNC = 109,  /* raid6_replace: the slot is out, or is being replaced                  (EBUSY) */
    RAID6_REPLACING = 110     /* raid6_replace: another slot is being replaced                         (EBUSY) */
};

/* The errno of a refusal of the list; 0 of 0. Not for the numbers of the _new functions. */
int raid6_errno(int refusal);

struct raid6_shape {
    uint64_t slots;    /* devices, P and Q included: 4 to 32 */
    uint64_t chunk;    /* blocks that follow one another on a device: 1 to 128 */
    uint64_t block;    /* bytes: 16 to 4,096, a multiple of 16; blocks of 4,096 alone are aligned for O_DIRECT */
    uint64_t rows;     /* blocks of a device: 1 to 16,777,216, a multiple of chunk */
    uint64_t shards;   /* cores: 1 to 16, at most rows / chunk. Each holds 64 rows and takes 256 requests at a time. */
    uint64_t window;   /* rows of a slot and shard that are rebuilt at a time: 1 to 8 */
    uint32_t lost;     /* a bit for each slot that has no device at the start: at most two */
    uint32_t reserved; /* to be 0; it isn't looked at */
};

enum raid6_fault {
    RAID6_OK = 0,
    RAID6_READ_FAULT = 1,  /* a block couldn't be read; the device goes on, and may take it anew */
    RAID6_WRITE_FAULT = 2, /* a block couldn't be written */
    RAID6_GONE = 3,        /* the device is there no more */
    RAID6_LENGTH = 4       /* the device ends before the row; every higher number is taken for this one */
};

struct raid6_command { /* made by raid6_command_new alone: more lies behind */
    uint32_t fault;      /* the program's: enum raid6_fault. It is RAID6_OK when the command is handed out, so one that
                            was not performed has to be given its fault before it is delivered */
    uint32_t is_write;
    uint64_t slot, shard;
    uint64_t row;        /* the block of the device, from 0: its byte offset is row * block */
    uint32_t generation; /* 0, or what raid6_attach or raid6_replace gave for the device */
    uint32_t reserved;
    void *block;         /* a write's data, or where a read's go; aligned to 4,096 if it has that length, else as malloc
                            aligns. It may change at each raid6_next_command. */
};

enum { RAID6_DATA = 0, RAID6_DONE = 1, RAID6_FAILED = 2 };
struct raid6_reply {
    uint64_t user_data; /* as raid6_submit got it */
    const void *block;  /* RAID6_DATA: the block, lent */
    uint32_t kind;      /* RAID6_DATA (a read), RAID6_DONE (a write), RAID6_FAILED: it acted or it did not */
    uint32_t reserved;
};

enum { RAID6_IN_SYNC = 0, RAID6_LOST = 1, RAID6_REBUILDING = 2 };
struct raid6_change {
    uint32_t slot, generation, shard;
    uint32_t state; /* of the slot's device with this generation. RAID6_LOST: it failed. RAID6_IN_SYNC: this shard has
                     * rebuilt its rows on it. The other device of a slot that is being replaced isn't meant */
};

/* Makes an array over devices that are consistent (zeros are). The _new functions don't refuse by enum raid6_refusal, but
 * by numbers that say what is wrong: 1 slots, 2 chunk, 3 block, 4 rows, 5 shards, 6 window, 7 lost, 8 no memory. To free
 * an array: deliver the commands that are out, free all its commands, then the array. To free NULL does nothing. */
int raid6_new(const struct raid6_shape *shape, struct raid6 **array);
void raid6_free(struct raid6 *array);
uint64_t raid6_blocks(struct raid6 *array);

/* Makes room for one command. A program makes as many as its devices are to work on at a time; a shard never has more
 * than 64 * (slots + 2) out. A command works with an array of any shape: while it is out, `block` is the array's, with the
 * length of the array's blocks. Free it only while it isn't out. Refusals: 1 to 5 and 8 of raid6_new. */
int raid6_command_new(const struct raid6_shape *shape, struct raid6_command **command);
void raid6_command_free(struct raid6 *array, struct raid6_command *command);

/* Hands in a request for one block: data NULL reads, else writes. Its reply, which may come at any later raid6_next_reply,
 * brings user_data. Refusals: NO_SUCH_BLOCK, ARRAY_FAILED, EXHAUSTED, BUSY. While every shard has 256 requests whose
 * replies aren't taken, the answer is BUSY, also where another refusal applies. raid6_room: how many more requests the
 * shard of a block takes; 0 also if there is no such block. */
int raid6_submit(struct raid6 *array, uint64_t block, const void *data, uint64_t user_data);
uint64_t raid6_room(struct raid6 *array, uint64_t block);

/* Hands in several requests, in their order, up to the first that is refused: 0, or its refusal, as of raid6_submit; *taken
 * says how many came before it. They begin together, up to 256 of a shard, and writes that cover a row read nothing: so
 * hand in a multiple of (slots - 2) * chunk blocks that begins at such a multiple. */
struct raid6_request {
    uint64_t block, user_data;
    const void *data;
};
int raid6_submit_run(struct raid6 *array, const struct raid6_request *run, uint64_t count, uint64_t *taken);

/* Fills in the next command for a device. Call it until NONE after each other call. Refusals: NONE, IN_USE. */
int raid6_next_command(struct raid6 *array, struct raid6_command *command);

/* Hands in the completion of a command. A fault takes its device out in its shard, which goes on without it and asks for
 * a change. But no device is lost by the READ_FAULT of a block's first read:
 *
 * - If it was read for a request of this block alone, it is read once more. If that fails too, and at once where the row
 *   was read for something else, the shard reads other blocks of the row, computes this one from them, writes it to its
 *   device anew, and reads it again. A fault of that write, or of the read after it, takes the device out.
 * - That needs slots - 2 blocks of the row that can be read. If there are fewer, and a slot that is being replaced has the
 *   block on its second device too, its first device is taken out, and the second is read. If there is no such slot, each
 *   slot whose block couldn't be read goes out: then three slots are out, and the array has failed.
 * - A check or repair for which a slot of the row went out while it read, and a rebuild whose new device went out, give the
 *   row up: nothing more is written there, and no slot goes out because too few blocks can be read.
 *
 * Refusal: NOT_OUT. */
int raid6_deliver(struct raid6 *array, struct raid6_command *command);

/* The change that a shard asks for, until raid6_agree makes it. Until then no reply of that shard is handed out: write
 * down that the slot is LOST, and sync that, before agreeing, or after a restart its old blocks would be read. Refusals:
 * NONE; of raid6_agree NONE if raid6_next_change didn't tell one, UNKNOWN_CHANGE. */
int raid6_next_change(struct raid6 *array, struct raid6_change *change);
int raid6_agree(struct raid6 *array);

/* Takes the next reply. Call it until NONE, then raid6_next_command: replies may let more begin. Here the shards also see
 * what raid6_fail, _lose, _attach and _replace did. */
int raid6_next_reply(struct raid6 *array, struct raid6_reply *reply);

/* As `mdadm --fail`: takes the slot out, with both its devices if it is being replaced. Write it down before. Refusals:
 * NO_SLOT, ARRAY_FAILED, ALREADY_LOST. */
int raid6_fail(struct raid6 *array, unsigned slot);

/* Takes out the slot's device of this generation, which failed without a command: a sync of it failed, it was pulled, or
 * it is silent. Write it down before, as a change that is LOST. The slot's other device stays, if it has one: *kept (or
 * NULL) says whether that one has the slot in sync, as the first of two has. Shards go on with the device until they look:
 * so take replies until NONE before another command is delivered, and deliver with RAID6_GONE what the device answers after
 * it failed. What a silent one doesn't answer stays out, and the array goes on without it. Refusals: NO_SLOT,
 * ARRAY_FAILED, ALREADY_LOST, STALE. */
int raid6_lose(struct raid6 *array, unsigned slot, uint32_t generation, int *kept);

/* As `mdadm --add`: a lost slot gets a new device, whose blocks don't matter, and which turns rebuild. Before, wait until
 * raid6_at_work is 0: it counts the commands of the slot that are out, of both devices if it had two. The slot counts as
 * out until raid6_slot is IN_SYNC. Refusals: NO_SLOT, ARRAY_FAILED, NOT_LOST, SPENT. */
int raid6_attach(struct raid6 *array, unsigned slot, uint32_t *generation);
uint64_t raid6_at_work(struct raid6 *array, unsigned slot);

/* As `mdadm --replace`: a slot in sync gets a second device, whose blocks don't matter. The first stays in use while turns
 * rebuild the rows on the second. A write of a row that is rebuilt goes to both; a command says by its generation to which
 * of the two it goes. When each shard has rebuilt its rows, and these changes are agreed to, the second device is the
 * slot's. The shards see that in raid6_next_reply (a handle in raid6_shard_look), and use the first device until then. So
 * leave the first as it is until no change is asked for and raid6_next_reply answers NONE (until each handle has looked),
 * and none of its commands is out. If the second is lost meanwhile, the slot keeps the first. If the first is lost, the
 * slot is rebuilding on the second, as after raid6_attach; else raid6_slot says IN_SYNC throughout. Refusals: NO_SLOT,
 * ARRAY_FAILED, NOT_IN_SYNC, REPLACING, SPENT. */
int raid6_replace(struct raid6 *array, unsigned slot, uint32_t *generation);

/* Begins the next row of a task in a shard. The shard comes first, then the task, here and in raid6_progress: a C compiler
 * doesn't see it if they are exchanged. NONE: the row was passed over, since a slot is out (CHECK, REPAIR). A rebuild is
 * done when the slot is IN_SYNC; a check goes round, a row a call, and a row that met a READ_FAULT counts as SKIPPED.
 * Refusals: NO_SUCH for the task, WRONG_SHARD, ARRAY_FAILED, EXHAUSTED, NOTHING_TO_DO, NO_FRAME. */
enum { RAID6_REBUILD = 0, RAID6_CHECK = 1, RAID6_REPAIR = 2 };
int raid6_turn(struct raid6 *array, unsigned shard, int task);

/* How far a task is in a shard: its next row, of the shard's rows from *first up to *end; of RAID6_REBUILD the slot's first
 * that isn't rebuilt. Refusals: NO_SUCH, also where the shard has not seen a new device of the slot, or has rebuilt it. */
int raid6_progress(struct raid6 *array, unsigned shard, int task, unsigned slot, uint64_t *row, uint64_t *first,
                   uint64_t *end);

/* The state of a slot, IN_SYNC also while it is being replaced (-1: no such slot); *failed (or NULL) says whether the
 * array has failed. One of a shard's counts since it was made; 0 for no such shard or count. */
enum { RAID6_CONSISTENT, RAID6_WRONG_P, RAID6_WRONG_Q, RAID6_WRONG_DATA, RAID6_MANY, RAID6_SKIPPED, RAID6_REPAIRED,
       RAID6_REBUILT };
int raid6_slot(struct raid6 *array, unsigned slot, int *failed);
uint64_t raid6_count(struct raid6 *array, unsigned shard, int which);

/* A THREAD FOR EACH SHARD. A program makes one register, and at it a handle of each shard, all before it attaches a device.
 * It has a lock of its own for the register, which it holds in the calls that take one, and in no other: each thread works
 * on its shard, and hands in the requests of its shard's blocks alone.
 *
 *   raid6_shard_submit -> raid6_shard_next_command .. (a device performs it) .. raid6_shard_deliver ->
 *   raid6_shard_next_change -> [ raid6_shard_agree ] -> [ raid6_shard_look ] -> raid6_shard_next_reply
 *
 * A call does what the call of this name does to an array, in the one shard. But replies are released by raid6_shard_look
 * alone, and by it alone the shard sees what others did to the register: their losses, and raid6_register_fail,
 * _lose, _attach and _replace. */

/* The shard that has a block; -1: no such block, or no such shape. */
int raid6_shard_of(const struct raid6_shape *shape, uint64_t block);

/* Makes a register: all slots in sync but the lost ones. Refusals: 1 to 5, 7 and 8 of raid6_new. Free it after its
 * shards. */
int raid6_register_new(const struct raid6_shape *shape, struct raid6_register **reg);
void raid6_register_free(struct raid6_register *reg);

/* As raid6_fail, _lose, _attach, _replace and _slot. After a loss each shard looks before another command is delivered to
 * it. Before an attach each shard looks, once the slot is lost, and then has no command for it out (raid6_shard_at_work
 * is 0). */
int raid6_register_fail(struct raid6_register *reg, unsigned slot);
int raid6_register_lose(struct raid6_register *reg, unsigned slot, uint32_t generation, int *kept);
int raid6_register_attach(struct raid6_register *reg, unsigned slot, uint32_t *generation);
int raid6_register_replace(struct raid6_register *reg, unsigned slot, uint32_t *generation);
int raid6_register_slot(struct raid6_register *reg, unsigned slot, int *failed);

/* Makes the shard of this number at its register, with the window of the register's shape. Refusals: 6 and 8 of raid6_new,
 * 9 no such shard, 10 a device was attached, or the array has failed. */
int raid6_shard_new(struct raid6_register *reg, unsigned shard, struct raid6_shard **out);
void raid6_shard_free(struct raid6_shard *shard);
/* Frees a command of raid6_command_new that is delivered, or was never filled in. */
void raid6_shard_command_free(struct raid6_shard *shard, struct raid6_command *command);

/* Refusals of submit: NO_SUCH_BLOCK, WRONG_SHARD, ARRAY_FAILED, EXHAUSTED, BUSY. While the shard has 256 requests whose
 * replies aren't taken, the answer is BUSY, also where another refusal applies. raid6_shard_room: how many more it takes. */
int raid6_shard_submit(struct raid6_shard *shard, uint64_t block, const void *data, uint64_t user_data);
int raid6_shard_submit_run(struct raid6_shard *shard, const struct raid6_request *run, uint64_t count, uint64_t *taken);
uint64_t raid6_shard_room(struct raid6_shard *shard);
int raid6_shard_next_command(struct raid6_shard *shard, struct raid6_command *command);
int raid6_shard_deliver(struct raid6_shard *shard, struct raid6_command *command);

/* The change that the shard asks for. With the lock held it is agreed to, and once no change is asked for the shard looks:
 * after deliveries, after changes, and now and then, since others change the register too. Refusals of agree: NONE if
 * raid6_shard_next_change didn't tell one, WRONG_SHARD, UNKNOWN_CHANGE; of look: WRONG_SHARD, UNTOLD_FIRST. */
int raid6_shard_next_change(struct raid6_shard *shard, struct raid6_change *change);
int raid6_shard_agree(struct raid6_shard *shard, struct raid6_register *reg);
int raid6_shard_look(struct raid6_shard *shard, struct raid6_register *reg);

/* None while a change is asked for. A reply's block is lent until the next call on its shard. */
int raid6_shard_next_reply(struct raid6_shard *shard, struct raid6_reply *reply);

uint64_t raid6_shard_at_work(struct raid6_shard *shard, unsigned slot);
int raid6_shard_turn(struct raid6_shard *shard, int task);
int raid6_shard_progress(struct raid6_shard *shard, int task, unsigned slot, uint64_t *row, uint64_t *first,
                         uint64_t *end);
uint64_t raid6_shard_count(struct raid6_shard *shard, int which);

#ifdef __cplusplus
}
#endif
#endif
