/* A library to preload: it counts the commands that a program gives to its device files, and fails some of them with EIO.
 *
 * A command is a pread or a pwrite of one block on one of the files that FAULTS names, whoever opened it and however often;
 * all other files are left alone. Where BLOCK is named, it may be one of several blocks that follow one another, which fails
 * whole if one of its rows is to. From the environment:
 *
 *   FAULTS=LINES    a line `KIND N SEED PATH` for each device file, which is there
 *   COUNTS=FILE     the file for the counts below, one record a line, which is there and long enough
 *   TRACE=FILE      if it is named: the file for a record of each command, as below, which is there and long enough
 *   PAUSE=N         a command may wait up to N microseconds before it begins, as the seed of its file says
 *   WAIT=N          each command waits N microseconds before it begins
 *   BLOCK=N         the bytes of a block
 *
 * The commands of a file are numbered from 0. By its kind
 *
 *   none            fails none
 *   gone            fails the N-th and all behind it: the device was pulled
 *   some            fails each by itself, N of a thousand, as the seed says
 *   reads, writes   fails so only reads, or only writes
 *   bad             fails each read of a bad row until the row is written: of row N, and each SEED-th from there on
 *   worn            fails each read and each write of these rows
 *   blip            fails each read while there is a file of the device's name with `.fails` after it
 *   stall           no command comes back, and no sync, while there is one with `.hangs`
 *   hang            the same, and a read that hung gives other bytes than stand there, for a while before it comes back
 *
 * A write that fails was done, or half, or not at all, as the seed says. Six kinds are wrong, to show that a check sees
 * it. Of a thousand commands, as before,
 *
 *   lose            N writes are answered as done and weren't
 *   hide            N fail and aren't counted as failed
 *   deny            N reads fail, and then each write of the row, which isn't counted as failed: so a device is lost of
 *                   which one read failed
 *   spoil           N reads give another byte than stands there
 *
 * and, where N is the place of another line of FAULTS, counted from 0,
 *
 *   other           reads give what stands on that device, once it had a command: so a new device is read that isn't
 *                   built, or an old one that was let go
 *   drag            writes fail once one failed there, and aren't counted as failed: so a new device takes the old one
 *                   with it
 */
#define _GNU_SOURCE
#include <dlfcn.h>
#include <errno.h>
#include <fcntl.h>
#include <stdatomic.h>
#include <stdbool.h>
#include <stdint.h>
#include <stdio.h>
#include <stdlib.h>
#include <string.h>
#include <sys/mman.h>
#include <sys/stat.h>
#include <unistd.h>

enum { MOST = 128, ROWS = 1 << 14, TRACED = 1 << 17 };

enum kind { NONE, GONE, SOME, READS, WRITES, BAD, WORN, BLIP, STALL, HANG, LOSE, HIDE, DENY, SPOIL, OTHER, DRAG, KINDS };

static const char *const kinds[] = {"none", "gone", "some", "reads", "writes", "bad",   "worn",  "blip",
                                    "stall", "hang", "lose", "hide", "deny", "spoil", "other", "drag"};

/* In the order in which checks/random_faults and checks/nbdkit read them. `again` are the failed reads of rows that were
 * written after a read of them had failed: those of a block that was written anew are among them. `renewed` are the bad
 * rows that were written. Where BLOCK is named `wrong` also counts the rows of a command of which another was at work when
 * it began. */
struct counts {
    atomic_long commands, writes, failed_reads, failed_writes, again, renewed, wrong;
};

static atomic_int at_work[MOST][ROWS]; /* commands of a row */

/* A command as it is written down, in the order in which they begin. That of the commands of one row of a device is certain,
 * since one thread performs them. After the last one the file has zeros. */
struct traced {
    uint16_t device, row;
    uint8_t writes, fails;
    uint16_t is_there;
};

/* What became of a row. One thread performs the commands of a row of a device. */
struct row {
    bool is_unread, is_written; /* a read failed; and the row was written after it */
    bool is_renewed;            /* a bad row was written */
};

static struct device {
    enum kind kind;
    long n;
    uint64_t seed;
    dev_t device;
    ino_t inode;
    int other; /* of the kinds `other` and `drag`: the other device's file, open */
} devices[MOST];

static struct row rows[MOST][ROWS];
static int count;
static long pause_most, pause_least, block_bytes;
static struct counts *counts;
static struct traced *trace;
static atomic_int traced;
static char paths[MOST][4096];
static ssize_t (*next_pread)(int, void *, size_t, off_t);
static ssize_t (*next_pwrite)(int, const void *, size_t, off_t);
static int (*next_fdatasync)(int);

static void fail(const char *why)
{
    fprintf(stderr, "faults: %s\n", why);
    abort();
}

static void add(const char *line)
{
    struct device *device = &devices[count];
    char word[16], path[4096];
    unsigned long long seed;
    struct stat found;
    if (count == MOST || sscanf(line, "%15s %ld %llu %4095[^\n]", word, &device->n, &seed, path) != 4)
        fail("a line of FAULTS");
    if (stat(path, &found) != 0)
        fail("a device file isn't there");
    while (device->kind < KINDS && strcmp(kinds[device->kind], word) != 0)
        device->kind++;
    if (device->kind == KINDS || ((device->kind == BAD || device->kind == WORN) && seed == 0))
        fail("a kind, or its seed");
    device->seed = seed;
    strcpy(paths[count], path);
    device->device = found.st_dev;
    device->inode = found.st_ino;
    count++;
}

static void *mapped(const char *file, size_t size)
{
    int handle = open(file, O_RDWR);
    void *found = mmap(NULL, size, PROT_READ | PROT_WRITE, MAP_SHARED, handle, 0);
    if (found == MAP_FAILED)
        fail("a file for what is counted");
    close(handle);
    return found;
}

/* Opens the files of other devices that lines name by their places. */
static void open_others(void)
{
    for (int at = 0; at < count; at++) {
        struct device *device = &devices[at];
        if (device->kind != OTHER && device->kind != DRAG)
            continue;
        if (device->n < 0 || device->n >= count || (device->other = open(paths[device->n], O_RDONLY)) < 0)
            fail("a place in FAULTS");
    }
}

/* Runs before the program. */
__attribute__((constructor)) static void begin(void)
{
    next_pread = dlsym(RTLD_NEXT, "pread");
    next_pwrite = dlsym(RTLD_NEXT, "pwrite");
    next_fdatasync = dlsym(RTLD_NEXT, "fdatasync");
    const char *lines = getenv("FAULTS"), *file = getenv("COUNTS"), *all = getenv("TRACE"), *most = getenv("PAUSE");
    const char *bytes = getenv("BLOCK"), *least = getenv("WAIT");
    if (!lines || !file)
        return;
    while (*lines) {
        add(lines);
        lines += strcspn(lines, "\n");
        lines += *lines == '\n';
    }
    pause_most = most ? atol(most) : 0;
    pause_least = least ? atol(least) : 0;
    block_bytes = bytes ? atol(bytes) : 0;
    open_others();
    if (all)
        trace = mapped(all, sizeof *trace * TRACED);
    counts = mapped(file, sizeof *counts * MOST);
}

/* The device file that is open here, or -1: counts stay where they are, so it is found by its number. */
static int device_of(int handle)
{
    struct stat found;
    if (count == 0 || fstat(handle, &found) != 0)
        return -1;
    for (int at = 0; at < count; at++)
        if (devices[at].inode == found.st_ino && devices[at].device == found.st_dev)
            return at;
    return -1;
}

/* A number for a command of a file, by splitmix64; `use` tells apart what it is asked for. */
static uint64_t drawn(int at, long command, uint64_t use)
{
    uint64_t it = devices[at].seed * 0x9e3779b97f4a7c15 + (uint64_t)command * 8 + use;
    it += 0x9e3779b97f4a7c15;
    it = (it ^ (it >> 30)) * 0xbf58476d1ce4e5b9;
    it = (it ^ (it >> 27)) * 0x94d049bb133111eb;
    return it ^ (it >> 31);
}

enum fate { DONE, FAILED, LOST, SPOILED };

struct command {
    int at;
    long number, row, end; /* of its rows, up to the end */
    bool writes;
};

static struct row *row_of(const struct command *it) { return &rows[it->at][it->row]; }

static bool is_bad(const struct command *it, long row)
{
    const struct device *device = &devices[it->at];
    return row >= device->n && (uint64_t)(row - device->n) % device->seed == 0;
}

/* Whether one of its rows is bad, and of kind `bad` not written. */
static bool meets_bad(const struct command *it)
{
    bool is_met = false;
    for (long row = it->row; row < it->end; row++)
        is_met |= is_bad(it, row) && (devices[it->at].kind == WORN || !rows[it->at][row].is_renewed);
    return is_met;
}

/* Whether there is a file of the device's name with these letters after it. */
static bool is_told(int at, const char *end)
{
    char path[4096 + 8];
    snprintf(path, sizeof path, "%s%s", paths[at], end);
    return access(path, F_OK) == 0;
}

static bool has_hung(int at)
{
    bool hangs = false;
    for (; at >= 0 && (devices[at].kind == HANG || devices[at].kind == STALL) && is_told(at, ".hangs"); hangs = true)
        usleep(10000);
    return hangs;
}

static enum fate fate_of(const struct command *it)
{
    const struct device *device = &devices[it->at];
    bool chosen = (long)(drawn(it->at, it->number, 0) % 1000) < device->n;
    switch (device->kind) {
    case GONE:
        return it->number >= device->n ? FAILED : DONE;
    case SOME:
    case HIDE:
        return chosen ? FAILED : DONE;
    case READS:
        return chosen && !it->writes ? FAILED : DONE;
    case WRITES:
        return chosen && it->writes ? FAILED : DONE;
    case BAD:
        return !it->writes && meets_bad(it) ? FAILED : DONE;
    case WORN:
        return meets_bad(it) ? FAILED : DONE;
    case BLIP:
        return !it->writes && is_told(it->at, ".fails") ? FAILED : DONE;
    case DRAG:
        return it->writes && atomic_load(&counts[device->n].failed_writes) > 0 ? FAILED : DONE;
    case DENY:
        return (it->writes ? row_of(it)->is_unread : chosen) ? FAILED : DONE;
    case LOSE:
        return chosen && it->writes ? LOST : DONE;
    case SPOIL:
        return chosen && !it->writes ? SPOILED : DONE;
    default:
        return DONE;
    }
}

/* Counts a command of a device file. */
static struct command begun(int at, size_t size, off_t offset, bool writes)
{
    off_t block = block_bytes ? block_bytes : (off_t)size;
    struct command it = {.at = at, .row = offset / block, .end = (offset + (off_t)size) / block, .writes = writes};
    if (it.end > ROWS || offset % block || size % (size_t)block)
        fail("a row");
    it.number = atomic_fetch_add(&counts[at].commands, 1);
    atomic_fetch_add(&counts[at].writes, writes);
    if (pause_least > 0)
        usleep((useconds_t)pause_least);
    if (pause_most > 0 && drawn(at, it.number, 1) % 8 == 0)
        usleep((useconds_t)(drawn(at, it.number, 2) % (uint64_t)pause_most));
    return it;
}

static void enter(const struct command *it)
{
    for (long row = it->row; block_bytes && row < it->end; row++)
        atomic_fetch_add(&counts[it->at].wrong, atomic_fetch_add(&at_work[it->at][row], 1) != 0);
}

static void leave(const struct command *it)
{
    for (long row = it->row; block_bytes && row < it->end; row++)
        atomic_fetch_sub(&at_work[it->at][row], 1);
}

static void note_failed(const struct command *it)
{
    struct counts *of = &counts[it->at];
    atomic_fetch_add(it->writes ? &of->failed_writes : &of->failed_reads, 1);
    atomic_fetch_add(&of->again, !it->writes && row_of(it)->is_written);
    row_of(it)->is_unread |= !it->writes;
}

static void write_down(const struct command *it, bool fails)
{
    int next = atomic_fetch_add(&traced, 1);
    if (next >= TRACED)
        fail("TRACE is full");
    trace[next] = (struct traced){(uint16_t)it->at, (uint16_t)it->row, it->writes, fails, 1};
}

/* Counts how it ends. */
static void note(const struct command *it, enum fate fate)
{
    struct row *row = row_of(it);
    enum kind kind = devices[it->at].kind;
    bool is_hidden = kind == HIDE || kind == DRAG || (kind == DENY && it->writes);
    if (fate == LOST || fate == SPOILED || (fate == FAILED && is_hidden))
        atomic_fetch_add(&counts[it->at].wrong, 1);
    else if (fate == FAILED)
        note_failed(it);
    if (trace)
        write_down(it, fate == FAILED && !is_hidden);
    for (long at = it->row; it->writes && fate == DONE && kind == BAD && at < it->end; at++) {
        atomic_fetch_add(&counts[it->at].renewed, is_bad(it, at) && !rows[it->at][at].is_renewed);
        rows[it->at][at].is_renewed |= is_bad(it, at);
    }
    row->is_written |= it->writes && row->is_unread;
}

/* The block of the other device in the place of this one. */
static void exchange(int at, void *bytes, size_t size, off_t offset)
{
    char other[size];
    if (atomic_load(&counts[devices[at].n].commands) == 0)
        return;
    if (next_pread(devices[at].other, other, size, offset) != (ssize_t)size)
        fail("another device's block");
    atomic_fetch_add(&counts[at].wrong, memcmp(bytes, other, size) != 0);
    memcpy(bytes, other, size);
}

/* Whose memory it is meanwhile loses what it writes there. */
static void scribble(void *bytes, size_t size)
{
    for (int times = 0; times < 500; times++) {
        memset(bytes, 0xee, size);
        usleep(1000);
    }
}

static ssize_t read_whole(const struct command *it, int handle, void *bytes, size_t size, off_t offset)
{
    enum fate fate = fate_of(it);
    note(it, fate);
    if (fate == FAILED) {
        errno = EIO;
        return -1;
    }
    bool hung = has_hung(it->at);
    ssize_t read = next_pread(handle, bytes, size, offset);
    if (hung && devices[it->at].kind == HANG)
        scribble(bytes, size);
    if (fate == SPOILED && read > 0)
        *(char *)bytes ^= 1;
    if (devices[it->at].kind == OTHER && read == (ssize_t)size)
        exchange(it->at, bytes, size, offset);
    return read;
}

static ssize_t write_whole(const struct command *it, int handle, const void *bytes, size_t size, off_t offset)
{
    enum fate fate = fate_of(it);
    note(it, fate);
    has_hung(it->at);
    if (fate == DONE)
        return next_pwrite(handle, bytes, size, offset);
    if (fate == LOST)
        return (ssize_t)size;
    size_t part = size / 2 * (drawn(it->at, it->number, 3) % 3);
    if (part != 0 && next_pwrite(handle, bytes, part, offset) < 0)
        fail("a write that was to be half done");
    errno = EIO;
    return -1;
}

ssize_t pread(int handle, void *bytes, size_t size, off_t offset)
{
    int at = device_of(handle);
    if (at < 0)
        return next_pread(handle, bytes, size, offset);
    struct command it = begun(at, size, offset, false);
    enter(&it);
    ssize_t read = read_whole(&it, handle, bytes, size, offset);
    leave(&it);
    return read;
}

ssize_t pwrite(int handle, const void *bytes, size_t size, off_t offset)
{
    int at = device_of(handle);
    if (at < 0)
        return next_pwrite(handle, bytes, size, offset);
    struct command it = begun(at, size, offset, true);
    enter(&it);
    ssize_t written = write_whole(&it, handle, bytes, size, offset);
    leave(&it);
    return written;
}

ssize_t pread64(int handle, void *bytes, size_t size, off_t offset) { return pread(handle, bytes, size, offset); }

ssize_t pwrite64(int handle, const void *bytes, size_t size, off_t offset) { return pwrite(handle, bytes, size, offset); }

int fdatasync(int handle)
{
    has_hung(device_of(handle));
    return next_fdatasync(handle);
}
