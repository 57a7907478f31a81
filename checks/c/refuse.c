/* A library to preload: it numbers the growths of a program, from 1, refuses some of them, and counts what comes between.
 *
 * A growth is a call of malloc, calloc, realloc, aligned_alloc, memalign or posix_memalign, or a start of a thread by
 * pthread_create. Memory that the C library takes to start a thread is a growth of its own. From the environment:
 *
 *   TALLY=FILE      the file for the counts below, which is there and long enough
 *   AT=N            the N-th growth is refused, and no other
 *   FROM=N          the N-th growth is refused, and all after it
 *   DEVICES=FILES   the device files, one a line, which are there: a pread or a pwrite on one of them is a command
 *   MARKED=1        growths are numbered only from where the program has written a text that begins with `call` to
 *                   standard output up to where it writes one that begins with `answer`
 *   WRONG=KIND      does what no program may, to show that a check sees it:
 *
 *     given         a growth is counted as refused and is not
 *     late          the first command takes memory
 *     done          where the first growth is refused the program ends at once, as if all were done
 *     another       where it is refused the program ends with another fault
 *     written       where it is refused a device file is written
 *     silent        where it is refused the program ends with 5, without a line
 *     waits         where it is refused the program waits without end
 */
#define _GNU_SOURCE
#include <dlfcn.h>
#include <errno.h>
#include <fcntl.h>
#include <pthread.h>
#include <stdatomic.h>
#include <stdbool.h>
#include <stdio.h>
#include <stdlib.h>
#include <string.h>
#include <sys/mman.h>
#include <sys/stat.h>
#include <sys/uio.h>
#include <unistd.h>

enum { MOST = 64 };

/* the C library's own, under the names that it keeps for this */
void *__libc_malloc(size_t size);
void *__libc_calloc(size_t count, size_t size);
void *__libc_realloc(void *block, size_t size);
void *__libc_memalign(size_t align, size_t size);

/* in the order in which checks/growths reads them */
static struct tally {
    atomic_long growths, starts, refused, commands, writes;
    /* how many growths came after the first command, and the number of the first of them */
    atomic_long late, first_late;
    /* of the first growth that was refused: how many bytes, or -1 for a thread */
    atomic_long bytes;
} own, *tally = &own;

static struct {
    dev_t device;
    ino_t inode;
} devices[MOST];

static int count, spoilt = -1;
static long at, from;
static const char *wrong;
static bool is_marked;
static atomic_bool is_numbering;
static ssize_t (*next_pread)(int, void *, size_t, off_t);
static ssize_t (*next_pwrite)(int, const void *, size_t, off_t);
static ssize_t (*next_write)(int, const void *, size_t);
static ssize_t (*next_writev)(int, const struct iovec *, int);
static int (*next_create)(pthread_t *, const pthread_attr_t *, void *(*)(void *), void *);

static void fail(const char *why)
{
    fprintf(stderr, "refuse: %s\n", why);
    abort();
}

static long number_in(const char *name)
{
    const char *word = getenv(name);
    return word ? atol(word) : 0;
}

static void add(const char *line, size_t length)
{
    char path[4096];
    struct stat found;
    if (count == MOST || length >= sizeof path)
        fail("DEVICES");
    memcpy(path, line, length);
    path[length] = 0;
    if (stat(path, &found) != 0)
        fail("a device file isn't there");
    devices[count].device = found.st_dev;
    devices[count].inode = found.st_ino;
    if (wrong && strcmp(wrong, "written") == 0 && count == 0)
        spoilt = open(path, O_WRONLY | O_CLOEXEC);
    count++;
}

/* Runs before the program: what comes until it has ended isn't numbered. */
__attribute__((constructor)) static void begin(void)
{
    next_pread = dlsym(RTLD_NEXT, "pread");
    next_pwrite = dlsym(RTLD_NEXT, "pwrite");
    next_write = dlsym(RTLD_NEXT, "write");
    next_writev = dlsym(RTLD_NEXT, "writev");
    next_create = dlsym(RTLD_NEXT, "pthread_create");
    at = number_in("AT");
    from = number_in("FROM");
    wrong = getenv("WRONG");
    const char *file = getenv("TALLY"), *lines = getenv("DEVICES");
    if (!file)
        return;
    int handle = open(file, O_RDWR | O_CLOEXEC);
    void *mapped = mmap(NULL, sizeof *tally, PROT_READ | PROT_WRITE, MAP_SHARED, handle, 0);
    if (mapped == MAP_FAILED)
        fail("TALLY");
    close(handle);
    tally = mapped;
    while (lines && *lines) {
        size_t length = strcspn(lines, "\n");
        add(lines, length);
        lines += length;
        lines += *lines == '\n';
    }
    is_marked = number_in("MARKED") != 0;
    is_numbering = !is_marked;
}

static bool is_wrong(const char *kind) { return wrong && strcmp(wrong, kind) == 0; }

/* Does what is wrong where the first growth is refused. */
static void go_wrong(void)
{
    static const char *const line = "settings: unreadable\n";
    if (is_wrong("done"))
        _exit(0);
    if (is_wrong("silent"))
        _exit(5);
    if (is_wrong("waits"))
        for (;;)
            pause();
    if (is_wrong("another")) {
        if (next_write(STDERR_FILENO, line, strlen(line)) < 0)
            fail("standard error");
        _exit(3);
    }
    if (is_wrong("written") && next_pwrite(spoilt, "x", 1, 0) != 1)
        fail("a device file");
}

/* Numbers a growth; whether it is refused. Starts of threads have no bytes. */
static bool is_refused(long bytes)
{
    if (!atomic_load(&is_numbering))
        return false;
    long number = atomic_fetch_add(&tally->growths, 1) + 1;
    if (bytes < 0)
        atomic_fetch_add(&tally->starts, 1);
    if (atomic_load(&tally->commands) != 0 && atomic_fetch_add(&tally->late, 1) == 0)
        tally->first_late = number;
    if (number != at && (from == 0 || number < from))
        return false;
    if (atomic_fetch_add(&tally->refused, 1) == 0) {
        tally->bytes = bytes;
        go_wrong();
    }
    return !is_wrong("given");
}

static void *none(void)
{
    errno = ENOMEM;
    return NULL;
}

void *malloc(size_t size) { return is_refused((long)size) ? none() : __libc_malloc(size); }

void *calloc(size_t number, size_t size)
{
    return is_refused((long)(number * size)) ? none() : __libc_calloc(number, size);
}

void *realloc(void *block, size_t size) { return is_refused((long)size) ? none() : __libc_realloc(block, size); }

void *memalign(size_t align, size_t size) { return is_refused((long)size) ? none() : __libc_memalign(align, size); }

void *aligned_alloc(size_t align, size_t size) { return memalign(align, size); }

int posix_memalign(void **block, size_t align, size_t size)
{
    void *made = memalign(align, size);
    if (!made)
        return ENOMEM;
    *block = made;
    return 0;
}

int pthread_create(pthread_t *thread, const pthread_attr_t *how, void *(*run)(void *), void *with)
{
    return is_refused(-1) ? EAGAIN : next_create(thread, how, run, with);
}

/* Counts a command, if this is a device file: they stay where they are, so each is found by its number. */
static void command(int handle, bool writes)
{
    struct stat found;
    if (count == 0 || fstat(handle, &found) != 0)
        return;
    for (int i = 0; i < count; i++) {
        if (devices[i].inode != found.st_ino || devices[i].device != found.st_dev)
            continue;
        atomic_fetch_add(&tally->writes, writes);
        if (atomic_fetch_add(&tally->commands, 1) == 0 && is_wrong("late"))
            is_refused(16);
        return;
    }
}

ssize_t pread(int handle, void *bytes, size_t size, off_t offset)
{
    command(handle, false);
    return next_pread(handle, bytes, size, offset);
}

ssize_t pwrite(int handle, const void *bytes, size_t size, off_t offset)
{
    command(handle, true);
    return next_pwrite(handle, bytes, size, offset);
}

ssize_t pread64(int handle, void *bytes, size_t size, off_t offset) { return pread(handle, bytes, size, offset); }

ssize_t pwrite64(int handle, const void *bytes, size_t size, off_t offset) { return pwrite(handle, bytes, size, offset); }

static bool begins(const void *text, size_t size, const char *word)
{
    return size >= strlen(word) && memcmp(text, word, strlen(word)) == 0;
}

/* What is written may be a mark: numbering ends before an answer, and begins after a call. */
static void before(int handle, const void *text, size_t size)
{
    if (is_marked && handle == STDOUT_FILENO && begins(text, size, "answer"))
        is_numbering = false;
}

static void after_mark(int handle, const void *text, size_t size)
{
    if (is_marked && handle == STDOUT_FILENO && begins(text, size, "call"))
        is_numbering = true;
}

ssize_t write(int handle, const void *bytes, size_t size)
{
    before(handle, bytes, size);
    ssize_t done = next_write(handle, bytes, size);
    after_mark(handle, bytes, size);
    return done;
}

ssize_t writev(int handle, const struct iovec *parts, int number)
{
    if (number <= 0)
        return next_writev(handle, parts, number);
    before(handle, parts->iov_base, parts->iov_len);
    ssize_t done = next_writev(handle, parts, number);
    after_mark(handle, parts->iov_base, parts->iov_len);
    return done;
}
