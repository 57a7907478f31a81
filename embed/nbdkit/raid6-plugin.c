/* Serves the array over one member file a slot: `nbdkit ./nbdkit-raid6-plugin.so --help` has the parameters. A MEMBER is a
 * file, or `missing`. Members of a new array, which has no state file yet, are of zeros. The lines that the fifo takes:
 *
 *     status | fail S [force] | remove S | break S [FILE] | attach S FILE | replace S FILE | check | repair
 */
#define NBDKIT_API_VERSION 2
#define THREAD_MODEL NBDKIT_THREAD_MODEL_PARALLEL
#include <nbdkit-plugin.h>

#include <errno.h>
#include <fcntl.h>
#include <stdarg.h>
#include <stdio.h>
#include <stdlib.h>
#include <string.h>
#include <sys/stat.h>
#include <unistd.h>

#include "plugin.h"

int is_direct;
struct raid6_shape shape = {.chunk = 16, .block = BLOCK, .shards = 4, .window = 8};
static struct member all[MOST_SLOTS + 1] = {[MOST_SLOTS].is_broken = true};
struct member *members[MOST_SLOTS], *second = &all[MOST_SLOTS];
uint64_t depth = 16, timeout = 30, retries = 3, most_errors = 20, speed;
enum io io;
static const char *control_path, *log_path;
static FILE *control, *log_file;
static pthread_t control_thread;
/* A write of parts of blocks has `edges` alone. Both kinds of writes take it by turns, so neither is held up for ever. */
static pthread_rwlock_t edges = PTHREAD_RWLOCK_INITIALIZER;
static pthread_mutex_t turnstile = PTHREAD_MUTEX_INITIALIZER;

void tell(const char *format, ...)
{
    char line[2 * MOST_PATH];
    va_list list;
    va_start(list, format);
    vsnprintf(line, sizeof line, format, list);
    va_end(list);
    FILE *to = log_file ? log_file : stderr;
    fprintf(to, "raid6: %s\n", line);
    fflush(to);
}

/* ---- parameters */

static int refuse(const char *what, const char *why)
{
    nbdkit_error("%s: %s", what, why);
    return -1;
}

static int add_member(const char *path)
{
    if (shape.slots == MOST_SLOTS)
        return refuse(path, "there are 32 members");
    struct member *m = members[shape.slots] = &all[shape.slots];
    m->slot = (unsigned)shape.slots++;
    m->is_broken = true; /* until it is open */
    m->is_lost = !strcmp(path, "missing");
    char *whole = m->is_lost ? strdup(path) : nbdkit_absolute_path(path);
    if (!whole)
        return -1;
    snprintf(m->path, sizeof m->path, "%s", whole);
    free(whole);
    return 0;
}

static int set_io(const char *value)
{
    static const char *const kinds[] = {"best", "ring", "threads"};
    for (io = IO_BEST; io <= IO_THREADS; io++)
        if (!strcmp(value, kinds[io]))
            return 0;
    return refuse("io", "best, ring or threads");
}

static int config(const char *key, const char *value)
{
    const struct {
        const char *key, **path;
        uint64_t *number;
    } keys[] = {{"state", &state_path, NULL},    {"control", &control_path, NULL}, {"log", &log_path, NULL},
                {"chunk", NULL, &shape.chunk},   {"shards", NULL, &shape.shards},  {"window", NULL, &shape.window},
                {"depth", NULL, &depth},         {"timeout", NULL, &timeout},      {"retries", NULL, &retries},
                {"errors", NULL, &most_errors},  {"speed", NULL, &speed}};
    if (!strcmp(key, "member"))
        return add_member(value);
    if (!strcmp(key, "direct"))
        return (is_direct = nbdkit_parse_bool(value)) < 0 ? -1 : 0;
    if (!strcmp(key, "io"))
        return set_io(value);
    for (size_t i = 0; i < sizeof keys / sizeof *keys; i++) {
        if (strcmp(key, keys[i].key))
            continue;
        if (keys[i].number)
            return nbdkit_parse_uint64_t(key, value, keys[i].number);
        *keys[i].path = nbdkit_absolute_path(value);
        return *keys[i].path ? 0 : -1;
    }
    return refuse(key, "unknown parameter");
}

static int config_complete(void)
{
    if (depth < 1 || depth > MOST_DEPTH)
        return refuse("depth", "1 to 256");
    if (timeout > 100000 || speed > 1000000000)
        return refuse("timeout and speed", "at most 100000 and 1000000000, or 0 for none");
    return !state_path || shape.slots < 4 ? refuse("raid6", "state=FILE and four members or more are needed") : 0;
}

/* A file or a block device; 0 of one that can't be opened. */
static uint64_t blocks_of(const char *path)
{
    int file = open(path, O_RDONLY | O_CLOEXEC);
    off_t bytes = file < 0 ? -1 : lseek(file, 0, SEEK_END);
    if (file >= 0)
        close(file);
    return bytes < 0 ? 0 : (uint64_t)bytes / BLOCK;
}

/* A new array has as many rows as its shortest member. */
static uint64_t rows_of_new(void)
{
    uint64_t rows = UINT64_MAX;
    for (unsigned s = 0; s < shape.slots; s++) {
        uint64_t blocks = members[s]->is_lost ? UINT64_MAX : blocks_of(members[s]->path);
        rows = blocks < rows ? blocks : rows;
    }
    return shape.chunk ? rows - rows % shape.chunk : rows;
}

static int get_ready(void)
{
    bool is_there;
    const char *why = state_lock();
    if (why || (why = state_load(&is_there)))
        return refuse(state_path, why);
    if (!is_there)
        shape.rows = rows_of_new();
    for (unsigned s = 0; s < shape.slots; s++)
        if (!members[s]->is_lost && (why = member_open(members[s], false)))
            return refuse(members[s]->path, why);
    if ((why = array_make()))
        return refuse("the array", why);
    if (!state_save())
        return refuse(state_path, strerror(errno));
    if (log_path && !(log_file = fopen(log_path, "a")))
        return refuse(log_path, strerror(errno));
    if (control_path && mkfifo(control_path, 0600) && errno != EEXIST)
        return refuse(control_path, strerror(errno));
    if (control_path && !(control = fopen(control_path, "r+"))) /* open to write too, so that it has no end */
        return refuse(control_path, strerror(errno));
    return 0;
}

/* ---- orders */

/* While it has the array it isn't ended. */
static void hand(struct order *order)
{
    int before;
    order->item.kind = ORDER;
    pthread_setcancelstate(PTHREAD_CANCEL_DISABLE, &before);
    array_hand(&order->item);
    pthread_setcancelstate(before, NULL);
}

static void *take_orders(void *unused)
{
    static struct order *order; /* which an end amid its line leaves */
    for (;;) {
        order = calloc(1, sizeof *order);
        if (!order || !fgets(order->text, sizeof order->text, control))
            return unused;
        size_t length = strcspn(order->text, "\n");
        if (order->text[length]) {
            order->text[length] = 0;
            hand(order);
        } else { /* nothing of it is obeyed */
            tell("an order of more than %zu bytes", length);
            free(order);
            while (fgetc(control) != '\n')
                continue;
        }
    }
}

static int after_fork(void)
{
    const char *why = array_start();
    if (!why && control && pthread_create(&control_thread, NULL, take_orders, NULL))
        why = "the thread for orders can't be started";
    return why ? refuse("raid6", why) : 0;
}

static void cleanup(void)
{
    if (control) {
        pthread_cancel(control_thread);
        pthread_join(control_thread, NULL);
    }
    array_stop();
}

/* ---- requests */

static int ask(enum act act, uint8_t *data, uint64_t block, uint64_t count)
{
    struct request *r = calloc(1, sizeof *r + count * sizeof *r->parts);
    if (!r)
        return ENOMEM;
    *r = (struct request){.item.kind = REQUEST, .act = act, .data = data, .block = block, .count = count};
    for (uint64_t i = 0; i < count; i++)
        r->parts[i].request = r;
    sem_init(&r->done, 0, 0);
    array_hand(&r->item);
    while (sem_wait(&r->done))
        continue;
    int error = r->error;
    sem_destroy(&r->done);
    free(r);
    return error;
}

/* Part of a block: the block is read, and the part handed on, or changed and the block written. */
static int ask_part(enum act act, uint8_t *data, uint32_t bytes, uint64_t offset)
{
    uint8_t block[BLOCK], *part = block + offset % BLOCK;
    int error = ask(READ, block, offset / BLOCK, 1);
    if (error)
        return error;
    memcpy(act == WRITE ? part : data, act == WRITE ? data : part, bytes);
    return act == WRITE ? ask(WRITE, block, offset / BLOCK, 1) : 0;
}

/* What comes next of a request: the part of one block, or whole blocks. */
static uint32_t piece(uint32_t count, uint64_t offset)
{
    uint32_t into = offset % BLOCK, left = BLOCK - into;
    if (into || count < BLOCK)
        return count < left ? count : left;
    return count - count % BLOCK;
}

static int answer(int error)
{
    if (error)
        nbdkit_error("%s", strerror(error));
    errno = error;
    return error ? -1 : 0;
}

static int serve(enum act act, uint8_t *data, uint32_t count, uint64_t offset)
{
    int error = 0;
    for (uint32_t bytes; count && !error; data += bytes, count -= bytes, offset += bytes) {
        bytes = piece(count, offset);
        error = bytes % BLOCK ? ask_part(act, data, bytes, offset) : ask(act, data, offset / BLOCK, bytes / BLOCK);
    }
    return answer(error);
}

static int raid6_pread(void *handle, void *data, uint32_t count, uint64_t offset, uint32_t flags)
{
    (void)handle, (void)flags;
    return serve(READ, data, count, offset);
}

/* While the part of a block is read, changed and written, no other write may come between. */
static int raid6_pwrite(void *handle, const void *data, uint32_t count, uint64_t offset, uint32_t flags)
{
    (void)handle, (void)flags;
    pthread_mutex_lock(&turnstile);
    if ((offset | count) % BLOCK)
        pthread_rwlock_wrlock(&edges);
    else
        pthread_rwlock_rdlock(&edges);
    pthread_mutex_unlock(&turnstile);
    int answered = serve(WRITE, (uint8_t *)data, count, offset);
    pthread_rwlock_unlock(&edges);
    return answered;
}

static int raid6_flush(void *handle, uint32_t flags)
{
    (void)handle, (void)flags;
    return answer(ask(FLUSH, NULL, 0, shape.slots + 1));
}

static int64_t get_size(void *handle)
{
    (void)handle;
    return (int64_t)(shape.rows * (shape.slots - 2) * BLOCK);
}

static int block_size(void *handle, uint32_t *least, uint32_t *preferred, uint32_t *most)
{
    (void)handle;
    *least = 1;
    *preferred = BLOCK;
    *most = UINT32_MAX;
    return 0;
}

static void *open_client(int readonly)
{
    (void)readonly;
    return NBDKIT_HANDLE_NOT_NEEDED;
}

/* A flush syncs what was answered to any client. */
static int can_multi_conn(void *handle)
{
    (void)handle;
    return 1;
}

static struct nbdkit_plugin plugin = {
    .name = "raid6",
    .longname = "RAID-6 array over member files",
    .magic_config_key = "member",
    .errno_is_preserved = 1,
    .config_help = "state=FILE MEMBER .. [chunk=16] [shards=4] [window=8] [direct=false] [control=FIFO] "
                   "[depth=16] [io=best|ring|threads] [timeout=30] [retries=3] [errors=20] [speed=0] [log=FILE]",
    .config = config,
    .config_complete = config_complete,
    .get_ready = get_ready,
    .after_fork = after_fork,
    .cleanup = cleanup,
    .open = open_client,
    .get_size = get_size,
    .block_size = block_size,
    .can_multi_conn = can_multi_conn,
    .pread = raid6_pread,
    .pwrite = raid6_pwrite,
    .flush = raid6_flush,
};

NBDKIT_REGISTER_PLUGIN(plugin)
