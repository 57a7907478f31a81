/* The member files. What is asked of one is a call, which has a buffer of its own. A file that takes commands without waiting
 * (O_DIRECT on most file systems) is served by the kernel's ring (ring.c), others by as many threads as calls are at work, up
 * to the depth: a call that never returns holds up nobody else.
 */
#define _GNU_SOURCE /* O_DIRECT, O_NOATIME */
#include "plugin.h"

#include <errno.h>
#include <fcntl.h>
#include <linux/fiemap.h>
#include <linux/fs.h>
#include <stdlib.h>
#include <string.h>
#include <sys/file.h>
#include <sys/ioctl.h>
#include <unistd.h>

void list_add(struct list *list, struct item *item)
{
    item->next = NULL;
    if (list->first)
        list->last->next = item;
    else
        list->first = item;
    list->last = item;
}

void list_add_first(struct list *list, struct item *item)
{
    item->next = list->first;
    if (!list->first)
        list->last = item;
    list->first = item;
}

struct item *list_take(struct list *list)
{
    struct item *item = list->first;
    if (item)
        list->first = item->next;
    return item;
}

/* The array's thread begins calls, and doesn't wait there for the disk: where the file's blocks lie is read now, and a read
 * notes no time. What the kernel refuses it refuses. */
static void ease(int file)
{
    struct fiemap map = {.fm_length = FIEMAP_MAX_OFFSET, .fm_flags = FIEMAP_FLAG_CACHE};
    ioctl(file, FS_IOC_FIEMAP, &map);
    fcntl(file, F_SETFL, fcntl(file, F_GETFL) | O_NOATIME);
}

static const char *prepare(struct store *s, bool may_grow)
{
    off_t bytes = (off_t)(shape.rows * BLOCK);
    if (flock(s->file, LOCK_EX | LOCK_NB))
        return "in use, by another server or in another slot";
    if (lseek(s->file, 0, SEEK_END) < bytes && (!may_grow || ftruncate(s->file, bytes)))
        return "too short";
    ease(s->file);
    return NULL;
}

const char *store_open(struct store **made, unsigned slot, const char *path, bool may_grow)
{
    struct store *s = calloc(1, sizeof *s);
    if (!s)
        return strerror(ENOMEM);
    *s = (struct store){.slot = slot};
    pthread_mutex_init(&s->lock, NULL);
    pthread_cond_init(&s->filled, NULL);
    s->file = open(path, O_RDWR | O_CLOEXEC | (may_grow ? O_CREAT : 0) | (is_direct ? O_DIRECT : 0), 0600);
    const char *why = s->file < 0 ? strerror(errno) : prepare(s, may_grow);
    if (why)
        store_end(s);
    else
        *made = s;
    return why;
}

static void free_store(struct store *s)
{
    pthread_mutex_destroy(&s->lock);
    pthread_cond_destroy(&s->filled);
    free(s);
}

/* ---- for its threads */

/* The call after the one that the thread has performed, which may be NULL. False: the store ends. */
static bool next_call(struct store *s, struct call **call)
{
    pthread_mutex_lock(&s->lock);
    s->busy -= *call != NULL;
    while (!s->calls.first && !s->ends)
        pthread_cond_wait(&s->filled, &s->lock);
    *call = (struct call *)list_take(&s->calls);
    s->busy += *call != NULL;
    s->queued -= *call != NULL;
    pthread_mutex_unlock(&s->lock);
    return *call;
}

/* The last thread frees what the store has. */
static void leave(struct store *s)
{
    pthread_mutex_lock(&s->lock);
    bool is_last = !--s->threads;
    pthread_mutex_unlock(&s->lock);
    if (is_last)
        free_store(s);
}

static int perform(struct call *c)
{
    int file = c->store->file;
    off_t from = (off_t)(c->row * BLOCK), bytes = (off_t)(c->count * BLOCK);
    if (c->act == SYNC_FILE)
        return fdatasync(file) ? errno : 0;
    if (c->act == FORGET_ROWS)
        return posix_fadvise(file, from, bytes, POSIX_FADV_DONTNEED);
    while (c->done < (uint64_t)bytes) {
        uint8_t *at = c->buffer + c->done;
        size_t left = (size_t)bytes - c->done;
        off_t next = from + (off_t)c->done;
        ssize_t moved = c->act == WRITE_ROWS ? pwrite(file, at, left, next) : pread(file, at, left, next);
        if (moved > 0)
            c->done += (uint64_t)moved;
        else if (!moved || errno != EINTR)
            return moved ? errno : FILE_ENDS;
    }
    return 0;
}

static void *work(void *of)
{
    struct store *s = of;
    for (struct call *c = NULL; next_call(s, &c);) {
        c->error = perform(c);
        array_hand(&c->item);
    }
    leave(s);
    return NULL;
}

/* ---- for the array */

/* Under the lock. False: it has none more. */
static bool add_thread(struct store *s)
{
    pthread_t thread;
    if (pthread_create(&thread, NULL, work, s))
        return false;
    pthread_detach(thread);
    s->threads++;
    return true;
}

/* A store that the ring serves needs none. */
bool store_start(struct store *s)
{
    s->has_ring = has_ring;
    if (s->has_ring)
        return true;
    pthread_mutex_lock(&s->lock);
    bool is_started = add_thread(s);
    pthread_mutex_unlock(&s->lock);
    return is_started;
}

/* A call waits for no other: where all threads are busy there is one more. */
void store_put(struct store *s, struct call *c)
{
    c->store = s;
    c->done = 0;
    s->at_work++;
    if (s->has_ring) {
        ring_put(c);
        return;
    }
    pthread_mutex_lock(&s->lock);
    list_add(&s->calls, &c->item);
    if (++s->queued > s->threads - s->busy && s->threads < depth)
        add_thread(s);
    pthread_mutex_unlock(&s->lock);
    pthread_cond_signal(&s->filled);
}

void store_end(struct store *s)
{
    if (s->file >= 0)
        close(s->file);
    pthread_mutex_lock(&s->lock);
    s->ends = true;
    bool has_threads = s->threads;
    pthread_cond_broadcast(&s->filled);
    pthread_mutex_unlock(&s->lock);
    if (!has_threads)
        free_store(s);
}
