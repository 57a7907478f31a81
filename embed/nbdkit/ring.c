/* A ring of the kernel's (io_uring), by which the array's own thread begins calls, takes those that ended and waits for what
 * comes in. It takes no thread for a call, and no other thread is woken for one. Of a file that may make whoever begins a
 * call wait, the kernel has a thread for each call, as many as there may be calls: so no member's wait for another's.
 * Without liburing, or where the kernel lets no ring, there is none. All but ring_wake is of the array's own thread.
 */
#include "plugin.h"

#ifdef HAS_RING

#include <errno.h>
#include <fcntl.h>
#include <liburing.h>
#include <sys/eventfd.h>
#include <unistd.h>

enum { ENTRIES = 256, MOST_ENDED = 16384, MOST_THREADS = (MOST_SLOTS + 1) * (MOST_DEPTH + 1) };

static struct io_uring ring;
static int bell = -1;      /* an eventfd: written by others, to wake the thread */
static uint64_t rung;      /* what was read of it */
static bool is_listening;  /* that read is at work */
static bool is_held;       /* what was put waits for one more round */
static unsigned at_work;
static struct list ended;

bool ring_make(void)
{
    unsigned most[2] = {MOST_THREADS, 0};
    struct io_uring_params fine = {.flags = IORING_SETUP_CQSIZE | IORING_SETUP_SINGLE_ISSUER | IORING_SETUP_DEFER_TASKRUN,
                                   .cq_entries = MOST_ENDED};
    struct io_uring_params plain = {.flags = IORING_SETUP_CQSIZE, .cq_entries = MOST_ENDED};
    if (io_uring_queue_init_params(ENTRIES, &ring, &fine) && io_uring_queue_init_params(ENTRIES, &ring, &plain))
        return false;
    bell = eventfd(0, EFD_CLOEXEC);
    if (bell >= 0 && !io_uring_register_iowq_max_workers(&ring, most))
        return true;
    ring_end();
    return false;
}

static struct io_uring_sqe *entry(void)
{
    struct io_uring_sqe *e = io_uring_get_sqe(&ring);
    while (!e) {
        io_uring_submit(&ring);
        e = io_uring_get_sqe(&ring);
    }
    return e;
}

void ring_put(struct call *c)
{
    struct io_uring_sqe *e = entry();
    int file = c->store->file;
    uint8_t *at = c->buffer + c->done;
    unsigned left = (unsigned)(c->count * BLOCK - c->done);
    uint64_t where = c->row * BLOCK + c->done;
    if (c->act == SYNC_FILE)
        io_uring_prep_fsync(e, file, IORING_FSYNC_DATASYNC);
    else if (c->act == FORGET_ROWS)
        io_uring_prep_fadvise(e, file, where, left, POSIX_FADV_DONTNEED);
    else if (c->act == WRITE_ROWS)
        io_uring_prep_write(e, file, at, left, where);
    else
        io_uring_prep_read(e, file, at, left, where);
    io_uring_sqe_set_data(e, c);
    at_work++;
}

/* A part of it may be done: then the rest is begun. Of what ended together errors come first, since a member that failed may
 * have done anything with what came after it. */
static void end(struct call *c, int result)
{
    bool moves = c->act == READ_ROWS || c->act == WRITE_ROWS;
    at_work--;
    if (result > 0 && moves)
        c->done += (uint64_t)result;
    if (result == -EINTR || (result > 0 && moves && c->done < c->count * BLOCK)) {
        ring_put(c);
        return;
    }
    c->error = result < 0 ? -result : moves && !result ? FILE_ENDS : 0;
    (c->error ? list_add_first : list_add)(&ended, &c->item);
}

static void take_ended(void)
{
    struct io_uring_cqe *e;
    while (!io_uring_peek_cqe(&ring, &e)) {
        struct call *c = io_uring_cqe_get_data(e);
        int result = e->res;
        io_uring_cqe_seen(&ring, e);
        if (c)
            end(c, result);
        else
            is_listening = false;
    }
}

static void listen_to_bell(void)
{
    if (is_listening)
        return;
    struct io_uring_sqe *e = entry();
    io_uring_prep_read(e, bell, &rung, sizeof rung, 0);
    io_uring_sqe_set_data(e, NULL);
    is_listening = true;
}

static void wait_until(uint64_t due)
{
    uint64_t left = due > heard ? due - heard : 0;
    struct __kernel_timespec time = {(int64_t)(left / 1000), (long long)(left % 1000 * 1000000)};
    struct io_uring_cqe *e;
    listen_to_bell();
    io_uring_submit_and_wait_timeout(&ring, &e, 1, due == UINT64_MAX ? NULL : &time, NULL);
}

/* Begins what was put, and answers what ended. Where the thread goes on at once, what was put is begun a round later, since
 * in most rounds it then waits: that is one system call in place of two. */
struct item *ring_turn(bool waits, uint64_t due)
{
    if (waits || is_held)
        heard = clock_now();
    if (waits)
        wait_until(due);
    else if (is_held)
        io_uring_submit_and_get_events(&ring);
    is_held = !waits && !is_held && io_uring_sq_ready(&ring);
    take_ended();
    struct item *items = ended.first;
    ended.first = NULL;
    return items;
}

void ring_wake(void)
{
    eventfd_write(bell, 1);
}

/* The kernel has what is at work yet, and its end isn't waited for. The bell stays: some thread may be about to ring it. */
void ring_end(void)
{
    if (!at_work)
        io_uring_queue_exit(&ring);
}

#endif
