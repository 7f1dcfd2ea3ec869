/* What the plant's scenario does not reach in host.c: its bounds, and the ways in which a task can be found dead. */
#include "host.h"

#include <stdio.h>

static host h;
static uint64_t time_now;
static int failures, steps;

#define MUST(holds) must((holds) != 0, #holds)

static void must(int holds, const char *what)
{
    if (holds)
        return;
    failures++;
    printf("FAILED: %s\n", what);
}

static uint64_t now(void *world, uint32_t clock)
{
    (void)world;
    (void)clock;
    return time_now;
}

static void step(void *world, task *self, outcome heard)
{
    (void)world;
    (void)self;
    (void)heard;
    steps++;
}

static ntsync_wait until(const uint32_t *handle, uint64_t deadline)
{
    ntsync_wait w = {.list = handle, .n = 1, .deadline = deadline};
    return w;
}

static uint32_t start_with_mutex(void)
{
    time_now = 10;
    steps = 0;
    MUST(host_start(&h, now, NULL));
    return ntsync_create_mutex(h.tables, NTSYNC_CELLS, 0, 0).handle;
}

/* A place for each of HOST_TASKS, and a ready list that takes all of them and no more. */
static void bounds(void)
{
    (void)start_with_mutex();
    for (int i = 0; i < HOST_TASKS; i++)
        MUST(host_add(&h, "one", step) != NULL);
    MUST(host_add(&h, "too many", step) == NULL);
    MUST(h.ready_count == HOST_TASKS);
    host_run_ready(&h);
    MUST(steps == HOST_TASKS && h.ready_count == 0 && h.faults == 0);
    MUST(host_next_deadline(&h, NTSYNC_MONOTONIC) == NTSYNC_NEVER);
}

/* A second wait, a cancel without a wait, and a record that is no task's, do no harm but the fault. */
static void misuse(void)
{
    uint32_t mutex = start_with_mutex();
    task *a = host_add(&h, "a", step);
    MUST(host_wait_any(&h, a, until(&mutex, 20)).answer == NTSYNC_EINVAL && h.faults == 1);
    MUST(host_cancel(&h, a) == NTSYNC_EINVAL && h.ready_count == 1);
    host_run_ready(&h);
    MUST(host_cancel(&h, a) == NTSYNC_EINVAL && h.ready_count == 0);
    h.wake[0] = 77;
    host_wake(&h, 1);
    MUST(h.ready_count == 0 && h.faults == 2);
}

/* Dead while it was ready: it was served the mutex, and the next task gets that with EOWNERDEAD and the dead one's number
 * only after that. The other ready tasks keep their order. */
static void dead_and_ready(void)
{
    uint32_t mutex = start_with_mutex();
    task *a = host_add(&h, "a", step), *b = host_add(&h, "b", step);
    host_run_ready(&h);
    MUST(host_wait_any(&h, a, until(&mutex, 20)).answer == NTSYNC_DONE);
    MUST(host_wait_any(&h, b, until(&mutex, 20)).answer == NTSYNC_QUEUED);
    MUST(host_next_deadline(&h, NTSYNC_MONOTONIC) == 20);
    task *c = host_add(&h, "c", step);
    burial dead = host_bury(&h, a);
    MUST(!dead.wait_ended && dead.mutexes == 1 && dead.woken == 1 && dead.refusal == NTSYNC_DONE);
    MUST(a->place == TASK_FREE && h.ready_count == 2 && h.ready[h.ready_first] == c);
    MUST(b->place == TASK_READY && b->heard.answer == NTSYNC_EOWNERDEAD);
    MUST(host_add(&h, "d", step) == a && a->owner == 1 && h.faults == 0);
}

/* Dead while it waited for a mutex that another then lets go: nobody may acquire it for the dead. */
static void dead_and_waiting(void)
{
    uint32_t mutex = start_with_mutex();
    task *a = host_add(&h, "a", step), *b = host_add(&h, "b", step);
    host_run_ready(&h);
    MUST(host_wait_any(&h, a, until(&mutex, 20)).answer == NTSYNC_DONE);
    MUST(host_wait_any(&h, b, until(&mutex, NTSYNC_NEVER)).answer == NTSYNC_QUEUED);
    burial dead = host_bury(&h, b);
    MUST(dead.wait_ended && dead.mutexes == 0 && b->place == TASK_FREE);
    ntsync_changed left = ntsync_unlock(h.tables, NTSYNC_CELLS, h.wake, NTSYNC_WAKE_CELLS, mutex, a->owner);
    MUST(left.answer == NTSYNC_DONE && left.woken == 0 && h.faults == 0);
}

/* A ticket that no queued wait has: what became of the wait is unknown, so the number is not given again. */
static void dead_and_lost(void)
{
    uint32_t mutex = start_with_mutex();
    task *a = host_add(&h, "a", step), *b = host_add(&h, "b", step);
    host_run_ready(&h);
    MUST(host_wait_any(&h, a, until(&mutex, 20)).answer == NTSYNC_DONE);
    MUST(host_wait_any(&h, b, until(&mutex, 20)).answer == NTSYNC_QUEUED);
    b->ticket++;
    burial dead = host_bury(&h, b);
    MUST(!dead.wait_ended && dead.refusal == NTSYNC_EINVAL && b->place != TASK_FREE);
}

/* On damaged tables nothing is done for the dead, its number is not given again, and expire is a fault for each clock. */
static void damaged(void)
{
    (void)start_with_mutex();
    task *a = host_add(&h, "a", step);
    host_run_ready(&h);
    h.tables[0] = 0;
    MUST(host_bury(&h, a).refusal == NTSYNC_CORRUPT && a->place != TASK_FREE);
    host_expire(&h);
    MUST(h.faults == 2);
}

int main(void)
{
    bounds();
    misuse();
    dead_and_ready();
    dead_and_waiting();
    dead_and_lost();
    damaged();
    printf("host.c: %d failures\n", failures);
    return failures != 0;
}
