/* The host by the system's own clocks, for a tenth of a second: a ticker sleeps by the monotonic clock; a watcher gives up by
 * the real-time clock once, and is then woken by the ticker. Checked: nobody wakes early, and the host sleeps in between. */
#include "plant.h"

#include <stdio.h>

enum { TICKS = 5, MOST_SLEEPS = 100 };
static const uint64_t TICK = 20000000, PATIENCE = 50000000; /* nanoseconds */

typedef struct {
    host host;
    uint32_t done; /* an event */
    int failures;
} live;

static void must(live *l, const char *what, int holds)
{
    if (holds)
        return;
    l->failures++;
    printf("FAILED: %s\n", what);
}

/* A queued wait until a span from now by that clock, without an event a sleep; the task keeps the deadline. */
static void wait_for(live *l, task *self, const uint32_t *event, uint32_t clock, uint64_t span)
{
    ntsync_wait w = {.list = event, .n = event != NULL, .clock = clock, .deadline = NTSYNC_NEVER};
    if (span != NTSYNC_NEVER)
        w.deadline = system_now(NULL, clock) + span;
    must(l, "the wait is queued", host_wait_any(&l->host, self, w).answer == NTSYNC_QUEUED);
}

static void timed_out(live *l, const task *self, outcome heard, uint32_t clock)
{
    must(l, "timed out", heard.answer == NTSYNC_ETIMEDOUT);
    must(l, "not early", system_now(NULL, clock) >= self->deadline);
}

static void ticker_step(void *world, task *self, outcome heard)
{
    live *l = world;
    int state = self->state++;
    if (state > 0)
        timed_out(l, self, heard, NTSYNC_MONOTONIC);
    if (state < TICKS) {
        wait_for(l, self, NULL, NTSYNC_MONOTONIC, TICK);
    } else {
        ntsync_changed r = ntsync_set(l->host.tables, NTSYNC_CELLS, l->host.wake, NTSYNC_WAKE_CELLS, l->done);
        must(l, "the watcher is woken", r.woken == 1);
        host_wake(&l->host, r.woken);
    }
}

static void watcher_step(void *world, task *self, outcome heard)
{
    live *l = world;
    switch (self->state++) {
    case 0: wait_for(l, self, &l->done, NTSYNC_REALTIME, PATIENCE); break;
    case 1:
        timed_out(l, self, heard, NTSYNC_REALTIME);
        wait_for(l, self, &l->done, NTSYNC_REALTIME, NTSYNC_NEVER);
        break;
    default: must(l, "served", heard.answer == NTSYNC_DONE && heard.index == 0);
    }
}

int run_live(void)
{
    static live l;
    if (!host_start(&l.host, system_now, &l))
        return 1;
    l.done = ntsync_create_event(l.host.tables, NTSYNC_CELLS, 0, 1).handle;
    const task *ticker = host_add(&l.host, "ticker", ticker_step), *watcher = host_add(&l.host, "watcher", watcher_step);
    unsigned slept = host_run_by_system_clocks(&l.host);
    must(&l, "the ticker ended", ticker->state == TICKS + 1);
    must(&l, "the watcher ended", watcher->state == 3);
    must(&l, "the host slept in between", slept >= TICKS && slept <= MOST_SLEEPS);
    must(&l, "no fault", l.host.faults == 0);
    printf("live: %d ticks of 20 ms, slept %u times, %d failures\n", TICKS, slept, l.failures);
    return l.failures;
}
