/* The sensor reports batches, loses the pressure, and at last sees the tank overheat. */
#include "plant.h"

enum { START, BATCHES, LOW, POLLED, HOT };

static void post(plant *p, task *self, const char *call, uint32_t add, ntsync_changed wanted)
{
    changed(p, self->name, call,
            ntsync_post(p->host.tables, NTSYNC_CELLS, p->host.wake, NTSYNC_WAKE_CELLS, p->batches, add), wanted);
}

/* The pump is served one batch; the other stays. */
static void report_batches(plant *p, task *self)
{
    post(p, self, "posts 2 batches", 2, result(NTSYNC_DONE, 0, 1));
    ntsync_sem_state s = ntsync_read_sem(p->host.tables, NTSYNC_CELLS, p->batches);
    expect(p, "batches left", s.count, 1);
    sleep_until(p, self, NTSYNC_MONOTONIC, 30, 0);
}

/* A wait whose deadline is now is a poll: it never queues. */
static void lose_pressure(plant *p, task *self)
{
    post(p, self, "tries to post 4 batches", 4, result(NTSYNC_EOVERFLOW, 0, 0));
    changed(p, self->name, "resets pressure", ntsync_reset(p->host.tables, NTSYNC_CELLS, p->pressure),
            result(NTSYNC_DONE, 1, 0));
    ntsync_wait poll = {.list = &p->pressure, .n = 1, .deadline = p->clocks[NTSYNC_MONOTONIC]};
    wait_any(p, self, poll, NTSYNC_ETIMEDOUT);
}

/* Its last wait is still queued when the snapshot is taken. */
static void overheat(plant *p, task *self)
{
    const uint32_t watched[] = {p->pressure, p->flush};
    changed(p, self->name, "sets stop", ntsync_set(p->host.tables, NTSYNC_CELLS, p->host.wake, NTSYNC_WAKE_CELLS, p->stop),
            result(NTSYNC_DONE, 0, 1));
    ntsync_wait w = {.list = watched, .n = 2, .clock = NTSYNC_REALTIME, .deadline = 2000000};
    wait_any(p, self, w, NTSYNC_QUEUED);
}

void sensor_step(void *world, task *self, outcome heard)
{
    plant *p = world;
    int state = self->state++;
    if (state != START)
        heard_as(p, self, heard, NTSYNC_ETIMEDOUT, 0);
    switch (state) {
    case START: sleep_until(p, self, NTSYNC_MONOTONIC, 10, 0); break;
    case BATCHES: report_batches(p, self); break;
    case LOW: lose_pressure(p, self); break;
    case POLLED: sleep_until(p, self, NTSYNC_MONOTONIC, 50, 0); break;
    case HOT: overheat(p, self); break;
    default: expect(p, "steps of the sensor", (uint64_t)self->state, HOT);
    }
}
