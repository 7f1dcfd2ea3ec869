/* The pump moves a batch through the manifold: it needs both at once, and the stop event ends its wait. */
#include "plant.h"

enum { START, GOT_FIRST, PUMPED_FIRST, PRESSURE_SET, GOT_SECOND, PUMPED_SECOND, STOPPED };

static void wait_for_batch(plant *p, task *self)
{
    const uint32_t needed[] = {p->batches, p->manifold};
    ntsync_wait w = {.list = needed, .n = 2, .alert = p->stop, .deadline = NTSYNC_NEVER};
    wait_all(p, self, w, NTSYNC_QUEUED);
}

/* It holds the manifold while it sleeps. */
static void pump_until(plant *p, task *self, outcome heard, uint64_t time)
{
    heard_as(p, self, heard, NTSYNC_DONE, 0);
    ntsync_mutex_state m = ntsync_read_mutex(p->host.tables, NTSYNC_CELLS, p->manifold);
    expect(p, "owner of the manifold", m.owner, self->owner);
    expect(p, "count of the manifold", m.count, 1);
    sleep_until(p, self, NTSYNC_MONOTONIC, time, 0);
}

/* The valve and the recorder wait for the pressure, and a manual event serves both. */
static void report_pressure(plant *p, task *self)
{
    changed(p, self->name, "sets pressure",
            ntsync_set(p->host.tables, NTSYNC_CELLS, p->host.wake, NTSYNC_WAKE_CELLS, p->pressure), result(NTSYNC_DONE, 0, 2));
    sleep_until(p, self, NTSYNC_MONOTONIC, 30, 0);
}

static void release_manifold(plant *p, task *self, uint32_t woken)
{
    unlock(p, self, "unlocks the manifold", result(NTSYNC_DONE, 1, woken));
    wait_for_batch(p, self);
}

/* An alert has the index behind the list, and is acquired: an auto event is clear again. */
static void stop(plant *p, task *self, outcome heard)
{
    heard_as(p, self, heard, NTSYNC_DONE, 2);
    expect(p, "stop", ntsync_read_event(p->host.tables, NTSYNC_CELLS, p->stop).signaled, 0);
    say(p, self->name, "stops");
}

void pump_step(void *world, task *self, outcome heard)
{
    plant *p = world;
    int state = self->state++;
    if (state == PUMPED_FIRST || state == PRESSURE_SET || state == PUMPED_SECOND)
        heard_as(p, self, heard, NTSYNC_ETIMEDOUT, 0);
    switch (state) {
    case START: wait_for_batch(p, self); break;
    case GOT_FIRST: pump_until(p, self, heard, 20); break;
    case PUMPED_FIRST: report_pressure(p, self); break;
    case PRESSURE_SET: release_manifold(p, self, 1); break;
    case GOT_SECOND: pump_until(p, self, heard, 45); break;
    case PUMPED_SECOND: release_manifold(p, self, 0); break;
    case STOPPED: stop(p, self, heard); break;
    default: expect(p, "steps of the pump", (uint64_t)self->state, STOPPED);
    }
}
