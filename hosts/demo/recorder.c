/* The recorder notes pressure and flushes; the operator cancels its last wait. */
#include "plant.h"

enum { START, PRESSURE, FLUSHED, CANCELLED };

/* The first n of these, or batches by the other clock. Nothing but an event or the operator ends the wait. */
static void note(plant *p, task *self, const uint32_t *list, size_t n, uint32_t clock)
{
    wait_any(p, self, (ntsync_wait){.list = list, .n = n, .clock = clock, .deadline = NTSYNC_NEVER}, NTSYNC_QUEUED);
}

void recorder_step(void *world, task *self, outcome heard)
{
    plant *p = world;
    const uint32_t noted[] = {p->flush, p->pressure};
    switch (self->state++) {
    case START: note(p, self, noted, 2, NTSYNC_MONOTONIC); break;
    case PRESSURE:
        heard_as(p, self, heard, NTSYNC_DONE, 1);
        note(p, self, noted, 1, NTSYNC_MONOTONIC);
        break;
    case FLUSHED:
        heard_as(p, self, heard, NTSYNC_DONE, 0);
        note(p, self, &p->batches, 1, NTSYNC_REALTIME);
        break;
    case CANCELLED:
        heard_as(p, self, heard, NTSYNC_EINTR, 0);
        say(p, self->name, "finishes");
        break;
    default: expect(p, "steps of the recorder", (uint64_t)self->state, CANCELLED);
    }
}
