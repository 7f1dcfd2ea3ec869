/* The valve takes the manifold when there is pressure, and dies in its sleep while it holds it: see find_valve_dead. */
#include "plant.h"

enum { START, PRESSURE, GOT_MANIFOLD, NEVER_REACHED };

void valve_step(void *world, task *self, outcome heard)
{
    plant *p = world;
    int state = self->state++;
    if (state != START)
        heard_as(p, self, heard, NTSYNC_DONE, 0);
    switch (state) {
    case START: wait_any(p, self, (ntsync_wait){.list = &p->pressure, .n = 1, .deadline = 100}, NTSYNC_QUEUED); break;
    case PRESSURE: wait_any(p, self, (ntsync_wait){.list = &p->manifold, .n = 1, .deadline = 100}, NTSYNC_QUEUED); break;
    case GOT_MANIFOLD: sleep_until(p, self, NTSYNC_MONOTONIC, 50, 0); break;
    default: expect(p, "steps of the valve", (uint64_t)self->state, NEVER_REACHED);
    }
}
