/* The standby valve takes over an abandoned manifold: it hears EOWNERDEAD, owns it all the same, and inspects the pipe. At
 * last it sleeps until it is told to stop. */
#include "plant.h"

enum { START, NO_FLUSH, ABANDONED, INSPECTING, INSPECTED, FLUSHED, FINISH };

/* A wait for all of one event twice is refused, so the task asks again in the same step. Its deadline is one of the real-time
 * clock, which the operator sets back meanwhile. */
static void wait_for_flush(plant *p, task *self)
{
    const uint32_t twice[] = {p->flush, p->flush};
    ntsync_wait w = {.list = twice, .n = 2, .clock = NTSYNC_REALTIME, .deadline = 1000020};
    wait_all(p, self, w, NTSYNC_EINVAL);
    w.n = 1;
    wait_any(p, self, w, NTSYNC_QUEUED);
}

/* The pump holds the manifold, so nobody else can unlock it; the standby valve waits for it without a deadline. */
static void ask_for_manifold(plant *p, task *self)
{
    unlock(p, self, "tries to unlock the manifold", result(NTSYNC_EPERM, 0, 0));
    ntsync_wait w = {.list = &p->manifold, .n = 1, .clock = NTSYNC_REALTIME, .deadline = NTSYNC_NEVER};
    wait_any(p, self, w, NTSYNC_QUEUED);
}

/* Its own mutex serves it at once, and counts. */
static void take_again(plant *p, task *self)
{
    ntsync_mutex_state m = ntsync_read_mutex(p->host.tables, NTSYNC_CELLS, p->manifold);
    expect(p, "owner of the manifold", m.owner, self->owner);
    wait_any(p, self, (ntsync_wait){.list = &p->manifold, .n = 1, .deadline = NTSYNC_NEVER}, NTSYNC_DONE);
}

static void inspect(plant *p, task *self)
{
    unlock(p, self, "unlocks the manifold once", result(NTSYNC_DONE, 2, 0));
    sleep_until(p, self, NTSYNC_REALTIME, 1000035, 0);
}

static void hand_back(plant *p, task *self)
{
    unlock(p, self, "unlocks the manifold", result(NTSYNC_DONE, 1, 1));
    wait_any(p, self, (ntsync_wait){.list = &p->flush, .n = 1, .deadline = NTSYNC_NEVER}, NTSYNC_QUEUED);
}

/* Index 0 is the length of the empty list, so the alert; NT tells it so. */
static void finish(plant *p, const task *self, outcome heard)
{
    expect(p, "status of the sleep", ntsync_wait_status(heard.answer, heard.index, 0), NTSYNC_STATUS_USER_APC);
    say(p, self->name, "finishes");
}

void standby_step(void *world, task *self, outcome heard)
{
    plant *p = world;
    static const uint32_t wanted[] = {NTSYNC_DONE, NTSYNC_ETIMEDOUT, NTSYNC_EOWNERDEAD, NTSYNC_DONE,
                                      NTSYNC_ETIMEDOUT, NTSYNC_DONE, NTSYNC_DONE};
    int state = self->state++;
    if (state > START && state <= FINISH)
        heard_as(p, self, heard, wanted[state], 0);
    switch (state) {
    case START: wait_for_flush(p, self); break;
    case NO_FLUSH: ask_for_manifold(p, self); break;
    case ABANDONED: take_again(p, self); break;
    case INSPECTING: inspect(p, self); break;
    case INSPECTED: hand_back(p, self); break;
    case FLUSHED: sleep_until(p, self, NTSYNC_MONOTONIC, 100, p->stop); break;
    case FINISH: finish(p, self, heard); break;
    default: expect(p, "steps of the standby valve", (uint64_t)self->state, FINISH);
    }
}
