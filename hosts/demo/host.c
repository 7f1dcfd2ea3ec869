#include "host.h"

#include <string.h>

int host_start(host *h, clock_function *now, void *world)
{
    memset(h, 0, sizeof *h);
    h->now = now;
    h->world = world;
    return ntsync_version_agrees() && ntsync_init(h->tables, NTSYNC_CELLS) == NTSYNC_DONE;
}

/* ---- the ready list: bounded, each task once. The callers below see to both; the test is for those to come. */

static void make_ready(host *h, task *t, outcome heard)
{
    if (t->place == TASK_READY || h->ready_count == HOST_TASKS) {
        h->faults++;
        return;
    }
    t->place = TASK_READY;
    t->ticket = 0;
    t->heard = heard;
    h->ready[(h->ready_first + h->ready_count++) % HOST_TASKS] = t;
}

static task *next_ready(host *h)
{
    task *first = h->ready[h->ready_first];
    h->ready_first = (h->ready_first + 1) % HOST_TASKS;
    h->ready_count--;
    return first;
}

/* The others keep their order. */
static void drop_ready(host *h, const task *t)
{
    for (size_t rest = h->ready_count; rest > 0; rest--) {
        task *next = next_ready(h);
        if (next != t)
            h->ready[(h->ready_first + h->ready_count++) % HOST_TASKS] = next;
    }
}

void host_run_ready(host *h)
{
    while (h->ready_count > 0) {
        task *t = next_ready(h);
        t->place = TASK_IDLE;
        t->step(h->world, t, t->heard);
    }
}

/* ---- tasks and their waits */

/* Owner numbers are the host's own: here a task's place, from 1. */
task *host_add(host *h, const char *name, step_function *step)
{
    static const outcome none = {NTSYNC_DONE, 0, 0};
    for (uint32_t i = 0; i < HOST_TASKS; i++) {
        task *t = &h->tasks[i];
        if (t->place != TASK_FREE)
            continue;
        memset(t, 0, sizeof *t);
        t->name = name;
        t->step = step;
        t->place = TASK_IDLE;
        t->owner = i + 1;
        make_ready(h, t, none);
        return t;
    }
    return NULL;
}

static ntsync_waited waited(host *h, task *t, const ntsync_wait *w, ntsync_waited r)
{
    if (r.answer == NTSYNC_QUEUED) {
        t->place = TASK_WAITING;
        t->ticket = r.ticket;
        t->clock = w->clock;
        t->deadline = w->deadline;
    } else if (!ntsync_refused(r.answer)) {
        outcome heard = {r.answer, r.index, 0};
        make_ready(h, t, heard);
    }
    return r;
}

/* A task that waits or is ready already has no second wait: it could not be handed both outcomes. */
static int may_wait(host *h, const task *t)
{
    if (t->place != TASK_IDLE)
        h->faults++;
    return t->place == TASK_IDLE;
}

static const ntsync_waited NOT_ASKED = {NTSYNC_EINVAL, 0, 0};

ntsync_waited host_wait_any(host *h, task *t, ntsync_wait w)
{
    w.owner = t->owner;
    w.now = h->now(h->world, w.clock);
    return may_wait(h, t) ? waited(h, t, &w, ntsync_wait_for_any(h->tables, NTSYNC_CELLS, &w)) : NOT_ASKED;
}

ntsync_waited host_wait_all(host *h, task *t, ntsync_wait w)
{
    w.owner = t->owner;
    w.now = h->now(h->world, w.clock);
    return may_wait(h, t) ? waited(h, t, &w, ntsync_wait_for_all(h->tables, NTSYNC_CELLS, &w)) : NOT_ASKED;
}

static task *task_of(host *h, uint64_t ticket)
{
    for (size_t i = 0; i < HOST_TASKS; i++)
        if (h->tasks[i].place == TASK_WAITING && h->tasks[i].ticket == ticket)
            return &h->tasks[i];
    return NULL;
}

void host_wake(host *h, uint32_t woken)
{
    for (uint32_t i = 0; i < woken; i++) {
        ntsync_record record = ntsync_record_at(h->wake, i);
        outcome heard = {record.answer, record.index, 1};
        task *t = task_of(h, record.ticket);
        if (t != NULL)
            make_ready(h, t, heard);
        else
            h->faults++;
    }
}

/* No record is written for a cancelled wait: the host hands its task the answer. */
uint32_t host_cancel(host *h, task *t)
{
    uint32_t answer = ntsync_cancel(h->tables, NTSYNC_CELLS, t->ticket);
    if (answer == NTSYNC_EINTR) {
        outcome heard = {answer, 0, 1};
        make_ready(h, t, heard);
    }
    return answer;
}

/* ---- a task that died */

/* Every mutex that the owner holds becomes abandoned. The host does not keep which: it tries each handle, and passes over
 * those that are no mutex (EINVAL) or not this owner's (EPERM). */
static void abandon(host *h, uint32_t owner, burial *b)
{
    for (uint32_t handle = 1; handle <= NTSYNC_OBJECT_PLACES; handle++) {
        ntsync_changed r = ntsync_kill_owner(h->tables, NTSYNC_CELLS, h->wake, NTSYNC_WAKE_CELLS, handle, owner);
        if (r.answer == NTSYNC_DONE) {
            b->mutexes++;
            b->woken += r.woken;
            host_wake(h, r.woken);
        } else if (r.answer != NTSYNC_EINVAL && r.answer != NTSYNC_EPERM) {
            b->refusal = r.answer;
        }
    }
}

/* In this order: a wait that is still queued could acquire a mutex for the dead owner after it was abandoned. If a call was
 * refused the place stays in use, so that no other task gets a number that may still hold something. */
burial host_bury(host *h, task *t)
{
    burial b = {0, 0, 0, NTSYNC_DONE};
    if (t->place == TASK_WAITING) {
        uint32_t answer = ntsync_cancel(h->tables, NTSYNC_CELLS, t->ticket);
        b.wait_ended = answer == NTSYNC_EINTR;
        b.refusal = b.wait_ended ? NTSYNC_DONE : answer;
    }
    drop_ready(h, t);
    t->place = TASK_IDLE;
    t->ticket = 0;
    if (b.refusal == NTSYNC_DONE)
        abandon(h, t->owner, &b);
    if (b.refusal == NTSYNC_DONE)
        t->place = TASK_FREE;
    return b;
}

/* ---- clocks: the library has none, so the host passes the time of both */

void host_expire(host *h)
{
    static const uint32_t clocks[] = {NTSYNC_MONOTONIC, NTSYNC_REALTIME};
    for (size_t i = 0; i < sizeof clocks / sizeof clocks[0]; i++) {
        ntsync_changed r = ntsync_expire(h->tables, NTSYNC_CELLS, h->wake, NTSYNC_WAKE_CELLS, clocks[i],
                                         h->now(h->world, clocks[i]));
        if (r.answer != NTSYNC_DONE)
            h->faults++;
        host_wake(h, r.woken);
    }
}

uint64_t host_next_deadline(const host *h, uint32_t clock)
{
    uint64_t next = NTSYNC_NEVER;
    for (size_t i = 0; i < HOST_TASKS; i++) {
        const task *t = &h->tasks[i];
        if (t->place == TASK_WAITING && t->clock == clock && t->deadline < next)
            next = t->deadline;
    }
    return next;
}
