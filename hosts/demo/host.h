/* A single-threaded host over ntsync: tasks as state machines, their waits, a list of ready tasks, two clocks. It knows no
 * plant, prints nothing and allocates nothing: host.h, host.c and clocks.c are there to be copied. */
#ifndef HOST_H
#define HOST_H

#include "ntsync_util.h"

enum { HOST_TASKS = 8 };

typedef struct task task;

/* What a wait came to: DONE, EOWNERDEAD, ETIMEDOUT or EINTR. A refusal is no outcome: the call returns it to who asked.
 * woken: the wait had been queued. */
typedef struct { uint32_t answer, index; int woken; } outcome;

/* One step of a task: it gets how its wait ended and asks for the next wait, or finishes by asking for none. */
typedef void step_function(void *world, task *self, outcome heard);

/* The present time of a clock, NTSYNC_MONOTONIC or NTSYNC_REALTIME, in the unit of the waits' deadlines. */
typedef uint64_t clock_function(void *world, uint32_t clock);

/* IDLE: running, or finished. A task is in one of these, so it has one wait at most and stands in the ready list once. */
enum task_place { TASK_FREE, TASK_IDLE, TASK_READY, TASK_WAITING };

struct task {
    const char *name;
    step_function *step;
    enum task_place place;
    uint32_t owner;    /* its number in the library, not 0 */
    int state;         /* its own */
    uint64_t ticket;   /* of its queued wait, else 0 */
    uint32_t clock;    /* of its queued wait */
    uint64_t deadline; /* likewise */
    outcome heard;     /* how its last wait ended, until it has run */
};

typedef struct {
    uint64_t tables[NTSYNC_CELLS];
    uint64_t wake[NTSYNC_WAKE_CELLS];
    task tasks[HOST_TASKS];
    task *ready[HOST_TASKS]; /* a ring: ready_count of them from ready_first on */
    size_t ready_first, ready_count;
    clock_function *now;
    void *world;     /* for steps and clock: the host's user's own */
    unsigned faults; /* what can't happen unless host or tables are broken: a record without a task, a second wait */
} host;

/* What was done for a task that died. refusal: of a call that must not be refused, NTSYNC_DONE if there was none. */
typedef struct { int wait_ended; uint32_t mutexes, woken, refusal; } burial;

/* 0 if header and archive are of different versions; then nothing was done. */
int host_start(host *h, clock_function *now, void *world);

/* A ready task with a number of its own; null if all places are in use. */
task *host_add(host *h, const char *name, step_function *step);

/* A task's wait. The host sets owner, clock's time and keeps the ticket; the task gives the rest. Queued: a later wake makes
 * it ready. Served or timed out at once: it is ready. Refused (ntsync_refused): neither, and who asked must go on. */
ntsync_waited host_wait_any(host *h, task *t, ntsync_wait w);
ntsync_waited host_wait_all(host *h, task *t, ntsync_wait w);

/* Makes the tasks of the wake list's records ready. Every call with h->wake must be followed by it. */
void host_wake(host *h, uint32_t woken);

/* Ends a task's wait. Only NTSYNC_EINTR makes it ready: at any other answer no wait of it was ended. */
uint32_t host_cancel(host *h, task *t);

/* The task died: ends its wait, abandons every mutex that it held, then gives its place and number free. */
burial host_bury(host *h, task *t);

/* Ends the waits of both clocks whose time is up; runs ready tasks until there is none. */
void host_expire(host *h);
void host_run_ready(host *h);

/* The earliest deadline of the queued waits on that clock, NTSYNC_NEVER if there is none. */
uint64_t host_next_deadline(const host *h, uint32_t clock);

/* clocks.c: the system's clocks in nanoseconds, and a loop that sleeps until the next deadline. It returns when no task is
 * ready or waits with a deadline; the result is how often it slept. */
clock_function system_now;
unsigned host_run_by_system_clocks(host *h);

#endif
