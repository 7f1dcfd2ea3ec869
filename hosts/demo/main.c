/* A plant on two simulated clocks: the operator's acts, and the snapshot at the end. Any answer that the scenario does not
 * say makes the exit code 1. With --live: a short run by the system's own clocks instead. */
#include "plant.h"

#include <stdio.h>
#include <string.h>

enum { TICK = 5, END = 60 };

/* ---- the operator's acts */

static void set_clock_back(plant *p)
{
    p->clocks[NTSYNC_REALTIME] -= TICK;
    say(p, "operator", "sets the real-time clock back by %d", TICK);
}

static void close_manifold(plant *p)
{
    answered(p, "operator", "tries to close the manifold", ntsync_close(p->host.tables, NTSYNC_CELLS, p->manifold),
             NTSYNC_BUSY);
}

/* The valve died in its sleep. Its wait is ended first, then the manifold is abandoned, and the standby valve gets it. */
static void find_valve_dead(plant *p)
{
    say(p, "operator", "finds the valve dead, holding the manifold");
    burial b = host_bury(&p->host, p->tasks[VALVE]);
    say(p, "host", "buries the valve: wait ended %d, mutexes abandoned %u, woken %u", b.wait_ended, (unsigned)b.mutexes,
        (unsigned)b.woken);
    expect(p, "refusal", b.refusal, NTSYNC_DONE);
    expect(p, "wait ended", (uint64_t)b.wait_ended, 1);
    expect(p, "mutexes abandoned", b.mutexes, 1);
    expect(p, "woken", b.woken, 1);
}

/* Both waits on it are served, and it is clear afterwards. */
static void pulse_flush(plant *p)
{
    changed(p, "operator", "pulses flush",
            ntsync_pulse(p->host.tables, NTSYNC_CELLS, p->host.wake, NTSYNC_WAKE_CELLS, p->flush), result(NTSYNC_DONE, 0, 2));
    expect(p, "flush", ntsync_read_event(p->host.tables, NTSYNC_CELLS, p->flush).signaled, 0);
}

/* The second time there is no wait to end, and the recorder is not made ready once more. */
static void cancel_recorder(plant *p)
{
    task *t = p->tasks[RECORDER];
    answered(p, "operator", "cancels the recorder's wait", host_cancel(&p->host, t), NTSYNC_EINTR);
    answered(p, "operator", "tries to cancel it again", host_cancel(&p->host, t), NTSYNC_EINVAL);
    expect(p, "ready tasks", p->host.ready_count, 1);
}

/* The alert of the standby valve's sleep ends it; then nothing names the event, and it can be closed. */
static void stop_standby(plant *p)
{
    uint64_t *t = p->host.tables;
    answered(p, "operator", "tries to close stop", ntsync_close(t, NTSYNC_CELLS, p->stop), NTSYNC_BUSY);
    changed(p, "operator", "sets stop", ntsync_set(t, NTSYNC_CELLS, p->host.wake, NTSYNC_WAKE_CELLS, p->stop),
            result(NTSYNC_DONE, 0, 1));
    answered(p, "operator", "closes stop", ntsync_close(t, NTSYNC_CELLS, p->stop), NTSYNC_DONE);
}

static void operate(plant *p)
{
    switch (p->clocks[NTSYNC_MONOTONIC]) {
    case 5: set_clock_back(p); break;
    case 25: close_manifold(p); break;
    case END / 2: cut_power(p); break;
    case 35: find_valve_dead(p); break;
    case 45: pulse_flush(p); break;
    case 55: cancel_recorder(p); break;
    case END: stop_standby(p); break;
    default: break;
    }
}

/* ---- the run */

static uint64_t simulated_now(void *world, uint32_t clock)
{
    const plant *p = world;
    return p->clocks[clock == NTSYNC_REALTIME ? NTSYNC_REALTIME : NTSYNC_MONOTONIC];
}

static void run(plant *p)
{
    host_run_ready(&p->host);
    while (p->clocks[NTSYNC_MONOTONIC] < END) {
        p->clocks[NTSYNC_MONOTONIC] += TICK;
        p->clocks[NTSYNC_REALTIME] += TICK;
        host_expire(&p->host);
        host_run_ready(&p->host);
        operate(p);
        host_run_ready(&p->host);
    }
}

static void print_snapshot(plant *p)
{
    static uint8_t buffer[NTSYNC_SNAPSHOT_BYTES];
    ntsync_written r = ntsync_snapshot(p->host.tables, NTSYNC_CELLS, buffer, sizeof buffer);
    answered(p, "host", "takes a snapshot", r.answer, NTSYNC_DONE);
    fwrite(buffer, 1, r.length, stdout);
}

/* How far each task must have come: a task that was never woken gives no wrong answer by itself. The valve's place is free
 * for another task. */
static void check_ends(plant *p)
{
    static const int steps[TASKS] = {5, 7, 3, 7, 4};
    for (int i = 0; i < TASKS; i++)
        expect(p, p->tasks[i]->name, (uint64_t)p->tasks[i]->state, (uint64_t)steps[i]);
    expect(p, "the valve's place", p->tasks[VALVE]->place, TASK_FREE);
    expect(p, "next deadline", host_next_deadline(&p->host, NTSYNC_REALTIME), 2000000);
    expect(p, "faults of the host", p->host.faults, 0);
}

int main(int count, char **words)
{
    static plant p;
    if (count == 2 && strcmp(words[1], "--live") == 0)
        return run_live() != 0;
    if (!host_start(&p.host, simulated_now, &p)) {
        fprintf(stderr, "ntsync.h is version %d, the archive %u\n", NTSYNC_VERSION, (unsigned)ntsync_version());
        return 1;
    }
    p.clocks[NTSYNC_REALTIME] = 1000000;
    build_plant(&p);
    run(&p);
    print_snapshot(&p);
    check_ends(&p);
    printf("%d failures\n", p.failures);
    return p.failures != 0;
}
