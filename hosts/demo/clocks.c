/* The system's own clocks, in nanoseconds, and a loop that sleeps until the next deadline. POSIX. */
#define _POSIX_C_SOURCE 200809L
#include "host.h"

#include <time.h>

static const uint64_t SECOND = 1000000000;

/* A real-time clock may be set forward while the host sleeps by the monotonic one; that is noticed after this time. */
static const uint64_t LOOK_AGAIN = 100000000;

uint64_t system_now(void *world, uint32_t clock)
{
    struct timespec t;
    (void)world;
    if (clock_gettime(clock == NTSYNC_REALTIME ? CLOCK_REALTIME : CLOCK_MONOTONIC, &t) != 0)
        return 0;
    return (uint64_t)t.tv_sec * SECOND + (uint64_t)t.tv_nsec;
}

/* How long until the next deadline of that clock, NTSYNC_NEVER if there is none. */
static uint64_t span_to_next(const host *h, uint32_t clock)
{
    uint64_t next = host_next_deadline(h, clock), now = h->now(h->world, clock);
    if (next == NTSYNC_NEVER)
        return NTSYNC_NEVER;
    return next > now ? next - now : 0;
}

static void sleep_for(uint64_t span)
{
    uint64_t until = system_now(NULL, NTSYNC_MONOTONIC) + span;
    struct timespec t = {.tv_sec = (time_t)(until / SECOND), .tv_nsec = (long)(until % SECOND)};
    /* Ended early by a signal, it is a shorter sleep: the loop looks at the clocks again. */
    (void)clock_nanosleep(CLOCK_MONOTONIC, TIMER_ABSTIME, &t, NULL);
}

unsigned host_run_by_system_clocks(host *h)
{
    for (unsigned slept = 0;; slept++) {
        host_run_ready(h);
        uint64_t mono = span_to_next(h, NTSYNC_MONOTONIC), real = span_to_next(h, NTSYNC_REALTIME);
        if (mono == NTSYNC_NEVER && real == NTSYNC_NEVER)
            return slept;
        if (real != NTSYNC_NEVER && real > LOOK_AGAIN)
            real = LOOK_AGAIN;
        sleep_for(mono < real ? mono : real);
        host_expire(h);
    }
}
