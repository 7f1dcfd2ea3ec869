/* The timeline and its checks: each call of the tasks is printed and compared, and its woken tasks are made ready. */
#include "plant.h"

#include <stdarg.h>
#include <stdio.h>

static void begin_line(const plant *p, const char *who)
{
    printf("[mono %2u real %7u] %-8s ", (unsigned)p->clocks[NTSYNC_MONOTONIC], (unsigned)p->clocks[NTSYNC_REALTIME], who);
}

void say(const plant *p, const char *who, const char *format, ...)
{
    va_list rest;
    begin_line(p, who);
    va_start(rest, format);
    vprintf(format, rest);
    va_end(rest);
    putchar('\n');
}

/* A difference is printed and counted, and the run goes on: one report shows all of them. */
void expect(plant *p, const char *what, uint64_t got, uint64_t wanted)
{
    if (got == wanted)
        return;
    p->failures++;
    say(p, "FAILED", "%s: %llu, the scenario says %llu", what, (unsigned long long)got, (unsigned long long)wanted);
}

ntsync_changed result(uint32_t answer, uint32_t previous, uint32_t woken)
{
    ntsync_changed r = {answer, previous, woken};
    return r;
}

void heard_as(plant *p, const task *t, outcome heard, uint32_t answer, uint32_t index)
{
    say(p, t->name, "%s: %s, index %u", heard.woken ? "wakes" : "goes on", ntsync_answer_name(heard.answer),
        (unsigned)heard.index);
    expect(p, "answer of the wait", heard.answer, answer);
    expect(p, "index of the wait", heard.index, index);
}

static void say_deadline(const ntsync_wait *w)
{
    if (w->deadline != NTSYNC_NEVER)
        printf(" until %s %u", w->clock == NTSYNC_REALTIME ? "real" : "mono", (unsigned)w->deadline);
}

/* A refused wait has no outcome: its task is neither ready nor waiting, and goes on in the step that asked. */
static void say_waited(ntsync_waited r)
{
    if (r.answer == NTSYNC_QUEUED)
        printf(": QUEUED, ticket %u\n", (unsigned)r.ticket);
    else
        printf(": %s%s\n", ntsync_answer_name(r.answer), ntsync_refused(r.answer) ? ", refused" : " at once");
}

static void say_wait(const plant *p, const task *t, const char *verb, const ntsync_wait *w, ntsync_waited r)
{
    begin_line(p, t->name);
    printf("%s", verb);
    for (size_t i = 0; i < w->n; i++)
        printf(" %s", p->object_names[w->list[i]]);
    say_deadline(w);
    if (w->alert != 0)
        printf(", alert %s", p->object_names[w->alert]);
    say_waited(r);
}

void wait_any(plant *p, task *t, ntsync_wait w, uint32_t wanted)
{
    ntsync_waited r = host_wait_any(&p->host, t, w);
    say_wait(p, t, "waits for any of", &w, r);
    expect(p, "answer of the call", r.answer, wanted);
}

void wait_all(plant *p, task *t, ntsync_wait w, uint32_t wanted)
{
    ntsync_waited r = host_wait_all(&p->host, t, w);
    say_wait(p, t, ntsync_refused(wanted) ? "tries to wait for all of" : "waits for all of", &w, r);
    expect(p, "answer of the call", r.answer, wanted);
}

/* A wait for any of no objects: only its deadline, its alert or a cancel ends it. */
void sleep_until(plant *p, task *t, uint32_t clock, uint64_t time, uint32_t alert)
{
    ntsync_wait w = {.alert = alert, .clock = clock, .deadline = time};
    ntsync_waited r = host_wait_any(&p->host, t, w);
    say_wait(p, t, "sleeps", &w, r);
    expect(p, "answer of the call", r.answer, NTSYNC_QUEUED);
}

void changed(plant *p, const char *who, const char *call, ntsync_changed r, ntsync_changed wanted)
{
    say(p, who, "%s: %s, previous %u, woken %u", call, ntsync_answer_name(r.answer), (unsigned)r.previous, (unsigned)r.woken);
    expect(p, call, r.answer, wanted.answer);
    expect(p, "previous", r.previous, wanted.previous);
    expect(p, "woken", r.woken, wanted.woken);
    host_wake(&p->host, r.woken);
}

void answered(plant *p, const char *who, const char *call, uint32_t answer, uint32_t wanted)
{
    say(p, who, "%s: %s", call, ntsync_answer_name(answer));
    expect(p, call, answer, wanted);
}

void unlock(plant *p, const task *t, const char *call, ntsync_changed wanted)
{
    changed(p, t->name, call,
            ntsync_unlock(p->host.tables, NTSYNC_CELLS, p->host.wake, NTSYNC_WAKE_CELLS, p->manifold, t->owner), wanted);
}
