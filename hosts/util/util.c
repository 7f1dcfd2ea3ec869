/* Every function of ntsync_util.h, and each for every answer. Compiled as C99 and as C++11. */
#include "ntsync_util.h"
#include "ntsync_util.h" /* its include guard */

#include <stdio.h>
#include <string.h>

static uint64_t tables[NTSYNC_CELLS], other[NTSYNC_CELLS], wake[NTSYNC_WAKE_CELLS];
static int failures;

static void same(const char *what, unsigned long long got, unsigned long long wanted)
{
    if (got == wanted)
        return;
    failures++;
    printf("%s: %llx, wanted %llx\n", what, got, wanted);
}

/* ---- answers: NT's values as numbers here, so that a wrong constant shows */

typedef struct { uint32_t answer; const char *name; int refused; uint32_t handle, create, wait; } row;

static const row rows[] = {
    {NTSYNC_DONE, "DONE", 0, 0, 0, 2},
    {NTSYNC_EINVAL, "EINVAL", 1, 0xC0000008, 0xC000000D, 0xC0000008},
    {NTSYNC_EPERM, "EPERM", 1, 0xC0000046, 0xC0000046, 0xC0000046},
    {NTSYNC_EOVERFLOW, "EOVERFLOW", 1, 0xC0000047, 0xC0000047, 0xC0000047},
    {NTSYNC_EOWNERDEAD, "EOWNERDEAD", 0, 0, 0, 0x82},
    {NTSYNC_ETIMEDOUT, "ETIMEDOUT", 0, 0x102, 0x102, 0x102},
    {NTSYNC_EINTR, "EINTR", 0, 0xC0000120, 0xC0000120, 0xC0000120},
    {NTSYNC_NO_ROOM, "NO_ROOM", 1, 0xC000009A, 0xC000009A, 0xC000009A},
    {NTSYNC_TICKETS_SPENT, "TICKETS_SPENT", 1, 0xC000009A, 0xC000009A, 0xC000009A},
    {NTSYNC_CORRUPT, "CORRUPT", 1, 0xC00000E5, 0xC00000E5, 0xC00000E5},
    {NTSYNC_BUSY, "BUSY", 1, 0xC0000708, 0xC0000708, 0xC0000708},
    {NTSYNC_QUEUED, "QUEUED", 0, 0x103, 0x103, 0x103},
    {NTSYNC_LIST_SHORT, "LIST_SHORT", 1, 0xC0000023, 0xC0000023, 0xC0000023},
    {NTSYNC_NOT_A_SNAPSHOT, "NOT_A_SNAPSHOT", 1, 0xC00000E5, 0xC00000E5, 0xC00000E5},
    {14, "UNKNOWN", 1, 0xC00000E5, 0xC00000E5, 0xC00000E5},
    {UINT32_MAX, "UNKNOWN", 1, 0xC00000E5, 0xC00000E5, 0xC00000E5},
};

static void answers(void)
{
    for (size_t i = 0; i < sizeof rows / sizeof rows[0]; i++) {
        const row *r = &rows[i];
        same(r->name, (unsigned long long)strcmp(ntsync_answer_name(r->answer), r->name), 0);
        same("refused", (unsigned long long)ntsync_refused(r->answer), (unsigned long long)r->refused);
        same("handle status", ntsync_handle_status(r->answer), r->handle);
        same("create status", ntsync_create_status(r->answer), r->create);
        same("wait status", ntsync_wait_status(r->answer, 2, 3), r->wait);
    }
}

/* The edges of index and list: the first and last handle, the alert, lists that no wait may have. */
static void statuses(void)
{
    same("first of 64", ntsync_wait_status(NTSYNC_DONE, 0, 64), 0);
    same("last of 64", ntsync_wait_status(NTSYNC_DONE, 63, 64), 0x3F);
    same("alert of 64", ntsync_wait_status(NTSYNC_DONE, 64, 64), 0xC0);
    same("alert of 1", ntsync_wait_status(NTSYNC_DONE, 1, 1), 0xC0);
    same("alert of none", ntsync_wait_status(NTSYNC_DONE, 0, 0), 0xC0);
    same("time of none", ntsync_wait_status(NTSYNC_ETIMEDOUT, 0, 0), 0x102);
    same("first abandoned", ntsync_wait_status(NTSYNC_EOWNERDEAD, 0, 1), 0x80);
    same("last abandoned", ntsync_wait_status(NTSYNC_EOWNERDEAD, 63, 64), 0xBF);
    same("no list", ntsync_wait_status(NTSYNC_EINVAL, 0, 0), 0xC000000D);
    same("long list", ntsync_wait_status(NTSYNC_EINVAL, 0, 65), 0xC000000D);
    same("longest list", ntsync_wait_status(NTSYNC_EINVAL, 0, 64), 0xC0000008);
    same("shortest list", ntsync_wait_status(NTSYNC_EINVAL, 0, 1), 0xC0000008);
    same("success", NTSYNC_STATUS_SUCCESS, NTSYNC_STATUS_WAIT_0);
}

/* ---- waits: the same by position on one copy of the tables and by name on another */

static void make(uint64_t *made)
{
    same("init", ntsync_init(made, NTSYNC_CELLS), NTSYNC_DONE);
    same("mutex", ntsync_create_mutex(made, NTSYNC_CELLS, 5, 1).handle, 1);
    same("event", ntsync_create_event(made, NTSYNC_CELLS, 0, 1).handle, 2);
    same("alert", ntsync_create_event(made, NTSYNC_CELLS, 0, 0).handle, 3);
}

static void compare(const char *what, ntsync_waited by_name, ntsync_waited by_position, uint32_t answer)
{
    same(what, by_name.answer, answer);
    same(what, by_position.answer, answer);
    same(what, by_name.index, by_position.index);
    same(what, by_name.ticket, by_position.ticket);
    same(what, (unsigned long long)(memcmp(tables, other, sizeof tables) != 0), 0);
}

/* Every field has a value of its own, and the queued wait's cells have them all but the time. */
static ntsync_wait named(const uint32_t *list, size_t n)
{
    ntsync_wait w;
    memset(&w, 0, sizeof w);
    w.list = list;
    w.n = n;
    w.owner = 6;
    w.alert = 3;
    w.clock = NTSYNC_REALTIME;
    w.deadline = 1000;
    w.now = 900;
    return w;
}

static void waits(void)
{
    const uint32_t list[] = {1, 2}, twice[] = {2, 2};
    make(tables);
    make(other);
    ntsync_wait w = named(list, 2);
    compare("any", ntsync_wait_for_any(tables, NTSYNC_CELLS, &w),
            ntsync_wait_any(other, NTSYNC_CELLS, list, 2, 6, 3, 1, 0, 1000, 900), NTSYNC_QUEUED);
    compare("all", ntsync_wait_for_all(tables, NTSYNC_CELLS, &w),
            ntsync_wait_all(other, NTSYNC_CELLS, list, 2, 6, 3, 1, 0, 1000, 900), NTSYNC_QUEUED);
    w = named(twice, 2);
    compare("any, twice", ntsync_wait_for_any(tables, NTSYNC_CELLS, &w),
            ntsync_wait_any(other, NTSYNC_CELLS, twice, 2, 6, 3, 1, 0, 1000, 900), NTSYNC_QUEUED);
    compare("all, twice", ntsync_wait_for_all(tables, NTSYNC_CELLS, &w),
            ntsync_wait_all(other, NTSYNC_CELLS, twice, 2, 6, 3, 1, 0, 1000, 900), NTSYNC_EINVAL);
    w.now = 1000;
    compare("any, time up", ntsync_wait_for_any(tables, NTSYNC_CELLS, &w),
            ntsync_wait_any(other, NTSYNC_CELLS, twice, 2, 6, 3, 1, 0, 1000, 1000), NTSYNC_ETIMEDOUT);
    w = named(NULL, 0);
    compare("any of none", ntsync_wait_for_any(tables, NTSYNC_CELLS, &w),
            ntsync_wait_any(other, NTSYNC_CELLS, list, 0, 6, 3, 1, 0, 1000, 900), NTSYNC_QUEUED);
    compare("all of none", ntsync_wait_for_all(tables, NTSYNC_CELLS, &w),
            ntsync_wait_all(other, NTSYNC_CELLS, list, 0, 6, 3, 1, 0, 1000, 900), NTSYNC_EINVAL);
}

/* After waits(): tickets 1 and 3 are waits for any that name the event, in this order. */
static void records(void)
{
    ntsync_changed set = ntsync_set(tables, NTSYNC_CELLS, wake, NTSYNC_WAKE_CELLS, 2);
    same("woken", set.woken, 2);
    ntsync_record first = ntsync_record_at(wake, 0), second = ntsync_record_at(wake, 1);
    same("first ticket", first.ticket, 1);
    same("first answer", first.answer, NTSYNC_DONE);
    same("first index", first.index, 1);
    same("second ticket", second.ticket, 3);
    same("second index", second.index, 0);
    for (uint64_t i = 0; i < NTSYNC_WAKE_CELLS; i++)
        wake[i] = i;
    wake[93] = UINT64_MAX - 1;
    ntsync_record last = ntsync_record_at(wake, NTSYNC_WAIT_PLACES - 1);
    same("last ticket", last.ticket, UINT64_MAX - 1);
    same("last answer", last.answer, 94);
    same("last index", last.index, 95);
}

int main(void)
{
    same("version", (unsigned long long)ntsync_version_agrees(), ntsync_version() == NTSYNC_VERSION);
    same("version", (unsigned long long)ntsync_version_agrees(), 1);
    answers();
    statuses();
    waits();
    records();
    return failures != 0;
}
