/* What C sees of the interface: layouts, constants, and the numbers of one run of every call. abi.rs prints the same lines
 * as Rust sees it, and check compares them. */
#include "ntsync.h"
#include "ntsync.h" /* its include guard */

#include <stdio.h>

static uint64_t tables[NTSYNC_CELLS], wake[NTSYNC_WAKE_CELLS];
static uint8_t buffer[NTSYNC_SNAPSHOT_BYTES];

/* A struct's line: its name, size, and the offset of each field. */
#define STRUCT(type) printf("%s %u", #type, (unsigned)sizeof(type))
#define FIELD(type, field) printf(" %s %u", #field, (unsigned)offsetof(type, field))
#define TWO(type, a, b) (STRUCT(type), FIELD(type, a), FIELD(type, b), putchar('\n'))
#define THREE(type, a, b, c) (STRUCT(type), FIELD(type, a), FIELD(type, b), FIELD(type, c), putchar('\n'))
#define CONSTANT(name) printf("%s %llu\n", #name, (unsigned long long)(name))

static void layouts(void)
{
    TWO(ntsync_created, answer, handle);
    THREE(ntsync_sem_state, answer, count, max);
    THREE(ntsync_mutex_state, answer, owner, count);
    THREE(ntsync_event_state, answer, signaled, manual);
    THREE(ntsync_changed, answer, previous, woken);
    THREE(ntsync_waited, answer, index, ticket);
    TWO(ntsync_written, answer, length);
    TWO(ntsync_restored, answer, offset);
}

static void sizes(void)
{
    CONSTANT(NTSYNC_VERSION);
    CONSTANT(NTSYNC_CELLS);
    CONSTANT(NTSYNC_OBJECT_PLACES);
    CONSTANT(NTSYNC_WAIT_PLACES);
    CONSTANT(NTSYNC_MAX_LISTED);
    CONSTANT(NTSYNC_RECORD_CELLS);
    CONSTANT(NTSYNC_WAKE_CELLS);
    CONSTANT(NTSYNC_SNAPSHOT_BYTES);
    CONSTANT(NTSYNC_MONOTONIC);
    CONSTANT(NTSYNC_REALTIME);
    CONSTANT(NTSYNC_NEVER);
}

static void answers(void)
{
    CONSTANT(NTSYNC_DONE);
    CONSTANT(NTSYNC_EINVAL);
    CONSTANT(NTSYNC_EPERM);
    CONSTANT(NTSYNC_EOVERFLOW);
    CONSTANT(NTSYNC_EOWNERDEAD);
    CONSTANT(NTSYNC_ETIMEDOUT);
    CONSTANT(NTSYNC_EINTR);
    CONSTANT(NTSYNC_NO_ROOM);
    CONSTANT(NTSYNC_TICKETS_SPENT);
    CONSTANT(NTSYNC_CORRUPT);
    CONSTANT(NTSYNC_BUSY);
    CONSTANT(NTSYNC_QUEUED);
    CONSTANT(NTSYNC_LIST_SHORT);
    CONSTANT(NTSYNC_NOT_A_SNAPSHOT);
}

/* ---- one run of every call: all fields of what it returned, in the order of the struct */

static void one(const char *call, uint32_t a) { printf("%s %u\n", call, (unsigned)a); }

static void two(const char *call, uint32_t a, uint64_t b) { printf("%s %u %llu\n", call, (unsigned)a, (unsigned long long)b); }

static void three(const char *call, uint32_t a, uint32_t b, uint64_t c)
{
    printf("%s %u %u %llu\n", call, (unsigned)a, (unsigned)b, (unsigned long long)c);
}

static void created(const char *call, ntsync_created r) { two(call, r.answer, r.handle); }

static void waited(const char *call, ntsync_waited r) { three(call, r.answer, r.index, r.ticket); }

static void changed(const char *call, ntsync_changed r)
{
    three(call, r.answer, r.previous, r.woken);
    for (uint32_t i = 0; i < NTSYNC_RECORD_CELLS * r.woken; i++)
        printf("%llu\n", (unsigned long long)wake[i]);
}

static void objects(void)
{
    one("version", ntsync_version());
    one("init", ntsync_init(tables, NTSYNC_CELLS));
    created("create_sem", ntsync_create_sem(tables, NTSYNC_CELLS, 4, 9));
    created("create_mutex", ntsync_create_mutex(tables, NTSYNC_CELLS, 5, 3));
    created("create_event", ntsync_create_event(tables, NTSYNC_CELLS, 0, 1));
    created("create_event", ntsync_create_event(tables, NTSYNC_CELLS, 1, 0));
    ntsync_sem_state s = ntsync_read_sem(tables, NTSYNC_CELLS, 1);
    three("read_sem", s.answer, s.count, s.max);
    ntsync_mutex_state m = ntsync_read_mutex(tables, NTSYNC_CELLS, 2);
    three("read_mutex", m.answer, m.owner, m.count);
    ntsync_event_state e = ntsync_read_event(tables, NTSYNC_CELLS, 3);
    three("read_event", e.answer, e.signaled, e.manual);
    one("close", ntsync_close(tables, NTSYNC_CELLS, 4));
}

/* Each argument has a value of its own, so that two that were exchanged would show; only a wait for all refuses a handle
 * that is listed twice. */
static void waits(void)
{
    const uint32_t list[] = {2, 3}, twice[] = {3, 3};
    waited("wait_any", ntsync_wait_any(tables, NTSYNC_CELLS, list, 2, 6, 3, 1, 0, 1000, 900));
    waited("wait_any", ntsync_wait_any(tables, NTSYNC_CELLS, list, 1, 7, 0, 0, 0, 2000, 1900));
    waited("wait_all", ntsync_wait_all(tables, NTSYNC_CELLS, list, 2, 8, 0, 0, 0, 3000, 2900));
    waited("wait_all", ntsync_wait_all(tables, NTSYNC_CELLS, list, 1, 9, 3, 1, 0, 4000, 4000));
    waited("wait_any", ntsync_wait_any(tables, NTSYNC_CELLS, list, 1, 7, 0, 0, 9, 2000, 1900));
    waited("empty list", ntsync_wait_any_list(tables, NTSYNC_CELLS, NULL, 0, 7, 3, 0, 0, 2000, 1900));
    waited("empty list", ntsync_wait_all_list(tables, NTSYNC_CELLS, NULL, 0, 7, 3, 0, 0, 2000, 1900));
    waited("list", ntsync_wait_any_list(tables, NTSYNC_CELLS, twice, 2, 6, 0, 1, 0, 900, 900));
    waited("list", ntsync_wait_all_list(tables, NTSYNC_CELLS, twice, 2, 6, 0, 1, 0, 900, 900));
    waited("list", ntsync_wait_all_list(tables, NTSYNC_CELLS, twice, 1, 6, 0, 1, 0, 901, 900));
    waited("list", ntsync_wait_any_list(tables, NTSYNC_CELLS, list, 1, 6, 3, 1, 0, 902, 900));
    waited("list", ntsync_wait_all_list(tables, NTSYNC_CELLS, list, 1, 6, 3, 1, 0, 903, 900));
}

static void signals(void)
{
    changed("post", ntsync_post(tables, NTSYNC_CELLS, wake, NTSYNC_WAKE_CELLS, 1, 2));
    changed("expire", ntsync_expire(tables, NTSYNC_CELLS, wake, NTSYNC_WAKE_CELLS, 1, 999));
    changed("unlock", ntsync_unlock(tables, NTSYNC_CELLS, wake, NTSYNC_WAKE_CELLS, 2, 5));
    changed("kill_owner", ntsync_kill_owner(tables, NTSYNC_CELLS, wake, NTSYNC_WAKE_CELLS, 2, 5));
    changed("set", ntsync_set(tables, NTSYNC_CELLS, wake, NTSYNC_WAKE_CELLS, 3));
    changed("reset", ntsync_reset(tables, NTSYNC_CELLS, 3));
    changed("pulse", ntsync_pulse(tables, NTSYNC_CELLS, wake, NTSYNC_WAKE_CELLS, 3));
    one("cancel", ntsync_cancel(tables, NTSYNC_CELLS, 3));
}

static void restored(const char *call, ntsync_restored r) { two(call, r.answer, r.offset); }

/* The snapshot, read back into other cells; then all but its last byte. */
static void snapshots(void)
{
    static uint64_t other[NTSYNC_CELLS];
    ntsync_written r = ntsync_snapshot(tables, NTSYNC_CELLS, buffer, sizeof buffer);
    two("snapshot", r.answer, r.length);
    fwrite(buffer, 1, r.length, stdout);
    restored("restore", ntsync_restore(other, NTSYNC_CELLS, buffer, r.length));
    one("as queued", ntsync_cancel(other, NTSYNC_CELLS, 2));
    restored("restore", ntsync_restore(other, NTSYNC_CELLS, buffer, r.length - 1));
    one("unaltered", ntsync_cancel(other, NTSYNC_CELLS, 2));
}

int main(void)
{
    layouts();
    sizes();
    answers();
    objects();
    waits();
    signals();
    snapshots();
    return 0;
}
