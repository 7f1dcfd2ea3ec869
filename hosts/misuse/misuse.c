/* Programs that misuse the library, one for each -DCASE=number; CASE 0 does the same rightly. check compiles each with
 * -Werror, and the compiler must refuse all but 0. Nothing here runs. */
#include "ntsync_util.h"

#define TABLES h->tables, NTSYNC_CELLS
#define WAKE h->wake, NTSYNC_WAKE_CELLS

#if CASE == 0 /* no misuse */
#define PROGRAM                                                                                     \
    ntsync_wait w = {.list = list, .n = 1, .owner = 6, .deadline = now + 5, .now = now};            \
    return ntsync_set(TABLES, WAKE, handle).woken + ntsync_wait_for_any(TABLES, &w).answer          \
        + ntsync_restore(TABLES, buffer, ntsync_snapshot(TABLES, buffer, sizeof buffer).length).answer;
#elif CASE == 1 /* the number of woken tasks is dropped */
#define PROGRAM ntsync_set(TABLES, WAKE, handle);
#elif CASE == 2 /* the ticket is dropped */
#define PROGRAM ntsync_wait_any(TABLES, list, 1, 6, 0, NTSYNC_MONOTONIC, 0, now + 5, now);
#elif CASE == 3 /* an answer is dropped: perhaps the object is busy and still there */
#define PROGRAM ntsync_close(TABLES, handle);
#elif CASE == 4 /* the ticket is dropped, by name */
#define PROGRAM                                                                          \
    ntsync_wait w = {.list = list, .n = 1, .owner = 6, .deadline = now + 5, .now = now}; \
    ntsync_wait_for_all(TABLES, &w);
#elif CASE == 5 /* a null list */
#define PROGRAM return ntsync_wait_any(TABLES, NULL, 1, 6, 0, NTSYNC_MONOTONIC, 0, now + 5, now).answer;
#elif CASE == 6 /* a null wake list */
#define PROGRAM return ntsync_set(TABLES, NULL, NTSYNC_WAKE_CELLS, handle).woken;
#elif CASE == 7 /* null tables */
#define PROGRAM return ntsync_read_event(NULL, NTSYNC_CELLS, handle).signaled;
#elif CASE == 8 /* bytes in place of the tables' cells */
#define PROGRAM return ntsync_set(h->tables, sizeof h->tables, WAKE, handle).woken;
#elif CASE == 9 /* the same in a call that only reads */
#define PROGRAM return ntsync_read_event(h->tables, sizeof h->tables, handle).signaled;
#elif CASE == 10 /* the same where the tables are made */
#define PROGRAM return ntsync_init(h->tables, sizeof h->tables);
#elif CASE == 11 /* bytes in place of the wake list's cells */
#define PROGRAM return ntsync_set(TABLES, h->wake, sizeof h->wake, handle).woken;
#elif CASE == 12 /* a buffer that is shorter than it is said to be */
#define PROGRAM return ntsync_snapshot(TABLES, buffer + 1, sizeof buffer).length;
#elif CASE == 13 /* bytes in place of the list's handles */
#define PROGRAM return ntsync_wait_any(TABLES, list, sizeof list, 6, 0, NTSYNC_MONOTONIC, 0, now + 5, now).answer;
#elif CASE == 14 /* a wait by position, where deadline and present time can be exchanged */
#define PROGRAM                                                      \
    ntsync_wait w = {list, 1, 6, 0, NTSYNC_MONOTONIC, now, now + 5}; \
    return ntsync_wait_for_any(TABLES, &w).answer;
#elif CASE == 15 /* names that a wait does not have */
#define PROGRAM                                                                          \
    ntsync_wait w = {.list = list, .n = 1, .owner = 6, .timeout = now + 5, .time = now}; \
    return ntsync_wait_for_any(TABLES, &w).answer;
#elif CASE == 16 /* bytes in place of the tables' cells, by name */
#define PROGRAM                                                                          \
    ntsync_wait w = {.list = list, .n = 1, .owner = 6, .deadline = now + 5, .now = now}; \
    return ntsync_wait_for_any(h->tables, sizeof h->tables, &w).answer;
#elif CASE == 17 /* the same, and all by position */
#define PROGRAM \
    return ntsync_wait_all_list(h->tables, sizeof h->tables, list, 1, 6, 0, NTSYNC_MONOTONIC, 0, now + 5, now).answer;
#elif CASE == 18 /* a null list that is said to have a handle */
#define PROGRAM return ntsync_wait_any_list(TABLES, NULL, 1, 6, 0, NTSYNC_MONOTONIC, 0, now + 5, now).answer;
#elif CASE == 19 /* the answer is dropped: perhaps the text was refused, and the tables are the old ones */
#define PROGRAM ntsync_restore(TABLES, buffer, sizeof buffer);
#elif CASE == 20 /* a text that is shorter than it is said to be */
#define PROGRAM return ntsync_restore(TABLES, buffer + 1, sizeof buffer).answer;
#endif

typedef struct { uint64_t tables[NTSYNC_CELLS], wake[NTSYNC_WAKE_CELLS]; } host;

uint32_t use(host *h, uint32_t handle, uint64_t now);

uint32_t use(host *h, uint32_t handle, uint64_t now)
{
    uint8_t buffer[NTSYNC_SNAPSHOT_BYTES];
    const uint32_t list[] = {handle};
    (void)h;
    (void)buffer;
    (void)list;
    (void)now;
    PROGRAM
    return 0;
}
