/* Helpers over ntsync.h, inline only, C99 or C++11: waits by named fields, records of a wake list by name, names of answers,
 * refusal or not, the version check, and answers as NTSTATUS. Nothing here has state, and no host needs it. */
#ifndef NTSYNC_UTIL_H
#define NTSYNC_UTIL_H

#include "ntsync.h"

/* gcc warns about a struct of this type that is filled by position; the first field of ntsync_wait is for the others. */
#if defined(__has_attribute) && !defined(__cplusplus)
#if __has_attribute(designated_init)
#define NTSYNC_BY_NAME __attribute__((designated_init))
#endif
#endif
#ifndef NTSYNC_BY_NAME
#define NTSYNC_BY_NAME
#endif

#ifdef __clang__ /* as in ntsync.h */
#pragma clang diagnostic push
#pragma clang diagnostic ignored "-Wgcc-compat"
#endif

#ifdef __cplusplus
extern "C" {
#endif

/* ---- version */

/* 1 if header and archive are of one version, else 0: then make no other call. */
static inline NTSYNC_USE_RESULT int ntsync_version_agrees(void) { return ntsync_version() == NTSYNC_VERSION; }

/* ---- waits by named fields
 *
 * Ten numbers by position get exchanged, deadline and present time before all, and no compiler notices. By name:
 *
 *     ntsync_wait w = {.list = &valve, .n = 1, .owner = 6, .deadline = NTSYNC_NEVER, .now = now};
 *     ntsync_waited r = ntsync_wait_for_any(tables, NTSYNC_CELLS, &w);
 *
 * A field that is left out is 0: no alert, the monotonic clock. A deadline left out is 0 too, which makes a poll: the wait
 * times out at once and never hangs. A list left out is empty: for any a sleep, which its alert, its deadline or
 * ntsync_cancel ends; for all refused. (C++11 has no such initializers: `ntsync_wait w = {};`, then assign the fields.) */

typedef struct NTSYNC_BY_NAME {
    char by_name_only;    /* never set: a list that stands first by position is warned about in C, an error in C++ */
    const uint32_t *list; /* handles; may be null if n is 0 */
    size_t n;             /* how many */
    uint32_t owner;       /* who waits, not 0 */
    uint32_t alert;       /* an event's handle, or 0 */
    uint32_t clock;       /* NTSYNC_MONOTONIC or NTSYNC_REALTIME */
    uint64_t deadline;    /* a time of that clock, or NTSYNC_NEVER */
    uint64_t now;         /* that clock's present time */
} ntsync_wait;

/* ntsync_wait_any and ntsync_wait_all, with their answers. */
static inline ntsync_waited ntsync_wait_for_any(uint64_t *tables, size_t cells, const ntsync_wait *wait) NTSYNC_ALTERS_TABLES;
static inline ntsync_waited ntsync_wait_for_all(uint64_t *tables, size_t cells, const ntsync_wait *wait) NTSYNC_ALTERS_TABLES;

static inline ntsync_waited ntsync_wait_for_any(uint64_t *tables, size_t cells, const ntsync_wait *wait)
{
    return ntsync_wait_any_list(tables, cells, wait->list, wait->n, wait->owner, wait->alert, wait->clock, 0, wait->deadline,
                                wait->now);
}

static inline ntsync_waited ntsync_wait_for_all(uint64_t *tables, size_t cells, const ntsync_wait *wait)
{
    return ntsync_wait_all_list(tables, cells, wait->list, wait->n, wait->owner, wait->alert, wait->clock, 0, wait->deadline,
                                wait->now);
}

/* ---- wake lists */

typedef struct { uint64_t ticket; uint32_t answer, index; } ntsync_record;

/* Record i of a wake list; i must be below the `woken` of the call that filled it. */
static inline NTSYNC_USE_RESULT NTSYNC_NOT_NULL ntsync_record ntsync_record_at(const uint64_t *wake, uint32_t i)
{
    const size_t cells = NTSYNC_RECORD_CELLS, first = cells * i; /* no casts, which some C++ hosts have warnings for */
    ntsync_record record;
    record.ticket = wake[first];
    record.answer = wake[first + 1] & UINT32_MAX;
    record.index = wake[first + 2] & UINT32_MAX;
    return record;
}

/* ---- answers */

/* The answer's name in ntsync.h without its NTSYNC_, for messages; "UNKNOWN" for a number that is no answer. */
static inline NTSYNC_USE_RESULT const char *ntsync_answer_name(uint32_t answer)
{
    static const char *const names[] = {"DONE",    "EINVAL",        "EPERM",   "EOVERFLOW", "EOWNERDEAD", "ETIMEDOUT", "EINTR",
                                        "NO_ROOM", "TICKETS_SPENT", "CORRUPT", "BUSY",      "QUEUED",     "LIST_SHORT",
                                        "NOT_A_SNAPSHOT"};
    return answer < sizeof names / sizeof names[0] ? names[answer] : "UNKNOWN";
}

/* 1 if the call altered nothing because it was refused; 0 for DONE, EOWNERDEAD, ETIMEDOUT, EINTR and QUEUED, which are what
 * calls and waits come to. A number that is no answer counts as a refusal. */
static inline NTSYNC_USE_RESULT int ntsync_refused(uint32_t answer)
{
    return answer != NTSYNC_DONE && answer != NTSYNC_EOWNERDEAD && answer != NTSYNC_ETIMEDOUT && answer != NTSYNC_EINTR
        && answer != NTSYNC_QUEUED;
}

/* ---- NTSTATUS: what a layer for NT modules hands on. The values are NT's; the names have a prefix, so that the layer's own
 * ntstatus.h may be included too. */

#define NTSYNC_STATUS_SUCCESS UINT32_C(0x00000000)
#define NTSYNC_STATUS_WAIT_0 UINT32_C(0x00000000)
#define NTSYNC_STATUS_ABANDONED_WAIT_0 UINT32_C(0x00000080)
#define NTSYNC_STATUS_USER_APC UINT32_C(0x000000C0)
#define NTSYNC_STATUS_TIMEOUT UINT32_C(0x00000102)
#define NTSYNC_STATUS_PENDING UINT32_C(0x00000103)
#define NTSYNC_STATUS_INVALID_HANDLE UINT32_C(0xC0000008)
#define NTSYNC_STATUS_INVALID_PARAMETER UINT32_C(0xC000000D)
#define NTSYNC_STATUS_BUFFER_TOO_SMALL UINT32_C(0xC0000023)
#define NTSYNC_STATUS_MUTANT_NOT_OWNED UINT32_C(0xC0000046)
#define NTSYNC_STATUS_SEMAPHORE_LIMIT_EXCEEDED UINT32_C(0xC0000047)
#define NTSYNC_STATUS_INSUFFICIENT_RESOURCES UINT32_C(0xC000009A)
#define NTSYNC_STATUS_INTERNAL_ERROR UINT32_C(0xC00000E5)
#define NTSYNC_STATUS_CANCELLED UINT32_C(0xC0000120)
#define NTSYNC_STATUS_RESOURCE_IN_USE UINT32_C(0xC0000708)

/* The status of a call that takes a handle (close, read, post, unlock, kill, set, reset, pulse):
 *   DONE           SUCCESS
 *   EINVAL         INVALID_HANDLE. For a handle of another kind of object NT has OBJECT_TYPE_MISMATCH, which the library does
 *                  not tell apart; owner 0 gets this status too
 *   EPERM          MUTANT_NOT_OWNED
 *   EOVERFLOW      SEMAPHORE_LIMIT_EXCEEDED
 *   EOWNERDEAD     SUCCESS: NT's query of an abandoned mutex succeeds, and says so in its result
 *   NO_ROOM        INSUFFICIENT_RESOURCES
 *   LIST_SHORT     BUFFER_TOO_SMALL
 * NT has no status for these; the nearest is
 *   ETIMEDOUT      TIMEOUT: only a wait or a record has it
 *   EINTR          CANCELLED: NT does not end a wait of a living thread from outside but by alert or APC
 *   TICKETS_SPENT  INSUFFICIENT_RESOURCES
 *   CORRUPT        INTERNAL_ERROR; so has a number that is no answer, and NOT_A_SNAPSHOT, which no module's call comes to
 *   BUSY           RESOURCE_IN_USE: NT closes a handle that is waited for
 *   QUEUED         PENDING: the wait is not over, and no module may see this */
static inline NTSYNC_USE_RESULT uint32_t ntsync_handle_status(uint32_t answer)
{
    switch (answer) {
    case NTSYNC_DONE:
    case NTSYNC_EOWNERDEAD: return NTSYNC_STATUS_SUCCESS;
    case NTSYNC_EINVAL: return NTSYNC_STATUS_INVALID_HANDLE;
    case NTSYNC_EPERM: return NTSYNC_STATUS_MUTANT_NOT_OWNED;
    case NTSYNC_EOVERFLOW: return NTSYNC_STATUS_SEMAPHORE_LIMIT_EXCEEDED;
    case NTSYNC_ETIMEDOUT: return NTSYNC_STATUS_TIMEOUT;
    case NTSYNC_EINTR: return NTSYNC_STATUS_CANCELLED;
    case NTSYNC_NO_ROOM:
    case NTSYNC_TICKETS_SPENT: return NTSYNC_STATUS_INSUFFICIENT_RESOURCES;
    case NTSYNC_BUSY: return NTSYNC_STATUS_RESOURCE_IN_USE;
    case NTSYNC_QUEUED: return NTSYNC_STATUS_PENDING;
    case NTSYNC_LIST_SHORT: return NTSYNC_STATUS_BUFFER_TOO_SMALL;
    case NTSYNC_CORRUPT:
    case NTSYNC_NOT_A_SNAPSHOT:
    default: return NTSYNC_STATUS_INTERNAL_ERROR;
    }
}

/* The status of a call that takes none (create, expire, cancel): the same, but EINVAL is INVALID_PARAMETER. */
static inline NTSYNC_USE_RESULT uint32_t ntsync_create_status(uint32_t answer)
{
    return answer == NTSYNC_EINVAL ? NTSYNC_STATUS_INVALID_PARAMETER : ntsync_handle_status(answer);
}

/* The status of a wait for n handles that is over, by its own answer or its record's:
 *   DONE           WAIT_0 + index, or USER_APC if index is n: the alert ended it
 *   EOWNERDEAD     ABANDONED_WAIT_0 + index
 *   EINVAL         INVALID_PARAMETER if n is over NTSYNC_MAX_LISTED, or 0, where no listed handle is at fault; else
 *                  INVALID_HANDLE. For a handle twice in a wait for all NT has INVALID_PARAMETER_MIX, which the library does
 *                  not tell apart
 *   ETIMEDOUT      TIMEOUT. NT has no wait for no objects, but a delay, and that returns SUCCESS when its time is up: a layer
 *                  that makes its delays of empty lists hands on SUCCESS
 *   others         as ntsync_handle_status. A mutex at its highest count queues the wait; NT has MUTANT_LIMIT_EXCEEDED. */
static inline NTSYNC_USE_RESULT uint32_t ntsync_wait_status(uint32_t answer, uint32_t index, size_t n)
{
    if (answer == NTSYNC_DONE)
        return index == n ? NTSYNC_STATUS_USER_APC : NTSYNC_STATUS_WAIT_0 + index;
    if (answer == NTSYNC_EOWNERDEAD)
        return NTSYNC_STATUS_ABANDONED_WAIT_0 + index;
    if (answer == NTSYNC_EINVAL && (n == 0 || n > NTSYNC_MAX_LISTED))
        return NTSYNC_STATUS_INVALID_PARAMETER;
    return ntsync_handle_status(answer);
}

#ifdef __cplusplus
}
#endif

#ifdef __clang__
#pragma clang diagnostic pop
#endif

#endif
