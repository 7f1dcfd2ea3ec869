/* ntsync: NT semaphores, mutexes and events over tables that the host passes to each call. C99 or C++11 on x86-64; link with
 * libntsync.a (hosts/build). ntsync_util.h has waits by named fields, names of answers, and NTSTATUS values.
 *
 * The tables are NTSYNC_CELLS cells of the host's own memory; all state is in them. No function keeps anything between
 * calls, allocates, blocks or reads a clock. Waiting does not block: a wait is served, times out, or is queued under a
 * ticket, and a later call writes that ticket to the wake list that the host passes to that call.
 *
 * The cells are plain numbers without pointers. Between calls the tables may be copied, moved or saved, and a copy is tables
 * of its own. Functions that take const tables may be given read-only memory.
 *
 * What the host must do. Pointers must be aligned, valid for their lengths and not null, not even for a length of 0; what a
 * call writes must not overlap anything else that is passed to it. Lengths are numbers of elements, not bytes; an array has
 * at most PTRDIFF_MAX bytes. No two calls on the same tables may run at the same time, not from an interrupt or signal
 * handler either; only functions that take const tables may. Calls on different tables, wake lists and buffers are
 * independent. Nothing else has to be checked: every content, length, handle, flag and time gets a stated answer. No result
 * may be dropped: a dropped record or ticket is a task that never runs again.
 *
 * Answers. NTSYNC_EINVAL, EPERM, EOVERFLOW, NO_ROOM, TICKETS_SPENT, CORRUPT, BUSY, LIST_SHORT and NOT_A_SNAPSHOT are
 * refusals: the call altered nothing, and every number returned with the answer is 0, but for NOT_A_SNAPSHOT's offset. Every
 * call but ntsync_version, ntsync_init and ntsync_restore reads all cells first and answers NTSYNC_CORRUPT if the tables are
 * not NTSYNC_CELLS long or break a rule of docs/LAYOUT.md; then NTSYNC_LIST_SHORT if the wake list or buffer is too short;
 * then what its comment says, in that order. After these two, a handle that is 0, unknown, closed or of another kind of
 * object is NTSYNC_EINVAL in every call; an alert of 0 is no handle.
 *
 * What it needs and costs; hosts/costs/check compares each figure with the archive.
 *   Platform: x86-64, System V calling convention, ELF. Links without libc but for memcpy and memset. Uses SSE registers
 *   (xmm), none wider and no x87: an interrupt handler or kernel that calls it must save them.
 *   Memory: tables 34,568 bytes, wake list 768 bytes, snapshot buffer 65,536 bytes, all the host's. The archive has 19,555
 *   bytes of code and constants, no data, no bss.
 *   Stack at worst, in bytes, with the return address and the arguments that the caller pushes, without what memcpy and
 *   memset take below their return address; there is no recursion:
 *     ntsync_version 8, ntsync_init 40, ntsync_create_sem 1,224, ntsync_create_mutex 1,224, ntsync_create_event 1,240,
 *     ntsync_close 1,208, ntsync_read_sem 1,224, ntsync_read_mutex 1,224, ntsync_read_event 1,224, ntsync_post 1,256,
 *     ntsync_unlock 1,256, ntsync_kill_owner 1,256, ntsync_set 1,256, ntsync_reset 1,208, ntsync_pulse 1,256,
 *     ntsync_wait_any 2,968, ntsync_wait_all 2,968, ntsync_expire 1,256, ntsync_cancel 1,208, ntsync_snapshot 1,288,
 *     ntsync_restore 35,960 (it reads the text into cells of its own, and alters the tables only when all of it is accepted).
 *   Time, in instructions at worst of the scenarios of docs/BENCH.md: the check of all cells 47,342; a call with its check
 *   169,118 (a post that wakes 32 waits for all of 64 objects), the snapshot of full tables 232,665, its restoring 454,597.
 *
 * Saving. What must outlive a power cut is saved as a snapshot, which ntsync_restore reads back; docs/howto/saving.md has the
 * program. The sum in its last line shows every cut and every single changed byte, but not two exchanged digits: against more
 * than that, store a stronger checksum beside it. Store with it which task has which owner number or ticket, and the time of
 * the monotonic clock. Records of a wake list are not in the tables: hand them to their tasks before saving. Where the text
 * is refused, nothing that relies on the old state may start. After restoring the host must
 *   - give every queued wait a task, or end it by ntsync_cancel: a wait without a task still acquires objects when it is
 *     served, and nobody would release them. The snapshot lists each wait's ticket and owner;
 *   - if the monotonic clock began anew, go on from the stored time: add it to the clock in every later call. Else timeouts
 *     of the old clock would come too late;
 *   - for every owner that is gone, do what ntsync_kill_owner says of an owner that died.
 * The cells may be saved too, or kept in memory that outlives the host. Then store NTSYNC_VERSION, the number of cells and a
 * checksum as well: cells of another version, number or byte order must not be used, and NTSYNC_CORRUPT reports cells that
 * break a rule, not valid cells that differ from the saved ones. */
#ifndef NTSYNC_H
#define NTSYNC_H

#if !defined(__x86_64__) || !defined(__ELF__) || defined(__ILP32__)
#error "libntsync.a is for x86-64 with the System V calling convention, 64-bit pointers and ELF; this target is another"
#endif

#include <stddef.h>
#include <stdint.h>

/* Rises with every change of a signature, an argument's meaning, a size, an answer or the layout of the tables. A host
 * compares it with ntsync_version() at its start, and with the version that it stored with saved tables. */
#define NTSYNC_VERSION 5

/* ---- sizes */

#define NTSYNC_CELLS 4321           /* cells of the tables: 34,568 bytes */
#define NTSYNC_OBJECT_PLACES 512    /* objects at most; handles are 1 to 512 */
#define NTSYNC_WAIT_PLACES 32       /* queued waits at most */
#define NTSYNC_MAX_LISTED 64        /* handles in a wait's list at most; for any 0 at least, for all 1 */
#define NTSYNC_RECORD_CELLS 3       /* cells of a wake record: ticket, answer, index */
#define NTSYNC_WAKE_CELLS 96        /* cells of a wake list at least: a record for every wait place */
#define NTSYNC_SNAPSHOT_BYTES 65536 /* bytes of a snapshot's buffer at least */

/* ---- clocks and times */

#define NTSYNC_MONOTONIC 0      /* clock of ntsync_expire; flags of a wait on that clock */
#define NTSYNC_REALTIME 1       /* likewise, the real-time clock */
#define NTSYNC_NEVER UINT64_MAX /* a timeout that no time reaches */

/* ---- answers: the library's own numbers, not those of errno.h */

#define NTSYNC_DONE 0            /* the call took effect; the wait was served */
#define NTSYNC_EINVAL 1          /* bad argument */
#define NTSYNC_EPERM 2           /* that owner does not hold the mutex */
#define NTSYNC_EOVERFLOW 3       /* the post would exceed the semaphore's maximum */
#define NTSYNC_EOWNERDEAD 4      /* an abandoned mutex was acquired, or read; no refusal */
#define NTSYNC_ETIMEDOUT 5       /* the wait's time was up; no object was altered */
#define NTSYNC_EINTR 6           /* the queued wait was cancelled */
#define NTSYNC_NO_ROOM 7         /* no empty object place, or no empty wait place */
#define NTSYNC_TICKETS_SPENT 8   /* all 2^64-2 tickets were given */
#define NTSYNC_CORRUPT 9         /* the tables have another length or break a rule of docs/LAYOUT.md, until restored or made */
#define NTSYNC_BUSY 10           /* a queued wait names the object */
#define NTSYNC_QUEUED 11         /* the wait has a ticket; it stays queued until a call wakes, expires or cancels it */
#define NTSYNC_LIST_SHORT 12     /* the wake list or the snapshot's buffer is too short */
#define NTSYNC_NOT_A_SNAPSHOT 13 /* the text is none that ntsync_snapshot writes; see ntsync_restore */

/* ---- for the compiler's warnings, empty where it does not know the attribute: a dropped result, a null pointer, a length
 * that the array does not have (`sizeof` in place of a number of cells) */

#ifdef __has_attribute
#if __has_attribute(warn_unused_result)
#define NTSYNC_USE_RESULT __attribute__((warn_unused_result))
#endif
#if __has_attribute(nonnull)
#define NTSYNC_NOT_NULL __attribute__((nonnull))
#define NTSYNC_NOT_NULL_TABLES __attribute__((nonnull(1)))
#endif
#if __has_attribute(access)
#define NTSYNC_ACCESS(mode, pointer, length) __attribute__((access(mode, pointer, length)))
#endif
#if __has_attribute(diagnose_if) /* clang, which has no access: lengths that are always refused, arrays that are shorter */
#define NTSYNC_WARN_IF(wrong, text) __attribute__((diagnose_if(wrong, text, "warning")))
#endif
#endif
#ifndef NTSYNC_USE_RESULT
#define NTSYNC_USE_RESULT
#endif
#ifndef NTSYNC_NOT_NULL
#define NTSYNC_NOT_NULL
#define NTSYNC_NOT_NULL_TABLES
#endif
#ifndef NTSYNC_ACCESS
#define NTSYNC_ACCESS(mode, pointer, length)
#endif
#ifndef NTSYNC_WARN_IF
#define NTSYNC_WARN_IF(wrong, text)
#endif

#define NTSYNC_WARN_SHORT(array, cell, length, text) \
    NTSYNC_WARN_IF(__builtin_object_size(array, 0) / sizeof(cell) < (length), text) /* where the compiler sees the array */
#define NTSYNC_CHECK_CELLS NTSYNC_WARN_IF(cells != NTSYNC_CELLS, "cells must be NTSYNC_CELLS, a number of cells, not of bytes") \
    NTSYNC_WARN_SHORT(tables, uint64_t, cells, "the tables have fewer cells")
#define NTSYNC_CHECK_WAKE \
    NTSYNC_WARN_IF(wake_cells < NTSYNC_WAKE_CELLS || wake_cells == NTSYNC_WAKE_CELLS * sizeof(uint64_t), \
                   "wake_cells must be a number of cells, not of bytes, NTSYNC_WAKE_CELLS at least") \
    NTSYNC_WARN_SHORT(wake, uint64_t, wake_cells, "the wake list has fewer cells")
#define NTSYNC_CHECK_LIST NTSYNC_WARN_IF(!list && n != 0, "a null list has no handles") \
    NTSYNC_WARN_SHORT(list, uint32_t, n, "the list has fewer handles")
#define NTSYNC_CHECK_BYTES NTSYNC_WARN_IF(bytes < NTSYNC_SNAPSHOT_BYTES, "bytes must be NTSYNC_SNAPSHOT_BYTES at least") \
    NTSYNC_WARN_SHORT(buffer, uint8_t, bytes, "the buffer has fewer bytes")
#define NTSYNC_CHECK_TEXT NTSYNC_WARN_SHORT(text, uint8_t, bytes, "the text has fewer bytes")

/* The tables are arguments 1 and 2 of every call; the wake list, the list of handles, the buffer or the text are 3 and 4. */
#define NTSYNC_MAKES_TABLES NTSYNC_USE_RESULT NTSYNC_NOT_NULL NTSYNC_ACCESS(write_only, 1, 2) NTSYNC_CHECK_CELLS
#define NTSYNC_READS_TABLES NTSYNC_USE_RESULT NTSYNC_NOT_NULL NTSYNC_ACCESS(read_only, 1, 2) NTSYNC_CHECK_CELLS
#define NTSYNC_ALTERS_TABLES NTSYNC_USE_RESULT NTSYNC_NOT_NULL NTSYNC_ACCESS(read_write, 1, 2) NTSYNC_CHECK_CELLS
#define NTSYNC_WAKES NTSYNC_ALTERS_TABLES NTSYNC_ACCESS(write_only, 3, 4) NTSYNC_CHECK_WAKE
#define NTSYNC_WAITS NTSYNC_ALTERS_TABLES NTSYNC_ACCESS(read_only, 3, 4) NTSYNC_CHECK_LIST
#define NTSYNC_WAITS_LIST NTSYNC_USE_RESULT NTSYNC_NOT_NULL_TABLES NTSYNC_ACCESS(read_write, 1, 2) NTSYNC_CHECK_CELLS \
    NTSYNC_ACCESS(read_only, 3, 4) NTSYNC_CHECK_LIST
#define NTSYNC_WRITES_BUFFER NTSYNC_READS_TABLES NTSYNC_ACCESS(write_only, 3, 4) NTSYNC_CHECK_BYTES
#define NTSYNC_READS_TEXT NTSYNC_MAKES_TABLES NTSYNC_ACCESS(read_only, 3, 4) NTSYNC_CHECK_TEXT

#ifdef __clang__ /* which else warns about diagnose_if under -Wpedantic, because gcc does not know it */
#pragma clang diagnostic push
#pragma clang diagnostic ignored "-Wgcc-compat"
#endif

#ifdef __cplusplus
extern "C" {
#endif

/* ---- what the calls return, by value: the answer first, then the numbers with it, 0 where no rule gives one */

typedef struct { uint32_t answer, handle; } ntsync_created;
typedef struct { uint32_t answer, count, max; } ntsync_sem_state;
typedef struct { uint32_t answer, owner, count; } ntsync_mutex_state;
typedef struct { uint32_t answer, signaled, manual; } ntsync_event_state;
/* woken: how many records now stand at the front of the wake list. */
typedef struct { uint32_t answer, previous, woken; } ntsync_changed;
/* index if served, ticket if queued. */
typedef struct { uint32_t answer, index; uint64_t ticket; } ntsync_waited;
/* length: bytes at the front of the buffer. */
typedef struct { uint32_t answer, length; } ntsync_written;
/* offset: the first bad line of a text that is no snapshot. */
typedef struct { uint32_t answer; uint64_t offset; } ntsync_restored;

/* ---- version and making */

/* The NTSYNC_VERSION that the archive was built for. If it is not this header's, make no other call. */
uint32_t ntsync_version(void) NTSYNC_USE_RESULT;

/* Makes empty tables: no object, no wait, next ticket 1. What the cells held before does not matter; queued waits are gone
 * without a record, so the host must answer their tasks itself, and handles and tickets are given from 1 on again.
 * NTSYNC_DONE, or NTSYNC_CORRUPT with nothing altered if cells is not NTSYNC_CELLS. */
uint32_t ntsync_init(uint64_t *tables, size_t cells) NTSYNC_MAKES_TABLES;

/* ---- objects: creating takes the lowest empty place, so the handle of a closed object is given again */

/* A semaphore. NTSYNC_EINVAL if count exceeds max, or if max is 0: it could never be signaled. NTSYNC_NO_ROOM if all places
 * are in use. */
ntsync_created ntsync_create_sem(uint64_t *tables, size_t cells, uint32_t count, uint32_t max) NTSYNC_ALTERS_TABLES;

/* A mutex, held count times by owner, or unowned if both are 0. Owner numbers are the host's own, 1 to 2^32-1, one for each
 * task that may hold a mutex; 0 is nobody. NTSYNC_EINVAL if exactly one of the two is 0; NTSYNC_NO_ROOM if
 * all places are in use. */
ntsync_created ntsync_create_mutex(uint64_t *tables, size_t cells, uint32_t owner, uint32_t count) NTSYNC_ALTERS_TABLES;

/* An event; each flag is on if it is not 0. A manual event stays signaled when a wait acquires it, another is cleared.
 * NTSYNC_NO_ROOM if all places are in use. */
ntsync_created ntsync_create_event(uint64_t *tables, size_t cells, uint32_t signaled, uint32_t manual) NTSYNC_ALTERS_TABLES;

/* Empties the object's place, whatever its kind and state. NTSYNC_EINVAL for no object; NTSYNC_BUSY while a queued wait
 * lists it or has it as its alert: cancel or wake that wait first. */
uint32_t ntsync_close(uint64_t *tables, size_t cells, uint32_t handle) NTSYNC_ALTERS_TABLES;

/* Reading alters nothing. NTSYNC_EINVAL if the handle is no semaphore. */
ntsync_sem_state ntsync_read_sem(const uint64_t *tables, size_t cells, uint32_t handle) NTSYNC_READS_TABLES;

/* NTSYNC_EOWNERDEAD, with zeros, if the mutex is abandoned; it stays so. NTSYNC_EINVAL if the handle is no mutex. */
ntsync_mutex_state ntsync_read_mutex(const uint64_t *tables, size_t cells, uint32_t handle) NTSYNC_READS_TABLES;

/* NTSYNC_EINVAL if the handle is no event. */
ntsync_event_state ntsync_read_event(const uint64_t *tables, size_t cells, uint32_t handle) NTSYNC_READS_TABLES;

/* ---- signaling
 *
 * These change one object and then try each queued wait that names it, lowest ticket first. A wait that can be served
 * acquires its objects, leaves the queue and gets a record in the wake list: ticket, answer (NTSYNC_DONE or
 * NTSYNC_EOWNERDEAD) and index, as a wait that is served at once would have returned them. The host must hand each record's
 * answer to the wait's task: it already holds what it acquired. Records fill the list from its front, `woken` of them:
 * ticket, answer and index of record i are wake[3 * i], wake[3 * i + 1] and wake[3 * i + 2]. Cells behind them are not
 * altered. NTSYNC_LIST_SHORT if wake_cells is under NTSYNC_WAKE_CELLS. */

/* Adds to a semaphore's count; adding 0 is allowed. previous: the count before.
 * NTSYNC_EINVAL if the handle is no semaphore; NTSYNC_EOVERFLOW if count and add together exceed the maximum. */
ntsync_changed ntsync_post(uint64_t *tables, size_t cells, uint64_t *wake, size_t wake_cells,
                           uint32_t handle, uint32_t add) NTSYNC_WAKES;

/* Takes one from a mutex's count; at 0 it is unowned. previous: the count before.
 * NTSYNC_EINVAL if owner is 0 or the handle is no mutex; NTSYNC_EPERM if owner does not hold it. */
ntsync_changed ntsync_unlock(uint64_t *tables, size_t cells, uint64_t *wake, size_t wake_cells,
                             uint32_t handle, uint32_t owner) NTSYNC_WAKES;

/* For an owner that died: the mutex becomes unowned and abandoned, and who acquires it next gets NTSYNC_EOWNERDEAD. previous
 * is 0; refusals as for ntsync_unlock. The owner's own queued waits are not ended: this call or a later one can serve them, and
 * the dead owner then holds what they acquire. So the host must first call ntsync_cancel for each of them, then this
 * for every mutex that the owner held (where it does not know them, for each handle, passing over NTSYNC_EINVAL and
 * NTSYNC_EPERM), and only then give the number to another task. */
ntsync_changed ntsync_kill_owner(uint64_t *tables, size_t cells, uint64_t *wake, size_t wake_cells,
                                 uint32_t handle, uint32_t owner) NTSYNC_WAKES;

/* Signals an event. previous: whether it was signaled, 0 or 1. NTSYNC_EINVAL if the handle is no event. */
ntsync_changed ntsync_set(uint64_t *tables, size_t cells, uint64_t *wake, size_t wake_cells, uint32_t handle) NTSYNC_WAKES;

/* Clears an event; nothing is woken, woken is 0. previous and refusals as for ntsync_set, but there is no wake list. */
ntsync_changed ntsync_reset(uint64_t *tables, size_t cells, uint32_t handle) NTSYNC_ALTERS_TABLES;

/* Signals an event, wakes, and clears it whether or not a wait was served. previous and refusals as for ntsync_set. */
ntsync_changed ntsync_pulse(uint64_t *tables, size_t cells, uint64_t *wake, size_t wake_cells, uint32_t handle) NTSYNC_WAKES;

/* ---- waiting
 *
 * list has n handles, 0 to NTSYNC_MAX_LISTED for any, 1 to NTSYNC_MAX_LISTED for all; owner is who waits, not 0; alert is 0
 * or the handle of an event that ends the wait where the list can't (NT's alerts); flags is the wait's clock,
 * NTSYNC_MONOTONIC or NTSYNC_REALTIME; pad is 0; timeout is a time of that clock (not a span) or NTSYNC_NEVER, and time its
 * present time, in whatever unit the host uses: times are only compared. A timeout that is not later than time, NTSYNC_NEVER
 * excepted, makes a poll, which never queues. In this order:
 *   NTSYNC_EINVAL         an argument is none of these, or a listed handle is no object;
 *   NTSYNC_DONE           served, the objects are acquired; index: see each call. If the list could not serve but the alert
 *                         is signaled, the alert is acquired and index is n;
 *   NTSYNC_EOWNERDEAD     the same, and an acquired mutex had been abandoned: what it guards may be half written. The mark is
 *                         gone with this answer; of several mutexes it is not reported which (ntsync_read_mutex reports it
 *                         before);
 *   NTSYNC_ETIMEDOUT      not served, and timeout is not later than time (NTSYNC_NEVER always is);
 *   NTSYNC_NO_ROOM        it would have to queue, and all wait places are in use;
 *   NTSYNC_TICKETS_SPENT  it would have to queue, and there is no ticket left;
 *   NTSYNC_QUEUED         it is queued under `ticket`. The host keeps the ticket with the task, and calls ntsync_expire
 *                         when time passes: the library has no clock. Until the wait is over, its objects can't be closed.
 * Acquiring takes one from a semaphore, adds one to a mutex's count for owner, clears an event that is not manual. A
 * semaphore can be acquired when its count is not 0; a mutex when it is unowned or its owner asks again, and its count is
 * below 2^32-1; an event when it is signaled. */

/* Acquires the first listed object that can be; index is its place in the list, from 0. A handle may stand there twice, and
 * be the alert too. With n 0 it is a sleep: it ends by its alert, with NTSYNC_DONE and index 0 (which is n), by time, or by
 * ntsync_cancel. Without alert and with NTSYNC_NEVER it can only be cancelled. */
ntsync_waited ntsync_wait_any(uint64_t *tables, size_t cells, const uint32_t *list, size_t n, uint32_t owner,
                              uint32_t alert, uint32_t flags, uint32_t pad, uint64_t timeout, uint64_t time) NTSYNC_WAITS;

/* Acquires all listed objects at once, or none; index is 0. NTSYNC_EINVAL too if a handle occurs twice, alert included. */
ntsync_waited ntsync_wait_all(uint64_t *tables, size_t cells, const uint32_t *list, size_t n, uint32_t owner,
                              uint32_t alert, uint32_t flags, uint32_t pad, uint64_t timeout, uint64_t time) NTSYNC_WAITS;

/* Ends every queued wait on that clock whose timeout is not later than time, NTSYNC_NEVER excepted: each leaves the queue
 * and gets a record with NTSYNC_ETIMEDOUT and index 0, lowest ticket first. Objects are not altered, previous is 0. No time
 * is kept, so a clock may be set back. NTSYNC_LIST_SHORT as for signaling; NTSYNC_EINVAL for a clock other than
 * NTSYNC_MONOTONIC and NTSYNC_REALTIME. */
ntsync_changed ntsync_expire(uint64_t *tables, size_t cells, uint64_t *wake, size_t wake_cells,
                             uint32_t clock, uint64_t time) NTSYNC_WAKES;

/* Takes one wait out of the queue; objects are not altered. NTSYNC_EINTR if it was there, which is also the answer that
 * the host must hand to the waiting task (no record is written); NTSYNC_EINVAL if no queued wait has that ticket. */
uint32_t ntsync_cancel(uint64_t *tables, size_t cells, uint64_t ticket) NTSYNC_ALTERS_TABLES;

/* ---- snapshot */

/* Writes the tables as text (docs/LAYOUT.md, "A snapshot") to the front of buffer: length bytes, at most 54,549, no null byte
 * behind them, and the rest is not altered. The last line is the sum of all bytes before it. The tables are only read.
 * NTSYNC_LIST_SHORT if bytes is under NTSYNC_SNAPSHOT_BYTES. */
ntsync_written ntsync_snapshot(const uint64_t *tables, size_t cells, uint8_t *buffer, size_t bytes) NTSYNC_WRITES_BUFFER;

/* Makes the tables that a snapshot shows: the objects under their handles, the queued waits under their tickets, in the lowest
 * wait places by ticket, and the next ticket. A snapshot of them is the same text again. What the cells held before does not
 * matter; of waits queued there the host must take care as at ntsync_init, and tickets given since the snapshot are given
 * again. The text is accepted if ntsync_snapshot can have written it from valid tables in which no queued wait could be
 * served, as tables are that ntsync_init or ntsync_restore made and only calls altered. In this order:
 *   NTSYNC_CORRUPT         cells is not NTSYNC_CELLS;
 *   NTSYNC_DONE            restored;
 *   NTSYNC_NOT_A_SNAPSHOT  any other text, of any length, an empty one too. offset is where its first line begins that has not
 *                          the key due there, then a number (no sign, no leading zero) or word in that key's range, then a
 *                          line feed; it is the text's length if the text ends where a line is due. Else the lines are as due
 *                          and offset is 0: bytes follow the sum line, the sum is another, handles or tickets do not rise, the
 *                          state breaks a rule of docs/LAYOUT.md, or a queued wait could be served. A first line that is bad
 *                          has offset 0 as well. */
ntsync_restored ntsync_restore(uint64_t *tables, size_t cells, const uint8_t *text, size_t bytes) NTSYNC_READS_TEXT;

/* ---- the waits for hosts whose empty list is a null pointer: with n 0 the list is never passed on. A wait for all with n 0
 * is refused here too. */

static inline ntsync_waited
ntsync_wait_any_list(uint64_t *tables, size_t cells, const uint32_t *list, size_t n, uint32_t owner, uint32_t alert,
                     uint32_t flags, uint32_t pad, uint64_t timeout, uint64_t time) NTSYNC_WAITS_LIST;
static inline ntsync_waited
ntsync_wait_any_list(uint64_t *tables, size_t cells, const uint32_t *list, size_t n, uint32_t owner, uint32_t alert,
                     uint32_t flags, uint32_t pad, uint64_t timeout, uint64_t time)
{
    static const uint32_t none = 0;
    return ntsync_wait_any(tables, cells, n == 0 ? &none : list, n, owner, alert, flags, pad, timeout, time);
}

static inline ntsync_waited
ntsync_wait_all_list(uint64_t *tables, size_t cells, const uint32_t *list, size_t n, uint32_t owner, uint32_t alert,
                     uint32_t flags, uint32_t pad, uint64_t timeout, uint64_t time) NTSYNC_WAITS_LIST;
static inline ntsync_waited
ntsync_wait_all_list(uint64_t *tables, size_t cells, const uint32_t *list, size_t n, uint32_t owner, uint32_t alert,
                     uint32_t flags, uint32_t pad, uint64_t timeout, uint64_t time)
{
    static const uint32_t none = 0;
    return ntsync_wait_all(tables, cells, n == 0 ? &none : list, n, owner, alert, flags, pad, timeout, time);
}

#ifdef __cplusplus
}
#endif

#ifdef __clang__
#pragma clang diagnostic pop
#endif

#endif
