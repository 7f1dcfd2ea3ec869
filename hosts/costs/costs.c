/* Measures how much stack each call takes at worst: the call runs on a painted stack, and the lowest byte that lost its paint
 * tells. Every call is tried on full tables in each way that takes another path (served, queued, woken, refused); the
 * deepest counts. Prints "ntsync_NAME BYTES" for each call: what the caller pushes (return address, the waits' four last
 * arguments) and all below it; then the bytes of the memory that a host passes. x86-64 System V only, as the archive is. */
#include "ntsync.h"

#include <stdio.h>

enum { STACK = 131072, CALLS = 21, ARGUMENTS = 10, STACK_ARGUMENTS = 4, LISTED = NTSYNC_MAX_LISTED, KEY = 64, OWNER = 7 };

/* The results come in two registers: none is longer than 16 bytes. */
typedef struct { uint64_t low, high; } registers;
typedef void (*entry)(void);
typedef struct { const char *name; entry call; size_t stack_arguments, worst; } measured;

registers costs_call(entry call, const uint64_t *arguments, unsigned char *top);
void *memset(void *to, int value, size_t bytes);
void *memcpy(void *to, const void *from, size_t bytes);

/* Six arguments in registers and four on the stack: a call that has fewer does not look at the rest.
 * memset and memcpy take no stack but their return address, so that what is measured is the library's own. */
__asm__(".text\n"
        ".globl costs_call\n"
        "costs_call: push %rbp; push %rbx; mov %rsp, %rbp\n"
        "mov %rdi, %rax; mov %rsi, %rbx; mov %rdx, %rsp\n"
        "push 72(%rbx); push 64(%rbx); push 56(%rbx); push 48(%rbx)\n"
        "mov (%rbx), %rdi; mov 8(%rbx), %rsi; mov 16(%rbx), %rdx\n"
        "mov 24(%rbx), %rcx; mov 32(%rbx), %r8; mov 40(%rbx), %r9\n"
        "call *%rax\n"
        "mov %rbp, %rsp; pop %rbx; pop %rbp; ret\n"
        ".globl memset\n"
        "memset: mov %rdi, %r8; mov %esi, %eax; mov %rdx, %rcx; rep stosb; mov %r8, %rax; ret\n"
        ".globl memcpy\n"
        "memcpy: mov %rdi, %rax; mov %rdx, %rcx; rep movsb; ret\n");

static uint64_t tables[NTSYNC_CELLS], saved[NTSYNC_CELLS], wake[NTSYNC_WAKE_CELLS];
static uint8_t buffer[NTSYNC_SNAPSHOT_BYTES];
static uint32_t list[LISTED];
static _Alignas(16) unsigned char stack[STACK];
static int failures;

#define CALL(name) {#name, (entry)name, 0, 0}
#define WAIT(name) {#name, (entry)name, STACK_ARGUMENTS, 0}
static measured calls[CALLS] = {
    CALL(ntsync_version),    CALL(ntsync_init),       CALL(ntsync_create_sem), CALL(ntsync_create_mutex),
    CALL(ntsync_create_event), CALL(ntsync_close),    CALL(ntsync_read_sem),   CALL(ntsync_read_mutex),
    CALL(ntsync_read_event), CALL(ntsync_post),       CALL(ntsync_unlock),     CALL(ntsync_kill_owner),
    CALL(ntsync_set),        CALL(ntsync_reset),      CALL(ntsync_pulse),      WAIT(ntsync_wait_any),
    WAIT(ntsync_wait_all),   CALL(ntsync_expire),     CALL(ntsync_cancel),     CALL(ntsync_snapshot),
    CALL(ntsync_restore),
};

static size_t painted_call(const measured *m, const uint64_t *arguments, unsigned char paint, registers *result)
{
    for (size_t i = 0; i < STACK; i++)
        stack[i] = paint;
    *result = costs_call(m->call, arguments, stack + STACK);
    size_t untouched = 0;
    while (untouched < STACK && stack[untouched] == paint)
        untouched++;
    return STACK - untouched - (STACK_ARGUMENTS - m->stack_arguments) * sizeof(uint64_t);
}

/* Two paints, because a byte may be written with the paint's own value. The tables are the same for both, and afterwards. */
static void measure(entry call, uint32_t wanted, const uint64_t *arguments)
{
    static const unsigned char paints[] = {0xA5, 0x5A};
    measured *m = calls;
    while (m->call != call)
        m++;
    for (size_t p = 0; p < sizeof paints; p++) {
        registers result;
        memcpy(saved, tables, sizeof tables);
        size_t depth = painted_call(m, arguments, paints[p], &result);
        memcpy(tables, saved, sizeof tables);
        m->worst = depth > m->worst ? depth : m->worst;
        if ((uint32_t)result.low != wanted) {
            failures++;
            fprintf(stderr, "%s answered %u, not %u\n", m->name, (unsigned)result.low, (unsigned)wanted);
        }
    }
}

/* ARGS: the tables and what follows them, ten in all. */
#define ARGS(...) (const uint64_t[ARGUMENTS]){(uint64_t)tables, NTSYNC_CELLS, __VA_ARGS__}
#define WAKE (uint64_t)wake, NTSYNC_WAKE_CELLS
#define NO_WAKE (uint64_t)wake, NTSYNC_WAKE_CELLS - 1

static void must(uint32_t got, uint32_t wanted, const char *what)
{
    if (got == wanted)
        return;
    failures++;
    fprintf(stderr, "%s: answer %u, not %u\n", what, (unsigned)got, (unsigned)wanted);
}

static ntsync_created create_key(uint32_t kind)
{
    if (kind == 0)
        return ntsync_create_sem(tables, NTSYNC_CELLS, 0, UINT32_MAX);
    if (kind == 1)
        return ntsync_create_mutex(tables, NTSYNC_CELLS, OWNER + 1, 1);
    return ntsync_create_event(tables, NTSYNC_CELLS, 0, 1);
}

/* Every object place in use, all semaphores that are signaled but for the key: a semaphore, a mutex or an event that is not. */
static void build_objects(uint32_t kind)
{
    must(ntsync_init(tables, NTSYNC_CELLS), NTSYNC_DONE, "init");
    for (uint32_t h = 1; h <= NTSYNC_OBJECT_PLACES; h++) {
        ntsync_created c = h == KEY ? create_key(kind) : ntsync_create_sem(tables, NTSYNC_CELLS, UINT32_MAX, UINT32_MAX);
        must(c.answer, NTSYNC_DONE, "create");
    }
    for (uint32_t i = 0; i < LISTED; i++)
        list[i] = i + 1;
}

/* `waits` waits, all for all of 64 handles that have the key: the key's signal wakes every one. */
static void build(uint32_t kind, uint32_t waits)
{
    build_objects(kind);
    for (uint32_t w = 0; w < waits; w++)
        must(ntsync_wait_all(tables, NTSYNC_CELLS, list, LISTED, OWNER, 0, w % 2, 0, 1000, 0).answer, NTSYNC_QUEUED, "wait");
}

static void objects(void)
{
    build(0, NTSYNC_WAIT_PLACES);
    measure((entry)ntsync_version, NTSYNC_VERSION, ARGS(0));
    measure((entry)ntsync_init, NTSYNC_DONE, ARGS(0));
    measure((entry)ntsync_create_sem, NTSYNC_NO_ROOM, ARGS(1, 1));
    measure((entry)ntsync_create_mutex, NTSYNC_NO_ROOM, ARGS(1, 1));
    measure((entry)ntsync_create_event, NTSYNC_NO_ROOM, ARGS(1, 1));
    measure((entry)ntsync_close, NTSYNC_BUSY, ARGS(1));
    measure((entry)ntsync_close, NTSYNC_EINVAL, ARGS(0));
    measure((entry)ntsync_close, NTSYNC_DONE, ARGS(NTSYNC_OBJECT_PLACES));
    must(ntsync_close(tables, NTSYNC_CELLS, NTSYNC_OBJECT_PLACES), NTSYNC_DONE, "close");
    measure((entry)ntsync_create_sem, NTSYNC_DONE, ARGS(1, 1));
    measure((entry)ntsync_create_mutex, NTSYNC_DONE, ARGS(1, 1));
    measure((entry)ntsync_create_event, NTSYNC_DONE, ARGS(1, 1));
    measure((entry)ntsync_create_sem, NTSYNC_EINVAL, ARGS(2, 1));
}

static void reads(void)
{
    static const entry readers[] = {(entry)ntsync_read_sem, (entry)ntsync_read_mutex, (entry)ntsync_read_event};
    for (uint32_t kind = 0; kind < 3; kind++) {
        build(kind, NTSYNC_WAIT_PLACES);
        measure(readers[kind], NTSYNC_DONE, ARGS(KEY));
        measure(readers[kind], NTSYNC_EINVAL, ARGS(0));
    }
    measure((entry)ntsync_reset, NTSYNC_DONE, ARGS(KEY));
    measure((entry)ntsync_reset, NTSYNC_EINVAL, ARGS(1));
    measure((entry)ntsync_snapshot, NTSYNC_DONE, ARGS((uint64_t)buffer, sizeof buffer));
    measure((entry)ntsync_snapshot, NTSYNC_LIST_SHORT, ARGS((uint64_t)buffer, 1));
}

static void signals_of(entry call, uint32_t kind, uint64_t argument)
{
    build(kind, NTSYNC_WAIT_PLACES);
    measure(call, NTSYNC_DONE, ARGS(WAKE, KEY, argument));
    measure(call, NTSYNC_EINVAL, ARGS(WAKE, NTSYNC_OBJECT_PLACES + 1, argument));
    measure(call, NTSYNC_LIST_SHORT, ARGS(NO_WAKE, KEY, argument));
}

static void signals(void)
{
    signals_of((entry)ntsync_post, 0, UINT32_MAX);
    measure((entry)ntsync_post, NTSYNC_EOVERFLOW, ARGS(WAKE, 1, 1));
    signals_of((entry)ntsync_unlock, 1, OWNER + 1);
    measure((entry)ntsync_unlock, NTSYNC_EPERM, ARGS(WAKE, KEY, OWNER));
    signals_of((entry)ntsync_kill_owner, 1, OWNER + 1);
    measure((entry)ntsync_kill_owner, NTSYNC_EPERM, ARGS(WAKE, KEY, OWNER));
    signals_of((entry)ntsync_set, 2, 0);
    signals_of((entry)ntsync_pulse, 2, 0);
}

/* The queue's ways out, and the alert. The list without its key is served. */
static void waits_of(entry call)
{
    build(2, NTSYNC_WAIT_PLACES - 1);
    measure(call, NTSYNC_QUEUED, ARGS((uint64_t)list, LISTED, OWNER, 0, 0, 0, NTSYNC_NEVER, 0));
    measure(call, NTSYNC_DONE, ARGS((uint64_t)list, LISTED - 1, OWNER, 0, 0, 0, NTSYNC_NEVER, 0));
    measure(call, NTSYNC_ETIMEDOUT, ARGS((uint64_t)list, LISTED, OWNER, 0, 1, 0, 5, 5));
    measure(call, NTSYNC_EINVAL, ARGS((uint64_t)list, LISTED, 0, 0, 0, 0, 5, 5));
    build(2, NTSYNC_WAIT_PLACES);
    measure(call, NTSYNC_NO_ROOM, ARGS((uint64_t)list, LISTED, OWNER, 0, 0, 0, NTSYNC_NEVER, 0));
}

static void waits(void)
{
    waits_of((entry)ntsync_wait_all);
    for (uint32_t i = 0; i < LISTED; i++)
        list[i] = KEY;
    measure((entry)ntsync_wait_any, NTSYNC_NO_ROOM, ARGS((uint64_t)list, LISTED, OWNER, KEY, 0, 0, NTSYNC_NEVER, 0));
    measure((entry)ntsync_wait_any, NTSYNC_ETIMEDOUT, ARGS((uint64_t)list, LISTED, OWNER, KEY, 1, 0, 5, 5));
    build(2, NTSYNC_WAIT_PLACES - 1);
    measure((entry)ntsync_wait_any, NTSYNC_QUEUED, ARGS((uint64_t)(list + KEY - 1), 1, OWNER, KEY, 0, 0, NTSYNC_NEVER, 0));
    measure((entry)ntsync_wait_any, NTSYNC_DONE, ARGS((uint64_t)list, LISTED, OWNER, KEY, 0, 0, NTSYNC_NEVER, 0));
    build_objects(2);
    must(ntsync_set(tables, NTSYNC_CELLS, wake, NTSYNC_WAKE_CELLS, KEY).answer, NTSYNC_DONE, "set");
    measure((entry)ntsync_wait_any, NTSYNC_DONE, ARGS((uint64_t)(list + KEY - 1), 1, OWNER, KEY, 0, 0, NTSYNC_NEVER, 0));
    measure((entry)ntsync_wait_all, NTSYNC_DONE, ARGS((uint64_t)list, LISTED, OWNER, 0, 0, 0, NTSYNC_NEVER, 0));
}

static void endings(void)
{
    build(2, NTSYNC_WAIT_PLACES);
    measure((entry)ntsync_expire, NTSYNC_DONE, ARGS(WAKE, NTSYNC_MONOTONIC, 1000));
    measure((entry)ntsync_expire, NTSYNC_DONE, ARGS(WAKE, NTSYNC_REALTIME, 999));
    measure((entry)ntsync_expire, NTSYNC_EINVAL, ARGS(WAKE, 2, 1000));
    measure((entry)ntsync_cancel, NTSYNC_EINTR, ARGS(NTSYNC_WAIT_PLACES));
    measure((entry)ntsync_cancel, NTSYNC_EINVAL, ARGS(NTSYNC_WAIT_PLACES + 1));
}

static size_t take(void) { return ntsync_snapshot(tables, NTSYNC_CELLS, buffer, sizeof buffer).length; }

/* The snapshot of full tables, all of it, cut at each byte of its last line, and with another sum: every line is read, and the
 * queue looked through. The waits are for all but the last, which has an alert. */
static void restores_of(uint32_t kind)
{
    build(kind, NTSYNC_WAIT_PLACES - 1);
    uint32_t alert = kind == 2 ? KEY : 0;
    must(ntsync_wait_any(tables, NTSYNC_CELLS, list + KEY - 1, 1, OWNER, alert, 0, 0, NTSYNC_NEVER, 0).answer, NTSYNC_QUEUED,
         "wait");
    size_t length = take();
    measure((entry)ntsync_restore, NTSYNC_DONE, ARGS((uint64_t)buffer, length));
    for (size_t cut = 1; buffer[length - cut - 1] != '\n'; cut++)
        measure((entry)ntsync_restore, NTSYNC_NOT_A_SNAPSHOT, ARGS((uint64_t)buffer, length - cut));
    buffer[length - 2] ^= 1;
    measure((entry)ntsync_restore, NTSYNC_NOT_A_SNAPSHOT, ARGS((uint64_t)buffer, length));
}

/* Also with a wait that could be served: the host wrote to the cell that has whether the key is signaled. */
static void restores(void)
{
    for (uint32_t kind = 0; kind < 3; kind++)
        restores_of(kind);
    tables[4 * KEY - 2] = 1;
    measure((entry)ntsync_restore, NTSYNC_NOT_A_SNAPSHOT, ARGS((uint64_t)buffer, take()));
    measure((entry)ntsync_restore, NTSYNC_NOT_A_SNAPSHOT, ARGS((uint64_t)buffer, 0));
}

/* Damage in the last cell: the check reads all before it. A restore does not look at the cells. */
static void damaged(void)
{
    tables[NTSYNC_CELLS - 1] = UINT64_MAX;
    for (size_t i = 2; i < CALLS; i++)
        if (calls[i].call != (entry)ntsync_restore)
            measure(calls[i].call, NTSYNC_CORRUPT, ARGS(WAKE, KEY, OWNER));
}

int main(void)
{
    objects();
    reads();
    signals();
    waits();
    endings();
    restores();
    damaged();
    for (size_t i = 0; i < CALLS; i++)
        printf("%s %u\n", calls[i].name, (unsigned)calls[i].worst);
    printf("tables %u\nwake list %u\nsnapshot buffer %u\n", (unsigned)sizeof tables, (unsigned)sizeof wake,
           (unsigned)sizeof buffer);
    return failures != 0;
}
