/* A program without libc: memcpy and memset of its own, no start files. Exit code 0 if a wait is queued and woken, and the
 * tables are restored from their snapshot. */
#include "ntsync.h"

void *memcpy(void *to, const void *from, size_t bytes);
void *memset(void *to, int value, size_t bytes);
void bare_main(void);

void *memcpy(void *to, const void *from, size_t bytes)
{
    for (size_t i = 0; i < bytes; i++)
        ((unsigned char *)to)[i] = ((const unsigned char *)from)[i];
    return to;
}

void *memset(void *to, int value, size_t bytes)
{
    for (size_t i = 0; i < bytes; i++)
        ((unsigned char *)to)[i] = (unsigned char)value;
    return to;
}

static uint64_t tables[NTSYNC_CELLS], wake[NTSYNC_WAKE_CELLS];
static uint8_t buffer[NTSYNC_SNAPSHOT_BYTES];

static int woken(void)
{
    uint32_t made = ntsync_init(tables, NTSYNC_CELLS), event = ntsync_create_event(tables, NTSYNC_CELLS, 0, 0).handle;
    ntsync_waited asked = ntsync_wait_all(tables, NTSYNC_CELLS, &event, 1, 6, 0, NTSYNC_MONOTONIC, 0, NTSYNC_NEVER, 0);
    ntsync_changed set = ntsync_set(tables, NTSYNC_CELLS, wake, NTSYNC_WAKE_CELLS, event);
    ntsync_written text = ntsync_snapshot(tables, NTSYNC_CELLS, buffer, sizeof buffer);
    ntsync_restored back = ntsync_restore(tables, NTSYNC_CELLS, buffer, text.length);
    return made == NTSYNC_DONE && asked.answer == NTSYNC_QUEUED && set.woken == 1 && wake[0] == asked.ticket
        && text.length > 0 && back.answer == NTSYNC_DONE;
}

/* Linux's exit, by its number. */
void bare_main(void)
{
    long code = !woken();
    __asm__ volatile("syscall" : : "a"(60L), "D"(code) : "rcx", "r11", "memory");
    for (;;) {
    }
}

__asm__(".globl _start\n_start: and $-16, %rsp; call bare_main\n");
