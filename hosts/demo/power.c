/* Half way the power is cut. The tables are lost, and come back from the snapshot that the host had saved; damaged copies of it
 * start nothing. What a host stores beside the snapshot, here its tasks, is not lost. */
#include "plant.h"

#include <string.h>

typedef struct { uint8_t text[NTSYNC_SNAPSHOT_BYTES + 1]; size_t length; } snapshot; /* a zero byte behind the text */

static void take(plant *p, snapshot *s)
{
    ntsync_written r = ntsync_snapshot(p->host.tables, NTSYNC_CELLS, s->text, NTSYNC_SNAPSHOT_BYTES);
    expect(p, "answer of the snapshot", r.answer, NTSYNC_DONE);
    s->length = r.length;
    s->text[r.length] = 0;
}

/* A refusal leaves every cell as it is, whatever the tables hold. */
static void restore(plant *p, const char *call, const snapshot *s, uint32_t answer, uint64_t offset)
{
    static uint64_t before[NTSYNC_CELLS];
    memcpy(before, p->host.tables, sizeof before);
    ntsync_restored r = ntsync_restore(p->host.tables, NTSYNC_CELLS, s->text, s->length);
    int altered = memcmp(before, p->host.tables, sizeof before) != 0;
    say(p, "host", "%s: %s, offset %u, tables %s", call, ntsync_answer_name(r.answer), (unsigned)r.offset,
        altered ? "restored" : "unaltered");
    expect(p, call, r.answer, answer);
    expect(p, "offset", r.offset, offset);
    expect(p, "altered tables", (uint64_t)altered, answer == NTSYNC_DONE);
}

/* One byte is another: the last one of these words, where the text has them first. */
static void restore_damaged(plant *p, const char *call, const snapshot *s, const char *words, char byte, uint64_t offset)
{
    static snapshot copy;
    memcpy(&copy, s, sizeof copy);
    char *at = strstr((char *)copy.text, words);
    expect(p, words, at != NULL, 1);
    if (at == NULL)
        return;
    at[strlen(words) - 1] = byte;
    restore(p, call, &copy, NTSYNC_NOT_A_SNAPSHOT, offset);
}

/* No record is under way: every woken task has run. A bad word is found at its line. Another owner of the manifold makes a state
 * that could have been, and is found by the sum. */
void cut_power(plant *p)
{
    static snapshot saved, again;
    expect(p, "ready tasks", p->host.ready_count, 0);
    take(p, &saved);
    say(p, "host", "saves a snapshot of %u bytes", (unsigned)saved.length);
    say(p, "operator", "cuts the power, and the tables are lost");
    memset(p->host.tables, 0xA5, sizeof p->host.tables);
    restore_damaged(p, "tries to start from a copy with a bad word", &saved, "kind=mutex", 'y', 59);
    restore_damaged(p, "tries to start from a copy with a wrong owner", &saved, "owner=3", '5', 0);
    restore(p, "starts from what it saved", &saved, NTSYNC_DONE, 0);
    take(p, &again);
    expect(p, "the snapshot, taken again, differs", memcmp(&saved, &again, sizeof saved) != 0, 0);
}
