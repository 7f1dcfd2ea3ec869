/* The objects of the plant and the tasks over them. */
#include "plant.h"

static uint32_t created(plant *p, const char *kind, const char *name, ntsync_created r)
{
    say(p, "plant", "%s %s: %s, handle %u", kind, name, ntsync_answer_name(r.answer), (unsigned)r.handle);
    expect(p, name, r.answer, NTSYNC_DONE);
    p->object_names[r.handle] = name;
    return r.handle;
}

static void create_objects(plant *p)
{
    uint64_t *t = p->host.tables;
    p->batches = created(p, "semaphore 0 of 4", "batches", ntsync_create_sem(t, NTSYNC_CELLS, 0, 4));
    p->manifold = created(p, "mutex", "manifold", ntsync_create_mutex(t, NTSYNC_CELLS, 0, 0));
    p->pressure = created(p, "manual event", "pressure", ntsync_create_event(t, NTSYNC_CELLS, 0, 1));
    p->flush = created(p, "manual event", "flush", ntsync_create_event(t, NTSYNC_CELLS, 0, 1));
    p->stop = created(p, "auto event", "stop", ntsync_create_event(t, NTSYNC_CELLS, 0, 0));
    answered(p, "plant", "tries a semaphore 5 of 4", ntsync_create_sem(t, NTSYNC_CELLS, 5, 4).answer, NTSYNC_EINVAL);
    answered(p, "plant", "tries a semaphore 0 of 0", ntsync_create_sem(t, NTSYNC_CELLS, 0, 0).answer, NTSYNC_EINVAL);
}

static void add_task(plant *p, int number, const char *name, step_function *step)
{
    p->tasks[number] = host_add(&p->host, name, step);
    say(p, "plant", "task %s is owner %u", name, (unsigned)p->tasks[number]->owner);
}

void build_plant(plant *p)
{
    create_objects(p);
    add_task(p, SENSOR, "sensor", sensor_step);
    add_task(p, PUMP, "pump", pump_step);
    add_task(p, VALVE, "valve", valve_step);
    add_task(p, STANDBY, "standby", standby_step);
    add_task(p, RECORDER, "recorder", recorder_step);
}
