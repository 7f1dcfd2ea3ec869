/* The checked scenario: a plant's objects, the tasks over them, and a timeline in which every call is printed and compared
 * with what the scenario says. The host itself is host.h. */
#ifndef PLANT_H
#define PLANT_H

#include "host.h"

/* Tasks in the order in which they are added. */
enum { SENSOR, PUMP, VALVE, STANDBY, RECORDER, TASKS };

typedef struct {
    host host;
    uint64_t clocks[2]; /* simulated, by the number of the clock */
    uint32_t batches, manifold, pressure, flush, stop;  /* handles */
    const char *object_names[NTSYNC_OBJECT_PLACES + 1]; /* by handle */
    task *tasks[TASKS];
    int failures;
} plant;

/* timeline.c: lines and checks; each library call with both */
void say(const plant *p, const char *who, const char *format, ...);
void expect(plant *p, const char *what, uint64_t got, uint64_t wanted);
void wait_any(plant *p, task *t, ntsync_wait w, uint32_t wanted);
void wait_all(plant *p, task *t, ntsync_wait w, uint32_t wanted);
void sleep_until(plant *p, task *t, uint32_t clock, uint64_t time, uint32_t alert);
void changed(plant *p, const char *who, const char *call, ntsync_changed r, ntsync_changed wanted);
void answered(plant *p, const char *who, const char *call, uint32_t answer, uint32_t wanted);
void heard_as(plant *p, const task *t, outcome heard, uint32_t answer, uint32_t index);
void unlock(plant *p, const task *t, const char *call, ntsync_changed wanted);
ntsync_changed result(uint32_t answer, uint32_t previous, uint32_t woken);

/* plant.c: the objects and the tasks over them */
void build_plant(plant *p);

/* power.c: the tables are lost, and restored from a snapshot */
void cut_power(plant *p);

/* one file each */
step_function pump_step, valve_step, standby_step, sensor_step, recorder_step;

/* live.c: a short run by the system's own clocks; the number of differences */
int run_live(void);

#endif
