/*
 * Sixteen threads, one for each task, and a pool behind one mutex. The sensor of one task is dead for a while, and a watchdog
 * finds it. examples/threads.rs is the same in Rust.
 *
 * The pool has no lock of its own: whoever calls it holds the mutex. A thread that has ticked waits until global time
 * advances, so that each round every task that runs makes one reading. Which thread comes first is the scheduler's choice.
 * What is printed does not depend on it: it is printed at an advance, or where only one thread can go on.
 *
 * A thread at a dead sensor does not tick, and global time stands for all. The watchdog, the main thread, asks for whom
 * global time waits. Where each of these tasks is at a sensor it calls block for them, and the others go on. When
 * the sensor answers, its driver calls resume.
 */
#include <pthread.h>
#include <stdbool.h>
#include <stdio.h>
#include <stdlib.h>
#include <string.h>

#include "ramsummer_site.h"
#include "ramsummer_text.h"

/* The sensor of WAITER is dead while global time is DIES to ANSWERS - 1. */
enum { READER = 0, WAITER = 7, ROUNDS = 8, DIES = 2, ANSWERS = 6, LENGTH = 2 };

static pthread_mutex_t lock = PTHREAD_MUTEX_INITIALIZER; /* around all that follows */
static pthread_cond_t changed = PTHREAD_COND_INITIALIZER;
static ramsummer_site site;
static uint32_t scans[2][RAMSUMMER_TASKS]; /* the readings of this round and of the last, by global time; 0 for none */
static unsigned whole;                     /* how many of the last round READER has found as they were written */
static uint16_t at_sensor;                 /* the tasks whose threads wait for a sensor: bit t is task t's */
static unsigned finished;                  /* threads that are done */

static void check(uint8_t answer) {
    if (answer == RAMSUMMER_DONE) return;
    printf("refused with %d: %s\n", answer, ramsummer_text(answer));
    exit(1);
}

static unsigned objects(void) {
    uint8_t small_objects, large_objects;
    uint16_t expirations;
    uint32_t given;
    check(ramsummer_report(&site.pool, &small_objects, &large_objects, &expirations, &given));
    return small_objects;
}

static unsigned readings(const uint32_t scan[RAMSUMMER_TASKS]) {
    unsigned count = 0, task;
    for (task = 0; task < RAMSUMMER_TASKS; task++) count += scan[task] != 0;
    return count;
}

/* The driver of a sensor that answers: its task runs again. */
static void answer(uint8_t task) {
    at_sensor &= ~(1u << task);
    check(ramsummer_resume(&site.pool, task));
    printf("         the sensor of task %d answers\n", task);
}

/* Whoever brings the advance ends the round for all. */
static void end_round(void) {
    printf("round %u: %2u readings, %2u of the last one read, %u objects stand\n", (unsigned)site.pool.global,
           readings(scans[(site.pool.global + 1) % 2]), whole, objects());
    memset(scans[site.pool.global % 2], 0, sizeof scans[0]);
    if (site.pool.global == ANSWERS) answer(WAITER);
}

static void make_reading(uint8_t task, uint32_t *handle) {
    const uint8_t reading[LENGTH] = {task, (uint8_t)site.pool.global};
    check(ramsummer_site_put(&site, task, RAMSUMMER_GLOBAL, 0, reading, LENGTH, 0, handle));
    scans[site.pool.global % 2][task] = *handle;
}

/* The time at which the task made it. */
static uint8_t read_reading(uint8_t reader, uint8_t task, uint32_t handle) {
    uint8_t found[LENGTH];
    check(ramsummer_site_get(&site, reader, handle, found, LENGTH));
    if (found[0] != task) exit(1);
    return found[1];
}

/* They stand until this round ends. */
static void read_last_round(void) {
    const uint32_t *scan = scans[(site.pool.global + 1) % 2];
    uint8_t task;
    whole = 0;
    for (task = 0; task < RAMSUMMER_TASKS; task++)
        if (scan[task]) whole += read_reading(READER, task, scan[task]) + 1u == site.pool.global;
}

static void tick(uint8_t task) {
    uint8_t advanced;
    check(ramsummer_tick(&site.pool, task, &advanced));
    if (advanced) end_round();
    pthread_cond_broadcast(&changed);
}

/* Its last reading was put off at each advance, and is there. */
static void await_sensor(uint8_t task, uint32_t last) {
    if (task != WAITER || site.pool.global < DIES || site.pool.global >= ANSWERS) return;
    at_sensor |= 1u << task;
    pthread_cond_broadcast(&changed);
    while (at_sensor >> task & 1) pthread_cond_wait(&changed, &lock);
    printf("         task %d goes on, and finds its reading of round %d\n", task, read_reading(task, task, last) + 1);
}

static void *run(void *argument) {
    const uint8_t task = *(const uint8_t *)argument;
    uint32_t last = 0, now;
    pthread_mutex_lock(&lock);
    while (site.pool.global < ROUNDS) {
        await_sensor(task, last);
        now = site.pool.global;
        make_reading(task, &last);
        if (task == READER) read_last_round();
        tick(task);
        while (site.pool.global == now) pthread_cond_wait(&changed, &lock);
    }
    finished++;
    pthread_cond_broadcast(&changed);
    pthread_mutex_unlock(&lock);
    return NULL;
}

static void block(uint8_t task) {
    uint8_t advanced;
    printf("watchdog: global time %u waits for task %d, which waits for its sensor\n", (unsigned)site.pool.global, task);
    check(ramsummer_block(&site.pool, task, &advanced));
    if (advanced) end_round();
    pthread_cond_broadcast(&changed);
}

/* A watchdog asks at intervals; this one is woken by every change, so that no clock has a part in what is printed. */
static void watch(void) {
    uint16_t awaited;
    uint8_t task;
    while (finished < RAMSUMMER_TASKS) {
        check(ramsummer_awaited(&site.pool, &awaited));
        if (awaited && !(awaited & ~at_sensor)) {
            for (task = 0; task < RAMSUMMER_TASKS; task++)
                if (awaited >> task & 1) block(task);
        } else {
            pthread_cond_wait(&changed, &lock);
        }
    }
}

int main(void) {
    pthread_t threads[RAMSUMMER_TASKS];
    uint8_t tasks[RAMSUMMER_TASKS], task;
    check(ramsummer_site_fresh(&site));
    /* All join before the first ticks, or global time would advance without the others. */
    for (task = 0; task < RAMSUMMER_TASKS; task++) check(ramsummer_join(&site.pool, task, RAMSUMMER_OPEN));
    pthread_mutex_lock(&lock);
    for (task = 0; task < RAMSUMMER_TASKS; task++) {
        tasks[task] = task;
        if (pthread_create(&threads[task], NULL, run, &tasks[task])) return 1;
    }
    watch();
    pthread_mutex_unlock(&lock);
    for (task = 0; task < RAMSUMMER_TASKS; task++) pthread_join(threads[task], NULL);
    printf("%u threads are done, and %u objects stand\n", finished, objects());
    return 0;
}
