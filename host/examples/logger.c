/*
 * A logger of sixteen tasks, and the weekend on which the sensor of one is dead. examples/logger.rs is the same in Rust.
 *
 * Each cycle every task makes a block for its reading, task 0 reads them all, and every task ticks. The readings are
 * for another task, so their expirations are global: due once every running task has ticked twice. Task 0 also keeps
 * the last scan that is whole, with a reading of every sensor: it refreshes all of them by one call, and only where they
 * would be gone at the next look. Nobody refreshes the request of the task whose sensor is dead: it is put off for as long
 * as the task waits, and is there when the task comes back. And the calibration of the site must not lapse at
 * all: it is pinned, and released when the site is taken down.
 *
 * At the end one task is chatty, and would take all blocks. What stops it are the shares of the others, and its own: a
 * reserve is held back for a task, and a limit is the most that it has.
 */
#include <stdbool.h>
#include <stdio.h>
#include <string.h>

#include "ramsummer_peaks.h"
#include "ramsummer_site.h"
#include "ramsummer_text.h"

/* The sensor of WAITER gives nothing in the cycles FIRST_DEAD to LAST_DEAD. */
enum { READER = 0, CHATTY = 3, WAITER = 7, CYCLES = 10, FIRST_DEAD = 3, LAST_DEAD = 8, READINGS = 4 * 16 + 6 * 15, LENGTH = 4 };
enum { ZERO = 250 }; /* where the gauge begins, in centimetres */

static ramsummer_site site;
static uint32_t newest[RAMSUMMER_TASKS]; /* the newest reading of each task */
static uint32_t whole[RAMSUMMER_TASKS];  /* the last ones that are all of one cycle */
static uint32_t request;                 /* what WAITER asks its sensor */
static uint32_t calibration;             /* ZERO in two bytes, the high one first */
static ramsummer_peaks peaks;            /* the most that stood at a time: what the pool has to have room for */

static bool at_work(uint8_t task, uint8_t cycle) { return task != WAITER || cycle < FIRST_DEAD || cycle > LAST_DEAD; }

/* What a sensor says: the task, the cycle, and the water level in centimetres. */
static void sense(uint8_t task, uint8_t cycle, uint8_t reading[LENGTH]) {
    uint16_t level = 1000 + 20 * task + cycle;
    reading[0] = task;
    reading[1] = cycle;
    reading[2] = level >> 8;
    reading[3] = level & 0xFF;
}

/* A new object of these bytes, and the peaks are kept. */
static uint8_t put(uint8_t task, uint8_t kind, const uint8_t *bytes, size_t length, uint32_t *handle) {
    return ramsummer_peaks_after(&peaks, &site.pool, ramsummer_site_put(&site, task, kind, 0, bytes, length, 0, handle));
}

/* The task makes a block of its reading. */
static uint8_t put_reading(uint8_t task, uint8_t cycle) {
    uint8_t reading[LENGTH];
    sense(task, cycle, reading);
    return put(task, RAMSUMMER_GLOBAL, reading, LENGTH, &newest[task]);
}

/* Task 0 reads it, and counts it where it is as it was written. */
static uint8_t read_reading(uint8_t task, uint8_t cycle, unsigned *read) {
    uint8_t expected[LENGTH], found[LENGTH];
    uint8_t refusal = ramsummer_site_get(&site, READER, newest[task], found, LENGTH);
    if (refusal) return refusal;
    sense(task, cycle, expected);
    *read += memcmp(found, expected, LENGTH) == 0;
    return RAMSUMMER_DONE;
}

/* Task 0 looks at the whole scan once a cycle, and refreshes it where it would be gone an advance later. None of its
 * readings goes before that of task 0, which does not wait; so that one tells for all. */
static uint8_t keep(bool *refreshed) {
    uint8_t local, global;
    uint8_t refusal = ramsummer_remaining(&site.pool, READER, whole[0], &local, &global);
    if (refusal) return refusal;
    *refreshed = global <= 1;
    if (!*refreshed) return RAMSUMMER_DONE;
    refusal = ramsummer_refresh_all(&site.pool, READER, RAMSUMMER_GLOBAL, 1, whole, RAMSUMMER_TASKS);
    return ramsummer_peaks_after(&peaks, &site.pool, refusal);
}

/* One cycle of the tasks at work. Read says how many readings task 0 has read as they were written, refreshed whether
 * it has refreshed the last whole scan. */
static uint8_t run(uint8_t cycle, unsigned *read, bool *refreshed) {
    uint8_t refusal = RAMSUMMER_DONE, advanced, task;
    for (task = 0; task < RAMSUMMER_TASKS && !refusal; task++)
        if (at_work(task, cycle)) refusal = put_reading(task, cycle);
    for (task = 0; task < RAMSUMMER_TASKS && !refusal; task++)
        if (at_work(task, cycle)) refusal = read_reading(task, cycle, read);
    if (!refusal && *read == RAMSUMMER_TASKS) memcpy(whole, newest, sizeof whole);
    if (!refusal) refusal = keep(refreshed);
    for (task = 0; task < RAMSUMMER_TASKS && !refusal; task++)
        if (at_work(task, cycle)) refusal = ramsummer_tick(&site.pool, task, &advanced);
    return refusal;
}

/* Its request would last two advances; while it waits it lasts. */
static uint8_t ask_and_wait(uint8_t cycle) {
    uint8_t advanced;
    uint8_t refusal = put(WAITER, RAMSUMMER_GLOBAL, &cycle, 1, &request);
    if (!refusal) refusal = ramsummer_block(&site.pool, WAITER, &advanced);
    return refusal;
}

static uint8_t go_on(void) {
    uint8_t asked;
    uint8_t refusal = ramsummer_resume(&site.pool, WAITER);
    if (!refusal) refusal = ramsummer_site_get(&site, WAITER, request, &asked, 1);
    if (!refusal) printf("          task %d resumes and finds its request of cycle %d\n", WAITER, asked);
    return refusal;
}

/* The cure: global time goes on without a task that waits. */
static uint8_t wait_or_go_on(uint8_t cycle) {
    if (cycle == FIRST_DEAD) return ask_and_wait(cycle);
    if (cycle == LAST_DEAD + 1) return go_on();
    return RAMSUMMER_DONE;
}

/* The watchdog, once a cycle: task 0 has ticked, so that it is awaited again only where global time has advanced since. */
static uint8_t watch(void) {
    uint16_t awaited;
    uint8_t refusal = ramsummer_awaited(&site.pool, &awaited), task;
    if (refusal || awaited >> READER & 1) return refusal;
    for (task = 0; task < RAMSUMMER_TASKS; task++)
        if (awaited >> task & 1) printf("          global time waits for task %d\n", task);
    return refusal;
}

/* Nobody refreshes it, and no time ends it. */
static uint8_t calibrate(void) {
    const uint8_t zero[2] = {ZERO >> 8, ZERO & 0xFF};
    return put(READER, RAMSUMMER_PINNED, zero, sizeof zero, &calibration);
}

static uint8_t print_cycle(uint8_t cycle, unsigned read, bool refreshed) {
    uint8_t small_objects, large_objects;
    uint16_t expirations;
    uint32_t given;
    uint8_t refusal = ramsummer_report(&site.pool, &small_objects, &large_objects, &expirations, &given);
    if (!refusal)
        printf("cycle %2d: %u readings, global time %2u, %d blocks in use%s\n", cycle, read, (unsigned)site.pool.global,
               small_objects, refreshed ? ", the last whole scan refreshed" : "");
    return refusal ? refusal : watch();
}

/* The calibration is as on the first day, and its block comes back. */
static uint8_t take_down(void) {
    uint8_t found[2], small_objects, large_objects;
    uint16_t expirations;
    uint32_t given;
    uint8_t refusal = ramsummer_site_get(&site, READER, calibration, found, sizeof found);
    if (refusal) return refusal;
    printf("          the calibration stands: the gauge begins at %d cm\n", found[0] << 8 | found[1]);
    refusal = ramsummer_release(&site.pool, READER, calibration);
    if (!refusal) refusal = ramsummer_report(&site.pool, &small_objects, &large_objects, &expirations, &given);
    if (!refusal) printf("          it is released: %d blocks in use\n", small_objects);
    return refusal;
}

/* All cycles from a fresh pool, up to the first refusal. Total is the count of readings. */
static uint8_t log_all(bool with_block, unsigned *total) {
    uint8_t refusal = ramsummer_site_fresh(&site), task, cycle;
    *total = 0;
    if (!refusal) refusal = ramsummer_peaks_reset(&peaks, &site.pool);
    for (task = 0; task < RAMSUMMER_TASKS && !refusal; task++) refusal = ramsummer_join(&site.pool, task, RAMSUMMER_OPEN);
    if (!refusal) refusal = calibrate();
    for (cycle = 1; cycle <= CYCLES && !refusal; cycle++) {
        unsigned read = 0;
        bool refreshed = false;
        if (with_block) refusal = wait_or_go_on(cycle);
        if (!refusal) refusal = run(cycle, &read, &refreshed);
        if (refusal) printf("cycle %2d: refused with %d, %s\n", cycle, refusal, ramsummer_text(refusal));
        else refusal = print_cycle(cycle, read, refreshed);
        *total += read;
    }
    if (!refusal) refusal = take_down();
    printf("peaks: small %d, large %d, expirations %d\n", peaks.small_objects, peaks.large_objects, peaks.expirations);
    return refusal;
}

/* Small blocks: of each but CHATTY a reserve, and of CHATTY a limit. */
static uint8_t join_all(uint8_t reserve, uint8_t limit) {
    uint8_t refusal = ramsummer_site_fresh(&site), task;
    for (task = 0; task < RAMSUMMER_TASKS && !refusal; task++)
        refusal = task == CHATTY ? ramsummer_join(&site.pool, task, 0, limit, 0, RAMSUMMER_NO_LIMIT)
                                 : ramsummer_join(&site.pool, task, reserve, RAMSUMMER_NO_LIMIT, 0, RAMSUMMER_NO_LIMIT);
    return refusal;
}

/* CHATTY makes readings until it is refused, and then each other task makes one. Whether CHATTY is refused with this
 * number, and as many of the others find a block. */
static bool chat(const char *shares, uint8_t reserve, uint8_t limit, uint8_t number, unsigned count) {
    uint8_t has[6]; /* what it made, its reserve and its limit: of the small store, then of the large one */
    uint8_t task, refusal = join_all(reserve, limit);
    unsigned others = 0;
    if (refusal) return false;
    while (!refusal) refusal = put_reading(CHATTY, 1);
    for (task = 0; task < RAMSUMMER_TASKS; task++) others += task != CHATTY && !put_reading(task, 1);
    if (ramsummer_share(&site.pool, CHATTY, has, has + 1, has + 2, has + 3, has + 4, has + 5)) return false;
    printf("%s: task %d made %d, refused with %d; the others made %u\n", shares, CHATTY, has[0], refusal, others);
    return refusal == number && others == count;
}

/* The fault and its cure. */
static bool weekend(void) {
    uint8_t fault, cure;
    unsigned total;
    printf("Task %d waits for its sensor without block:\n", WAITER);
    fault = log_all(false, &total);
    printf("Task %d calls block before it waits:\n", WAITER);
    cure = log_all(true, &total);
    return fault == RAMSUMMER_NO_FREE_BLOCK && cure == RAMSUMMER_DONE && total == READINGS;
}

/* A task that talks too much, and what stops it. */
static bool chatter(void) {
    printf("Task %d is chatty. It makes readings until it is refused, and then each other task makes one:\n", CHATTY);
    return chat("all join open", 0, RAMSUMMER_NO_LIMIT, RAMSUMMER_NO_FREE_BLOCK, 0)
           && chat("a reserve of 2 for each other", 2, RAMSUMMER_NO_LIMIT, RAMSUMMER_NO_FREE_BLOCK, 15)
           && chat("and a limit of 8 for task 3", 2, 8, RAMSUMMER_AT_LIMIT, 15);
}

int main(void) { return weekend() && chatter() ? 0 : 1; }
