/*
 * A superloop of three tasks, as firmware has it: no malloc, no stdio, and its pool is static and no larger than it has to
 * be. examples/firmware is the same in Rust.
 *
 * One task measures the water level each turn. The sensor of another takes its time over the rain, so that this task
 * blocks until it is ready. The radio sends both. Nobody frees anything: when the rain's sensor is late, its last
 * reading goes by itself, and the radio says that it is too old. For this the radio sets how long the rain's readings
 * last, since what a task has set by global time waits with it.
 */
#include <stdbool.h>
#include <string.h>
#include <unistd.h>

/* All the memory that the program has for readings. Four are in use at most; of large blocks, which it does not use, a pool
 * has one at least. */
#define RAMSUMMER_SITE_SMALL_BLOCKS 8
#define RAMSUMMER_SITE_LARGE_BLOCKS 1
#define RAMSUMMER_SITE_EXPIRATIONS 16
#define RAMSUMMER_SITE_EXTENSION 3
#include "ramsummer_site.h"
#include "ramsummer_text.h"

enum { LEVEL = 0, RAIN = 1, RADIO = 2, TASKS = 3, TURNS = 12, LENGTH = 2 };

static ramsummer_site site;
static uint32_t newest[2]; /* the newest reading of each sensor */

/* What a board gives: a serial line, which is the C library's write here. */
static void put_bytes(const char *bytes, size_t count) {
    if (write(1, bytes, count) != (ssize_t)count) _exit(1);
}

static void put(const char *text) { put_bytes(text, strlen(text)); }

/* In decimal, and blanks before it up to this width. */
static void put_number(unsigned number, size_t width) {
    char digits[16];
    size_t first = sizeof digits;
    do digits[--first] = (char)('0' + number % 10);
    while (number /= 10);
    while (sizeof digits - first < width) digits[--first] = ' ';
    put_bytes(digits + first, sizeof digits - first);
}

/* Each third turn; but the third time it is three turns late. */
static bool is_rain_ready(unsigned turn) { return turn == 3 || turn == 6 || turn == 12; }

static uint8_t put_reading(uint8_t task, uint8_t kind, unsigned value) {
    const uint8_t reading[LENGTH] = {(uint8_t)(value >> 8), (uint8_t)value};
    return ramsummer_site_put(&site, task, kind, 0, reading, LENGTH, 0, &newest[task]);
}

/* For the radio in this turn: a global expiration, and no longer than need be. */
static uint8_t measure_level(unsigned turn) {
    uint8_t advanced;
    uint8_t refusal = put_reading(LEVEL, RAMSUMMER_GLOBAL, 1000 + turn);
    if (refusal) return refusal;
    return ramsummer_tick(&site.pool, LEVEL, &advanced);
}

/* For four turns of the radio. Then the sensor begins again, and the others do not wait for this task. */
static uint8_t measure_rain(unsigned turn) {
    uint8_t advanced;
    uint8_t refusal = ramsummer_resume(&site.pool, RAIN);
    if (!refusal) refusal = put_reading(RAIN, RAMSUMMER_LOCAL, 2 * turn);
    if (!refusal) refusal = ramsummer_refresh(&site.pool, RADIO, RAMSUMMER_LOCAL, 3, newest[RAIN]);
    if (!refusal) refusal = ramsummer_tick(&site.pool, RAIN, &advanced);
    if (!refusal) refusal = ramsummer_block(&site.pool, RAIN, &advanced);
    return refusal;
}

/* What the radio knows of a sensor. */
static uint8_t put_value(uint32_t handle) {
    uint8_t reading[LENGTH];
    uint8_t refusal = ramsummer_site_get(&site, RADIO, handle, reading, LENGTH);
    switch (refusal) {
    case RAMSUMMER_DONE: put_number(((unsigned)reading[0] << 8) + reading[1], 0); return RAMSUMMER_DONE;
    case RAMSUMMER_HANDLE_NOT_GIVEN: put("none yet"); return RAMSUMMER_DONE;
    case RAMSUMMER_OBJECT_GONE: put("too old"); return RAMSUMMER_DONE;
    default: return refusal;
    }
}

static uint8_t put_usage(void) {
    uint8_t small_objects, large_objects;
    uint16_t expirations;
    uint32_t given;
    uint8_t refusal = ramsummer_report(&site.pool, &small_objects, &large_objects, &expirations, &given);
    if (!refusal) put_number(small_objects, 0);
    return refusal;
}

static uint8_t send(unsigned turn) {
    uint8_t refusal, advanced;
    put("turn ");
    put_number(turn, 2);
    put(": level ");
    if ((refusal = put_value(newest[LEVEL]))) return refusal;
    put(", rain ");
    if ((refusal = put_value(newest[RAIN]))) return refusal;
    put(", ");
    if ((refusal = put_usage())) return refusal;
    put(" blocks in use\n");
    return ramsummer_tick(&site.pool, RADIO, &advanced);
}

/* All tasks join, and the rain's sensor begins. */
static uint8_t start(void) {
    uint8_t refusal = ramsummer_site_fresh(&site), advanced, task;
    for (task = 0; task < TASKS && !refusal; task++) refusal = ramsummer_join(&site.pool, task, RAMSUMMER_OPEN);
    if (!refusal) refusal = ramsummer_block(&site.pool, RAIN, &advanced);
    return refusal;
}

/* The superloop. One of firmware has no end. */
int main(void) {
    uint8_t refusal = start();
    unsigned turn;
    for (turn = 1; turn <= TURNS && !refusal; turn++) {
        refusal = measure_level(turn);
        if (!refusal && is_rain_ready(turn)) refusal = measure_rain(turn);
        if (!refusal) refusal = send(turn);
    }
    if (refusal) {
        put("refused with ");
        put_number(refusal, 0);
        put(", ");
        put(ramsummer_text(refusal));
        put("\n");
    }
    return refusal;
}
