/*
 * The C side of tests/peaks.rs, whose arguments are the limits of its pool: a line in, the answer and the high-water marks
 * out. A line is a call frame, `reset`, which begins the marks anew, or `damage`, after which the record is not well-formed.
 */
#include <stdio.h>
#include <stdlib.h>
#include <string.h>

#include "ramsummer_peaks.h"

static ramsummer_pool pool;
static uint8_t small[RAMSUMMER_SMALL], large[RAMSUMMER_LARGE], out[RAMSUMMER_LINE];
static ramsummer_peaks peaks;

static uint8_t frame(const char *line) {
    size_t count;
    return ramsummer_frame(&pool, small, RAMSUMMER_SMALL_FOR(pool.limits.small_blocks), large,
                           RAMSUMMER_LARGE_FOR(pool.limits.large_blocks), (const uint8_t *)line, strlen(line), out,
                           sizeof out, &count);
}

static uint8_t damage(void) {
    pool.tasks[RAMSUMMER_TASKS - 1].clock = 1;
    return ramsummer_peaks_look(&peaks, &pool);
}

static uint8_t answer(const char *line) {
    if (strcmp(line, "reset") == 0) return ramsummer_peaks_reset(&peaks, &pool);
    if (strcmp(line, "damage") == 0) return damage();
    return ramsummer_peaks_after(&peaks, &pool, frame(line));
}

static uint64_t number(const char *argument) { return strtoul(argument, NULL, 10); }

int main(int count, char **arguments) {
    char line[80];
    if (count != 5) return 1;
    if (ramsummer_fresh_sized(&pool, number(arguments[1]), number(arguments[2]), number(arguments[3]),
                              number(arguments[4])))
        return 1;
    while (fgets(line, sizeof line, stdin)) {
        int number;
        line[strcspn(line, "\n")] = 0;
        number = answer(line);
        printf("%d: small %d, large %d, expirations %d\n", number, peaks.small_objects, peaks.large_objects,
               peaks.expirations);
    }
    return 0;
}
