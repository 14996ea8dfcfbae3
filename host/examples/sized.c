/*
 * A small site: a cable of four sensors, whose pool is as large as it needs. What is beyond its limits is refused as it is
 * in the largest pool, and limits that no pool may have are refused when it is made. examples/sized.rs is the same in Rust.
 */
#include <stdio.h>

#include "ramsummer.h"
#include "ramsummer_text.h"

/* For each sensor four readings and a curve, and looks at them for ten ticks at most. */
enum { SMALL_BLOCKS = 16, LARGE_BLOCKS = 4, EXPIRATIONS = 64, EXTENSION = 10, TASK = 0, LENGTH = 4 };

static ramsummer_pool pool;
static uint8_t small[RAMSUMMER_SMALL_FOR(SMALL_BLOCKS)], large[RAMSUMMER_LARGE_FOR(LARGE_BLOCKS)];
#define POOL &pool, small, sizeof small, large, sizeof large

static uint8_t begin(unsigned small_blocks) {
    return ramsummer_fresh_sized(&pool, small_blocks, LARGE_BLOCKS, EXPIRATIONS, EXTENSION);
}

static uint8_t make(unsigned extension, uint32_t *handle) {
    return ramsummer_make(POOL, TASK, RAMSUMMER_LOCAL, extension, LENGTH, 0, handle);
}

static void print_refusal(const char *what, uint8_t refusal) {
    printf("%s: refused with %d, %s\n", what, refusal, ramsummer_text(refusal));
}

static uint8_t print_figures(const char *when) {
    uint8_t small_objects, large_objects;
    uint16_t expirations;
    uint32_t given;
    uint8_t refusal = ramsummer_report(&pool, &small_objects, &large_objects, &expirations, &given);
    if (!refusal)
        printf("%s: small %d, large %d, expirations %d, given %u\n", when, small_objects, large_objects, expirations,
               (unsigned)given);
    return refusal;
}

/* A pool of the site's own size, and a task that joins it. */
static uint8_t start(void) {
    uint8_t refusal = begin(SMALL_BLOCKS);
    if (refusal) return refusal;
    printf("%d small and %d large blocks, %d expirations, extensions up to %d: ", SMALL_BLOCKS, LARGE_BLOCKS, EXPIRATIONS,
           EXTENSION);
    printf("%d bytes instead of %d\n", (int)(sizeof pool + sizeof small + sizeof large),
           RAMSUMMER_RECORD + RAMSUMMER_SMALL + RAMSUMMER_LARGE);
    return ramsummer_join(&pool, TASK, RAMSUMMER_OPEN);
}

/* All small blocks and all expirations, and what is refused then. */
static uint8_t fill(void) {
    uint32_t first = 1, handle;
    unsigned count;
    uint8_t refusal = RAMSUMMER_DONE;
    print_refusal("an extension of 11", make(EXTENSION + 1, &handle));
    for (count = 0; count < SMALL_BLOCKS && !refusal; count++) refusal = make(EXTENSION, &handle);
    if (refusal) return refusal;
    print_refusal("a 17th small object", make(EXTENSION, &handle));
    for (; count < EXPIRATIONS && !refusal; count++)
        refusal = ramsummer_refresh(&pool, TASK, RAMSUMMER_LOCAL, EXTENSION, first);
    if (refusal) return refusal;
    print_refusal("a 65th expiration", ramsummer_refresh(&pool, TASK, RAMSUMMER_LOCAL, EXTENSION, first));
    return print_figures("all in use");
}

/* Ten ticks later all stands still, and with one more all is gone. */
static uint8_t lapse(void) {
    uint8_t advanced, refusal = RAMSUMMER_DONE;
    unsigned tick;
    for (tick = 0; tick <= EXTENSION && !refusal; tick++) refusal = ramsummer_tick(&pool, TASK, &advanced);
    return refusal ? refusal : print_figures("after 11 ticks");
}

/* A limit out of its range: the record that is left is none, until it is made fresh. */
static uint8_t begin_anew(void) {
    uint8_t refusal;
    print_refusal("65 small blocks", begin(RAMSUMMER_SMALL_BLOCKS + 1));
    print_refusal("and a join then", ramsummer_join(&pool, TASK, RAMSUMMER_OPEN));
    refusal = begin(SMALL_BLOCKS);
    return refusal ? refusal : print_figures("made fresh");
}

int main(void) {
    uint8_t refusal = start();
    if (!refusal) refusal = fill();
    if (!refusal) refusal = lapse();
    if (!refusal) refusal = begin_anew();
    return refusal;
}
