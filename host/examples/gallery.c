/*
 * A gallery display beside the logger. It may show a reading, but not the raw data of the coil after it: the logger makes both
 * as one object with a prefix, and the display is a viewer, which reads prefixes, changes nothing and holds up nobody.
 * examples/gallery.rs is the same in Rust.
 */
#include <stdio.h>

#include "ramsummer_site.h"
#include "ramsummer_text.h"

enum { LOGGER = 0, DISPLAY = 1, READING = 7, COIL = 33, LENGTH = READING + COIL, CYCLES = 3 };

static ramsummer_site site;

static const uint8_t readings[CYCLES][READING + 1] = {"12.50 m", "12.51 m", "12.53 m"}, coil[COIL] = {0x8F, 0x31, 0xC0};

static uint8_t make(size_t prefix, uint32_t *handle) {
    return ramsummer_site_make(&site, LOGGER, RAMSUMMER_GLOBAL, 0, LENGTH, prefix, handle);
}

static void print_refusal(const char *what, uint8_t refusal) {
    printf("%s: refused with %d, %s\n", what, refusal, ramsummer_text(refusal));
}

/* The reading, and the raw data behind it. */
static uint8_t log_reading(const uint8_t *reading, uint32_t *handle) {
    uint8_t refusal = make(READING, handle);
    if (!refusal) refusal = ramsummer_site_write(&site, LOGGER, *handle, 0, reading, READING);
    if (!refusal) refusal = ramsummer_site_write(&site, LOGGER, *handle, READING, coil, COIL);
    return refusal;
}

/* What the logger and what the display reads of it. */
static uint8_t show(uint32_t handle) {
    uint8_t whole[LENGTH], shown[READING];
    size_t count, seen;
    uint8_t refusal = ramsummer_site_read(&site, LOGGER, handle, whole, sizeof whole, &count);
    if (!refusal) refusal = ramsummer_site_read(&site, DISPLAY, handle, shown, sizeof shown, &seen);
    if (!refusal)
        printf("the logger reads %d bytes, the display %d: %.*s\n", (int)count, (int)seen, (int)seen, (const char *)shown);
    return refusal;
}

/* A cycle is one tick of the logger. First is set to the first reading. */
static uint8_t run(uint32_t *first) {
    uint8_t advanced, refusal = RAMSUMMER_DONE;
    uint32_t handle = 0;
    int cycle;
    for (cycle = 0; cycle < CYCLES && !refusal; cycle++) {
        refusal = log_reading(readings[cycle], &handle);
        if (cycle == 0) *first = handle;
        if (!refusal) refusal = show(handle);
        if (!refusal) refusal = ramsummer_tick(&site.pool, LOGGER, &advanced);
    }
    printf("global time is %u: it did not wait for the display\n", (unsigned)site.pool.global);
    return refusal;
}

/* What has no prefix is not for the display, and it changes nothing. */
static uint8_t try_more(uint32_t first) {
    uint8_t advanced, shown[READING];
    uint32_t handle, none;
    size_t seen;
    uint8_t refusal = make(0, &handle);
    if (!refusal) refusal = ramsummer_site_read(&site, DISPLAY, handle, shown, sizeof shown, &seen);
    if (refusal) return refusal;
    printf("of an object without a prefix it reads %d bytes\n", (int)seen);
    print_refusal("it would write", ramsummer_site_write(&site, DISPLAY, handle, 0, readings[0], READING));
    print_refusal("it would tick", ramsummer_tick(&site.pool, DISPLAY, &advanced));
    print_refusal("the first reading", ramsummer_site_read(&site, DISPLAY, first, shown, sizeof shown, &seen));
    print_refusal("a prefix of 41 bytes", make(LENGTH + 1, &none));
    return ramsummer_leave(&site.pool, DISPLAY, &advanced);
}

int main(void) {
    uint32_t first = 0;
    uint8_t refusal = ramsummer_site_fresh(&site);
    if (!refusal) refusal = ramsummer_join(&site.pool, LOGGER, RAMSUMMER_OPEN);
    if (!refusal) refusal = ramsummer_view(&site.pool, DISPLAY);
    if (!refusal) refusal = run(&first);
    if (!refusal) refusal = try_more(first);
    return refusal;
}
