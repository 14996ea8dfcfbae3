/*
 * A logger is restarted: one of two saved images is damaged, the tasks come back and find themselves joined; and then a
 * record comes back without its stores. docs/RESTART.md is the recipe; examples/restart.rs is the same in Rust.
 */
#include <stdio.h>
#include <string.h>

#include "ramsummer_image.h"
#include "ramsummer_site.h"
#include "ramsummer_text.h"

enum { LENGTH = 7 };

static ramsummer_site site;

/* What outlives the restart. The tasks' handles are kept with the images, of the same moment: the record says who made an
 * object, but not which reading it is. */
static struct {
    uint8_t images[2][RAMSUMMER_IMAGE_WITH_STORES];
    uint8_t record[RAMSUMMER_IMAGE_RECORD_ALONE];
    uint32_t level, rain, battery, calibration;
} kept;

static uint8_t print_figures(const char *before) {
    uint8_t small_objects, large_objects;
    uint16_t expirations;
    uint32_t given;
    uint8_t refusal = ramsummer_report(&site.pool, &small_objects, &large_objects, &expirations, &given);
    if (refusal) return refusal;
    printf("%s: global time %u, small %d, large %d, expirations %d, given %u\n", before, (unsigned)site.pool.global,
           small_objects, large_objects, expirations, (unsigned)given);
    return RAMSUMMER_DONE;
}

static uint8_t reading(uint8_t task, uint8_t kind, uint8_t extension, const char *text, uint32_t *handle) {
    return ramsummer_site_put(&site, task, kind, extension, text, LENGTH, 0, handle);
}

/* Before the restart: three readings and a calibration, which is pinned, a tick of each task, and two images. */
static uint8_t run(void) {
    uint8_t advanced, refusal = ramsummer_site_fresh(&site);
    if (!refusal) refusal = ramsummer_join(&site.pool, 0, RAMSUMMER_OPEN);
    if (!refusal) refusal = ramsummer_join(&site.pool, 1, RAMSUMMER_OPEN);
    if (!refusal) refusal = reading(0, RAMSUMMER_LOCAL, 3, "12.50 m", &kept.level);
    if (!refusal) refusal = reading(1, RAMSUMMER_LOCAL, 3, "0.40 mm", &kept.rain);
    if (!refusal) refusal = reading(1, RAMSUMMER_GLOBAL, 3, "13.20 V", &kept.battery);
    if (!refusal) refusal = reading(0, RAMSUMMER_PINNED, 0, "+2.50 m", &kept.calibration);
    if (!refusal) refusal = ramsummer_tick(&site.pool, 0, &advanced);
    if (!refusal) refusal = ramsummer_tick(&site.pool, 1, &advanced);
    if (refusal) return refusal;
    if (ramsummer_image_save_with_stores(RAMSUMMER_PARTS(&site), kept.images[0], sizeof kept.images[0])
        || ramsummer_image_save_with_stores(RAMSUMMER_PARTS(&site), kept.images[1], sizeof kept.images[1])
        || ramsummer_image_save(&site.pool, kept.record, sizeof kept.record))
        return RAMSUMMER_BUFFER_TOO_SHORT;
    return print_figures("saved");
}

/* The pool of the first image that is whole, or a fresh one. */
static uint8_t come_back(void) {
    int place;
    for (place = 0; place < 2; place++) {
        const uint8_t *image = kept.images[place];
        uint8_t fault = ramsummer_image_restore_with_stores(RAMSUMMER_PARTS(&site), image, RAMSUMMER_IMAGE_WITH_STORES);
        if (!fault) return print_figures(place == 0 ? "image 0" : "image 1");
        printf("image %d: %s\n", place, ramsummer_image_text(fault));
    }
    return ramsummer_site_fresh(&site);
}

/* The reading's letters, and how long it stands without a refresh. */
static uint8_t look(uint8_t task, uint32_t handle, char text[LENGTH + 1], uint8_t *local, uint8_t *global) {
    uint8_t refusal = ramsummer_site_get(&site, task, handle, text, LENGTH);
    if (refusal) return refusal;
    text[LENGTH] = 0;
    return ramsummer_remaining(&site.pool, task, handle, local, global);
}

/* Task 0 has its handle still, and goes on where its clock stands. */
static uint8_t go_on(void) {
    char text[LENGTH + 1];
    uint8_t local, global, refusal = ramsummer_join(&site.pool, 0, RAMSUMMER_OPEN);
    printf("task 0 joins: refused with %d, %s\n", refusal, ramsummer_text(refusal));
    refusal = look(0, kept.level, text, &local, &global);
    if (!refusal) printf("task 0 goes on: %s, for %d ticks more\n", text, local);
    if (!refusal) refusal = look(0, kept.calibration, text, &local, &global);
    if (!refusal) printf("task 0 has its calibration still: %s\n", text);
    return refusal;
}

/* Task 1 starts anew: what it set by its own clock goes, what it set by global time stays. */
static uint8_t start_anew(void) {
    char text[LENGTH + 1];
    uint8_t advanced, local, global, gone, refusal = ramsummer_leave(&site.pool, 1, &advanced);
    if (!refusal) refusal = ramsummer_join(&site.pool, 1, RAMSUMMER_OPEN);
    if (refusal) return refusal;
    gone = look(1, kept.rain, text, &local, &global);
    printf("task 1 leaves and joins: its rain is refused with %d, %s\n", gone, ramsummer_text(gone));
    refusal = look(1, kept.battery, text, &local, &global);
    if (!refusal) printf("task 1 has %s still, for %d advances more\n", text, global);
    return refusal;
}

/* What is pinned, found by the record: also where its handle is lost. */
static uint8_t release_pinned(uint8_t task) {
    uint8_t refusal = RAMSUMMER_DONE;
    size_t i;
    for (i = 0; i < RAMSUMMER_EXPIRATIONS && !refusal; i++)
        if (site.pool.clocks[i] == RAMSUMMER_CLOCK_PINNED)
            refusal = ramsummer_release(&site.pool, task, site.pool.handles[site.pool.named[i]]);
    return refusal;
}

/* The record is back and the stores are not: each object stands with wrong bytes, which a read notices where their sum is
 * another, until it is released or time has passed over it. */
static uint8_t lose_stores(void) {
    char text[LENGTH + 1];
    uint8_t advanced, local, global, task, ticks, refusal;
    if (ramsummer_image_restore(&site.pool, kept.record, sizeof kept.record)) return RAMSUMMER_NOT_WELL_FORMED;
    memset(site.small, 0, sizeof site.small);
    memset(site.large, 0, sizeof site.large);
    refusal = look(1, kept.battery, text, &local, &global);
    printf("stores lost: the battery is refused with %d, %s\n", refusal, ramsummer_text(refusal));
    for (task = 0; task < RAMSUMMER_TASKS; task++) {
        refusal = ramsummer_leave(&site.pool, task, &advanced);
        if (refusal && refusal != RAMSUMMER_TASK_ABSENT) return refusal;
    }
    refusal = ramsummer_join(&site.pool, 0, RAMSUMMER_OPEN);
    if (!refusal) refusal = release_pinned(0);
    for (ticks = 0; ticks < 32 && !refusal; ticks++) refusal = ramsummer_tick(&site.pool, 0, &advanced);
    return refusal ? refusal : print_figures("all have left, one joins, releases what is pinned and ticks 32 times");
}

int main(void) {
    uint8_t refusal = run();
    kept.images[0][1000] ^= 0x10; /* while the power is off */
    if (!refusal) refusal = come_back();
    if (!refusal) refusal = go_on();
    if (!refusal) refusal = start_anew();
    if (!refusal) refusal = lose_stores();
    return refusal;
}
