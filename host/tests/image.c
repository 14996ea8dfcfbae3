/*
 * The C side of tests/image_c.rs, from standard input to standard output.
 *
 * Without an argument: images of a record alone and with its stores, by turns. Each is restored; out go the bytes that it
 * had in it, and the image that is saved of them. The limits of the first say how long the second is.
 *
 * With `alone` or `whole`: one such image. Out go faults, a byte each: of each flip of a bit, or of each fifth; of each cut;
 * and of what tests/image_c.rs lists. 255 is a fault that left something changed.
 *
 * With `old`: one of an earlier version. Out go its faults, alone and with stores, at its own length and with bytes after it.
 */
#include <stdio.h>
#include <string.h>

#include "ramsummer_image.h"

/* All that a restore could change. */
typedef struct world {
    ramsummer_pool pool;
    uint8_t small[RAMSUMMER_SMALL], large[RAMSUMMER_LARGE];
} world;

static world w, before;
static uint8_t image[RAMSUMMER_IMAGE_WITH_STORES];

static size_t small_length(void) { return RAMSUMMER_SMALL_FOR(w.pool.limits.small_blocks); }
static size_t large_length(void) { return RAMSUMMER_LARGE_FOR(w.pool.limits.large_blocks); }
static size_t whole_length(void) { return RAMSUMMER_IMAGE_RECORD_ALONE + small_length() + large_length(); }

/* The stores, as long as the record says. */
#define STORES w.small, small_length(), w.large, large_length()

static uint8_t again_alone(void) {
    uint8_t fault = ramsummer_image_restore(&w.pool, image, RAMSUMMER_IMAGE_RECORD_ALONE);
    if (fault) return fault;
    memset(image, 0xA5, sizeof image);
    fwrite(&w.pool, 1, sizeof w.pool, stdout);
    fault = ramsummer_image_save(&w.pool, image, RAMSUMMER_IMAGE_RECORD_ALONE);
    fwrite(image, 1, RAMSUMMER_IMAGE_RECORD_ALONE, stdout);
    return fault;
}

static uint8_t again_with_stores(void) {
    uint8_t fault = ramsummer_image_restore_with_stores(&w.pool, STORES, image, whole_length());
    if (fault) return fault;
    memset(image, 0xA5, sizeof image);
    fwrite(&w.pool, 1, sizeof w.pool, stdout);
    fwrite(w.small, 1, small_length(), stdout);
    fwrite(w.large, 1, large_length(), stdout);
    fault = ramsummer_image_save_with_stores(&w.pool, STORES, image, sizeof image);
    fwrite(image, 1, whole_length(), stdout);
    return fault;
}

static int both_ways(void) {
    while (fread(image, 1, RAMSUMMER_IMAGE_RECORD_ALONE, stdin) == RAMSUMMER_IMAGE_RECORD_ALONE) {
        if (again_alone()) return 1;
        if (fread(image, 1, whole_length(), stdin) != whole_length() || again_with_stores()) return 1;
    }
    return 0;
}

/* Whatever a restore left changed with its fault. */
static int told(uint8_t fault) { return fault && memcmp(&w, &before, sizeof w) != 0 ? 255 : fault; }

static int restored_alone(size_t length) {
    memset(&w, 0xA5, sizeof w);
    before = w;
    return told(ramsummer_image_restore(&w.pool, image, length));
}

static int restored_whole(size_t small_blocks, size_t large_blocks, size_t length) {
    memset(&w, 0xA5, sizeof w);
    before = w;
    return told(ramsummer_image_restore_with_stores(&w.pool, w.small, RAMSUMMER_SMALL_FOR(small_blocks), w.large,
                                                    RAMSUMMER_LARGE_FOR(large_blocks), image, length));
}

static void flip(size_t bit) { image[bit / 8] = (uint8_t)(image[bit / 8] ^ 1 << bit % 8); }

static int faults_alone(void) {
    size_t size = fread(image, 1, sizeof image, stdin), bit, length;
    for (bit = 0; bit < 8 * size; bit++) {
        flip(bit);
        putchar(restored_alone(size));
        flip(bit);
    }
    for (length = 0; length <= size; length++) putchar(restored_alone(length));
    putchar(restored_whole(RAMSUMMER_SMALL_BLOCKS, RAMSUMMER_LARGE_BLOCKS, size));
    putchar(restored_alone(size));
    putchar(ramsummer_image_save(&w.pool, image, size - 1));
    return 0;
}

static int faults_whole(void) {
    size_t size = fread(image, 1, sizeof image, stdin), bit, length, small, large;
    ramsummer_limits limits = ramsummer_image_limits(image);
    for (bit = 0; bit < 8 * size; bit += 5) {
        flip(bit);
        putchar(restored_whole(limits.small_blocks, limits.large_blocks, size));
        flip(bit);
    }
    for (length = 0; length <= size; length++)
        putchar(restored_whole(limits.small_blocks, limits.large_blocks, length));
    for (small = 0; small <= RAMSUMMER_SMALL_BLOCKS; small++)
        for (large = 0; large <= RAMSUMMER_LARGE_BLOCKS; large++) putchar(restored_whole(small, large, size));
    putchar(restored_alone(size));
    putchar(restored_whole(limits.small_blocks, limits.large_blocks, size));
    putchar(ramsummer_image_save_with_stores(&w.pool, STORES, image, size - 1));
    putchar(ramsummer_image_save_with_stores(&w.pool, w.small, small_length() + 1, w.large, large_length(), image, size));
    putchar(ramsummer_image_save_with_stores(&w.pool, w.small, small_length(), w.large, large_length() - 1, image, size));
    return 0;
}

static int faults_old(void) {
    size_t lengths[] = {0, sizeof image}, i;
    lengths[0] = fread(image, 1, sizeof image, stdin);
    for (i = 0; i < 2; i++) {
        putchar(restored_alone(lengths[i]));
        putchar(restored_whole(RAMSUMMER_SMALL_BLOCKS, RAMSUMMER_LARGE_BLOCKS, lengths[i]));
    }
    return 0;
}

int main(int count, char **arguments) {
    if (count == 1) return both_ways();
    if (strcmp(arguments[1], "old") == 0) return faults_old();
    return strcmp(arguments[1], "alone") == 0 ? faults_alone() : faults_whole();
}
