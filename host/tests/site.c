/*
 * The C side of tests/site_c.rs: a site's pool has the limits of its four macros, a put leaves what a make and a write do,
 * and a get gives it back, at its own length alone. Prints what was otherwise.
 */
#include <stdio.h>
#include <string.h>

#define RAMSUMMER_SITE_SMALL_BLOCKS 2
#define RAMSUMMER_SITE_LARGE_BLOCKS 1
#define RAMSUMMER_SITE_EXPIRATIONS 3
#define RAMSUMMER_SITE_EXTENSION 4
#include "ramsummer_site.h"

enum { RUNS = 0, VIEWS = 1, LENGTH = 40, PREFIX = 7 };

typedef struct sample {
    uint32_t time;
    int16_t level;
} sample;

static ramsummer_site site, before;
static int faults;

#define EXPECT(claim) do if (!(claim)) printf("line %d: %s\n", __LINE__, #claim), faults++; while (0)
#define DONE(call) EXPECT((call) == RAMSUMMER_DONE)
/* The call is refused with this number, and nothing changes. */
#define REFUSED(number, call) EXPECT((before = site, (call) == (number)) && memcmp(&site, &before, sizeof site) == 0)

static void begin(void) {
    EXPECT(ramsummer_site_fresh(&site) == RAMSUMMER_DONE);
    DONE(ramsummer_join(&site.pool, RUNS, RAMSUMMER_OPEN));
    DONE(ramsummer_view(&site.pool, VIEWS));
}

static void limits(void) {
    EXPECT(sizeof site == RAMSUMMER_RECORD + RAMSUMMER_SMALL_FOR(2) + RAMSUMMER_LARGE_FOR(1));
    EXPECT(site.pool.limits.small_blocks == 2 && site.pool.limits.large_blocks == 1);
    EXPECT(site.pool.limits.expirations == 3 && site.pool.limits.extension == 4);
}

/* The same calls by ramsummer.h on a copy. */
static void puts_as_make_and_write_do(const uint8_t *bytes) {
    static ramsummer_site copy;
    uint32_t handle = 0, of_copy = 0;
    copy = site;
    DONE(ramsummer_site_put(&site, RUNS, RAMSUMMER_LOCAL, 4, bytes, LENGTH, PREFIX, &handle));
    DONE(ramsummer_make(RAMSUMMER_PARTS(&copy), RUNS, RAMSUMMER_LOCAL, 4, LENGTH, PREFIX, &of_copy));
    DONE(ramsummer_write(RAMSUMMER_PARTS(&copy), RUNS, of_copy, 0, bytes, LENGTH));
    EXPECT(handle == of_copy && memcmp(&site, &copy, sizeof site) == 0);
}

static void gets_at_its_own_length(const uint8_t *bytes) {
    uint8_t out[LENGTH + 1];
    size_t count = 0;
    DONE(ramsummer_site_get(&site, RUNS, 1, out, LENGTH));
    EXPECT(memcmp(out, bytes, LENGTH) == 0);
    REFUSED(RAMSUMMER_BUFFER_TOO_SHORT, ramsummer_site_get(&site, RUNS, 1, out, LENGTH - 1));
    REFUSED(RAMSUMMER_OUTSIDE_OBJECT, ramsummer_site_get(&site, RUNS, 1, out, LENGTH + 1));
    DONE(ramsummer_site_read(&site, RUNS, 1, out, sizeof out, &count));
    EXPECT(count == LENGTH);
    DONE(ramsummer_site_get(&site, VIEWS, 1, out, PREFIX));
    REFUSED(RAMSUMMER_OUTSIDE_OBJECT, ramsummer_site_get(&site, VIEWS, 1, out, LENGTH));
}

/* Any object may be put, and changed where it lies. */
static void puts_a_struct(void) {
    sample put, got;
    int16_t level = -3;
    uint32_t handle = 0;
    memset(&put, 0, sizeof put);
    put.time = 86400;
    put.level = 1250;
    DONE(ramsummer_site_put(&site, RUNS, RAMSUMMER_GLOBAL, 0, &put, sizeof put, 0, &handle));
    DONE(ramsummer_site_write(&site, RUNS, handle, offsetof(sample, level), &level, sizeof level));
    DONE(ramsummer_site_get(&site, RUNS, handle, &got, sizeof got));
    EXPECT(got.time == 86400 && got.level == -3);
}

/* As a make is. */
static void refuses_a_put(const uint8_t *bytes) {
    uint32_t handle = 99;
    REFUSED(RAMSUMMER_NO_SUCH_TASK, ramsummer_site_put(&site, 256, RAMSUMMER_LOCAL, 0, bytes, 4, 0, &handle));
    REFUSED(RAMSUMMER_ONLY_VIEWS, ramsummer_site_put(&site, VIEWS, RAMSUMMER_LOCAL, 0, bytes, 4, 0, &handle));
    REFUSED(RAMSUMMER_EXTENSION_TOO_LONG, ramsummer_site_put(&site, RUNS, RAMSUMMER_LOCAL, 5, bytes, 4, 0, &handle));
    REFUSED(RAMSUMMER_LENGTH_OUT_OF_RANGE, ramsummer_site_put(&site, RUNS, RAMSUMMER_LOCAL, 0, bytes, 0, 0, &handle));
    REFUSED(RAMSUMMER_LENGTH_OUT_OF_RANGE, ramsummer_site_put(&site, RUNS, RAMSUMMER_LOCAL, 0, bytes, 257, 0, &handle));
    REFUSED(RAMSUMMER_PREFIX_TOO_LONG, ramsummer_site_put(&site, RUNS, RAMSUMMER_LOCAL, 0, bytes, 4, 5, &handle));
    REFUSED(RAMSUMMER_NO_FREE_BLOCK, ramsummer_site_put(&site, RUNS, RAMSUMMER_LOCAL, 0, bytes, 33, 0, &handle));
    EXPECT(handle == 99);
    DONE(ramsummer_site_make(&site, RUNS, RAMSUMMER_LOCAL, 0, 4, 0, &handle));
    REFUSED(RAMSUMMER_NO_FREE_BLOCK, ramsummer_site_put(&site, RUNS, RAMSUMMER_LOCAL, 0, bytes, 4, 0, &handle));
}

/* A report of two small objects, a large one, three expirations and as many handles. */
static void carries_out_a_frame(void) {
    char out[RAMSUMMER_LINE];
    size_t count = 0;
    DONE(ramsummer_site_frame(&site, "0A", 2, out, sizeof out, &count));
    EXPECT(count == 19 && memcmp(out, "000201000300000003\n", 19) == 0);
}

int main(void) {
    uint8_t bytes[RAMSUMMER_LONGEST + 1];
    size_t i;
    for (i = 0; i < sizeof bytes; i++) bytes[i] = (uint8_t)(i + 1);
    begin();
    limits();
    puts_as_make_and_write_do(bytes);
    gets_at_its_own_length(bytes);
    puts_a_struct();
    refuses_a_put(bytes);
    carries_out_a_frame();
    return faults == 0 ? 0 : 1;
}
