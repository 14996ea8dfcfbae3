/*
 * The C side of tests/wide_c.rs: an int that the library's type for an argument cannot hold is refused with the number of
 * one that is too large, in its turn among the tests, and nothing changes; and so is a limit of a pool of any 64 bits, after
 * which there is no pool. A count comes back in a size_t. Prints what was otherwise.
 */
#include <limits.h>
#include <stdio.h>
#include <string.h>

#include "ramsummer.h"

/* The ints come as an author has them. */
#if defined(__GNUC__)
#pragma GCC diagnostic ignored "-Wsign-conversion"
#endif

enum { RUNS = 0, WAITS = 1, ABSENT = 2, VIEWS = 3, NEVER = 99 };

/* All that a call could change. */
typedef struct world {
    ramsummer_pool pool;
    uint8_t small[RAMSUMMER_SMALL], large[RAMSUMMER_LARGE], out[RAMSUMMER_LONGEST];
    uint8_t advanced, local, global, share[6];
    uint32_t handle;
    size_t count, behind;
} world;

static world w, before;
static uint32_t gone, stands, longest, pinned;
static const uint8_t bytes[RAMSUMMER_LONGEST + 1] = {1, 2, 3};
static int faults;

#define POOL &w.pool, w.small, sizeof w.small, w.large, sizeof w.large
#define NO_POOL &w.pool, w.small, sizeof w.small - 1, w.large, sizeof w.large
#define SHARE w.share, w.share + 1, w.share + 2, w.share + 3, w.share + 4, w.share + 5

static void expect(int line, int argument, uint8_t answer, uint8_t number) {
    if (answer == number && memcmp(&w, &before, sizeof w) == 0) return;
    printf("line %d, %d: answered %d and not %d, or something changed\n", line, argument, answer, number);
    faults++;
}

/* The argument n of this call is refused with this number. */
#define REFUSED(number, call) expect(__LINE__, n, call, number)
#define DONE(call) do if (call != RAMSUMMER_DONE) printf("line %d\n", __LINE__), faults++; while (0)

/* Four tasks and four objects: one that is gone, a short one, one of 256 bytes and one that is pinned. */
static void begin(void) {
    ramsummer_fresh(&w.pool);
    DONE(ramsummer_join(&w.pool, RUNS, RAMSUMMER_OPEN));
    DONE(ramsummer_join(&w.pool, WAITS, RAMSUMMER_OPEN));
    DONE(ramsummer_block(&w.pool, WAITS, &w.advanced));
    DONE(ramsummer_view(&w.pool, VIEWS));
    DONE(ramsummer_make(POOL, RUNS, RAMSUMMER_LOCAL, 0, 4, 0, &gone));
    DONE(ramsummer_tick(&w.pool, RUNS, &w.advanced));
    DONE(ramsummer_make(POOL, RUNS, RAMSUMMER_LOCAL, 30, 4, 0, &stands));
    DONE(ramsummer_make(POOL, RUNS, RAMSUMMER_LOCAL, 30, RAMSUMMER_LONGEST, 0, &longest));
    DONE(ramsummer_make(POOL, RUNS, RAMSUMMER_PINNED, 0, 4, 0, &pinned));
    memset(w.share, 7, sizeof w.share);
    before = w;
}

/* No task: 1, before all that is wrong with the arguments after it. */
static void no_task(int n) {
    REFUSED(1, ramsummer_join(&w.pool, n, RAMSUMMER_OPEN));
    REFUSED(1, ramsummer_join(&w.pool, n, 256, 0, 0, 0));
    REFUSED(1, ramsummer_view(&w.pool, n));
    REFUSED(1, ramsummer_share(&w.pool, n, SHARE));
    REFUSED(1, ramsummer_leave(&w.pool, n, &w.advanced));
    REFUSED(1, ramsummer_block(&w.pool, n, &w.advanced));
    REFUSED(1, ramsummer_resume(&w.pool, n));
    REFUSED(1, ramsummer_tick(&w.pool, n, &w.advanced));
    REFUSED(1, ramsummer_make(POOL, n, RAMSUMMER_LOCAL, 0, 4, 0, &w.handle));
    REFUSED(1, ramsummer_make(POOL, n, RAMSUMMER_LOCAL, 256, 65540, 65540, &w.handle));
    REFUSED(1, ramsummer_refresh(&w.pool, n, RAMSUMMER_LOCAL, 0, stands));
    REFUSED(1, ramsummer_refresh(&w.pool, n, RAMSUMMER_LOCAL, 256, NEVER));
    REFUSED(1, ramsummer_refresh_all(&w.pool, n, RAMSUMMER_LOCAL, 0, &stands, 1));
    REFUSED(1, ramsummer_refresh_all(&w.pool, n, RAMSUMMER_LOCAL, 256, &stands, 0));
    REFUSED(1, ramsummer_release(&w.pool, n, pinned));
    REFUSED(1, ramsummer_release(&w.pool, n, NEVER));
    REFUSED(1, ramsummer_read(POOL, n, stands, w.out, sizeof w.out, &w.count));
    REFUSED(1, ramsummer_write(POOL, n, stands, 0, bytes, 1));
    REFUSED(1, ramsummer_write(POOL, n, NEVER, 256, bytes, 1));
    REFUSED(1, ramsummer_remaining(&w.pool, n, stands, &w.local, &w.global));
}

/* 14 comes before 1. */
static void with_a_short_store(int n) {
    REFUSED(14, ramsummer_make(NO_POOL, n, RAMSUMMER_LOCAL, n, n, n, &w.handle));
    REFUSED(14, ramsummer_read(NO_POOL, n, stands, w.out, sizeof w.out, &w.count));
    REFUSED(14, ramsummer_write(NO_POOL, n, stands, n, bytes, 1));
}

/* 19 comes before all else. */
static void no_kind(int n) {
    REFUSED(19, ramsummer_make(POOL, RUNS, n, 0, 4, 0, &w.handle));
    REFUSED(19, ramsummer_make(NO_POOL, 256, n, 256, 65540, 65540, &w.handle));
    REFUSED(19, ramsummer_refresh(&w.pool, RUNS, n, 0, stands));
    REFUSED(19, ramsummer_refresh(&w.pool, 256, n, 256, NEVER));
    REFUSED(19, ramsummer_refresh_all(&w.pool, RUNS, n, 0, &stands, 1));
    REFUSED(19, ramsummer_refresh_all(&w.pool, 256, n, 256, &stands, 0));
}

/* 24: after the task, also where it is a limit that is too wide, and before what else is wrong with the others. */
static void no_share(int n) {
    REFUSED(24, ramsummer_join(&w.pool, ABSENT, n, 255, 0, 255));
    REFUSED(24, ramsummer_join(&w.pool, ABSENT, 0, n, 0, 255));
    REFUSED(24, ramsummer_join(&w.pool, ABSENT, 0, 255, n, 255));
    REFUSED(24, ramsummer_join(&w.pool, ABSENT, 0, 255, 0, n));
    REFUSED(24, ramsummer_join(&w.pool, ABSENT, 65, 255, 33, n));
    REFUSED(24, ramsummer_join(&w.pool, ABSENT, n, n, n, n));
    REFUSED(2, ramsummer_join(&w.pool, RUNS, 0, n, 0, n));
    REFUSED(2, ramsummer_join(&w.pool, WAITS, n, 255, n, 255));
    REFUSED(2, ramsummer_join(&w.pool, VIEWS, n, 255, n, 255));
}

/* 6: after the task, the size of a batch and 21, before the length and the object. */
static void no_extension(int n) {
    REFUSED(6, ramsummer_make(POOL, RUNS, RAMSUMMER_PINNED, n, 4, 0, &w.handle));
    REFUSED(21, ramsummer_refresh(&w.pool, RUNS, RAMSUMMER_PINNED, n, stands));
    REFUSED(21, ramsummer_refresh_all(&w.pool, RUNS, RAMSUMMER_PINNED, n, &stands, 1));
    REFUSED(6, ramsummer_make(POOL, RUNS, RAMSUMMER_GLOBAL, n, 4, 0, &w.handle));
    REFUSED(6, ramsummer_make(POOL, RUNS, RAMSUMMER_LOCAL, n, 65540, 65540, &w.handle));
    REFUSED(6, ramsummer_refresh(&w.pool, RUNS, RAMSUMMER_GLOBAL, n, stands));
    REFUSED(6, ramsummer_refresh(&w.pool, RUNS, RAMSUMMER_LOCAL, n, NEVER));
    REFUSED(6, ramsummer_refresh_all(&w.pool, RUNS, RAMSUMMER_LOCAL, n, &gone, 1));
    REFUSED(20, ramsummer_refresh_all(&w.pool, RUNS, RAMSUMMER_LOCAL, n, &stands, 0));
    REFUSED(3, ramsummer_make(POOL, ABSENT, RAMSUMMER_LOCAL, n, 4, 0, &w.handle));
    REFUSED(3, ramsummer_refresh(&w.pool, ABSENT, RAMSUMMER_LOCAL, n, stands));
    REFUSED(4, ramsummer_make(POOL, WAITS, RAMSUMMER_LOCAL, n, 4, 0, &w.handle));
    REFUSED(4, ramsummer_refresh_all(&w.pool, WAITS, RAMSUMMER_LOCAL, n, &stands, 1));
    REFUSED(27, ramsummer_make(POOL, VIEWS, RAMSUMMER_LOCAL, n, 4, 0, &w.handle));
    REFUSED(27, ramsummer_refresh(&w.pool, VIEWS, RAMSUMMER_PINNED, n, NEVER));
    REFUSED(27, ramsummer_refresh_all(&w.pool, VIEWS, RAMSUMMER_LOCAL, n, &stands, 0));
}

/* 7: after the task and the extension, before the prefix. */
static void no_length(int n) {
    REFUSED(7, ramsummer_make(POOL, RUNS, RAMSUMMER_LOCAL, 30, n, 0, &w.handle));
    REFUSED(7, ramsummer_make(POOL, RUNS, RAMSUMMER_LOCAL, 30, n, n, &w.handle));
    REFUSED(6, ramsummer_make(POOL, RUNS, RAMSUMMER_LOCAL, 31, n, 0, &w.handle));
    REFUSED(3, ramsummer_make(POOL, ABSENT, RAMSUMMER_LOCAL, 30, n, 0, &w.handle));
    REFUSED(4, ramsummer_make(POOL, WAITS, RAMSUMMER_LOCAL, 30, n, 0, &w.handle));
}

/* 28: after the length. The longest object has room for a prefix of 256 alone. */
static void no_prefix(int n) {
    REFUSED(28, ramsummer_make(POOL, RUNS, RAMSUMMER_LOCAL, 30, 4, n, &w.handle));
    if (n != RAMSUMMER_LONGEST)
        REFUSED(28, ramsummer_make(POOL, RUNS, RAMSUMMER_LOCAL, 30, RAMSUMMER_LONGEST, n, &w.handle));
    REFUSED(7, ramsummer_make(POOL, RUNS, RAMSUMMER_LOCAL, 30, 0, n, &w.handle));
    REFUSED(6, ramsummer_make(POOL, RUNS, RAMSUMMER_LOCAL, 31, 4, n, &w.handle));
    REFUSED(27, ramsummer_make(POOL, VIEWS, RAMSUMMER_LOCAL, 30, 4, n, &w.handle));
}

/* 13: after all else, however many bytes are to be written, and to the longest object too. */
static void no_offset(int n) {
    REFUSED(13, ramsummer_write(POOL, RUNS, stands, n, bytes, 1));
    REFUSED(13, ramsummer_write(POOL, RUNS, longest, n, bytes, 0));
    REFUSED(13, ramsummer_write(POOL, RUNS, longest, n, bytes, 1));
    REFUSED(13, ramsummer_write(POOL, RUNS, longest, n, bytes, sizeof bytes));
    REFUSED(12, ramsummer_write(POOL, RUNS, gone, n, bytes, 1));
    REFUSED(11, ramsummer_write(POOL, RUNS, NEVER, n, bytes, 1));
    REFUSED(3, ramsummer_write(POOL, ABSENT, stands, n, bytes, 1));
    REFUSED(4, ramsummer_write(POOL, WAITS, stands, n, bytes, 1));
    REFUSED(27, ramsummer_write(POOL, VIEWS, NEVER, n, bytes, 1));
}

/* 23 comes before 13. */
static void with_changed_bytes(int n) {
    size_t i;
    for (i = 0; i < sizeof w.large; i += RAMSUMMER_LONGEST) w.large[i] ^= 1;
    before = w;
    REFUSED(23, ramsummer_read(POOL, RUNS, longest, w.out, sizeof w.out, &w.count));
    REFUSED(23, ramsummer_read(POOL, VIEWS, longest, w.out, sizeof w.out, &w.count));
    REFUSED(23, ramsummer_write(POOL, RUNS, longest, n, bytes, 0));
    REFUSED(23, ramsummer_write(POOL, RUNS, longest, n, bytes, sizeof bytes));
    REFUSED(12, ramsummer_write(POOL, RUNS, gone, n, bytes, 1));
    for (i = 0; i < sizeof w.large; i += RAMSUMMER_LONGEST) w.large[i] ^= 1;
    before = w;
}

/* 15 comes before all but a kind. */
static void on_a_damaged_record(int n) {
    w.pool.tasks[ABSENT].clock = 1;
    before = w;
    REFUSED(15, ramsummer_join(&w.pool, n, n, n, n, n));
    REFUSED(15, ramsummer_view(&w.pool, n));
    REFUSED(15, ramsummer_share(&w.pool, n, SHARE));
    REFUSED(15, ramsummer_leave(&w.pool, n, &w.advanced));
    REFUSED(15, ramsummer_block(&w.pool, n, &w.advanced));
    REFUSED(15, ramsummer_resume(&w.pool, n));
    REFUSED(15, ramsummer_tick(&w.pool, n, &w.advanced));
    REFUSED(15, ramsummer_make(NO_POOL, n, RAMSUMMER_LOCAL, n, n, n, &w.handle));
    REFUSED(15, ramsummer_refresh(&w.pool, n, RAMSUMMER_LOCAL, n, stands));
    REFUSED(15, ramsummer_refresh_all(&w.pool, n, RAMSUMMER_LOCAL, n, &stands, 0));
    REFUSED(15, ramsummer_release(&w.pool, n, pinned));
    REFUSED(15, ramsummer_read(NO_POOL, n, stands, w.out, sizeof w.out, &w.count));
    REFUSED(15, ramsummer_write(NO_POOL, n, stands, n, bytes, 1));
    REFUSED(15, ramsummer_remaining(&w.pool, n, stands, &w.local, &w.global));
    no_kind(n);
    w.pool.tasks[ABSENT].clock = 0;
    before = w;
}

static void refused(int n) {
    no_task(n);
    with_a_short_store(n);
    no_kind(n);
    no_share(n);
    no_extension(n);
    if (n != RAMSUMMER_LONGEST) no_length(n);
    no_prefix(n);
    no_offset(n);
    with_changed_bytes(n);
    on_a_damaged_record(n);
}

/* A share comes to the record as it is, and back from there. */
static void share_fits(int small_reserve, int small_limit, int large_reserve, int large_limit) {
    const int told[6] = {0, small_reserve, small_limit, 0, large_reserve, large_limit};
    size_t i;
    DONE(ramsummer_join(&w.pool, ABSENT, small_reserve, small_limit, large_reserve, large_limit));
    DONE(ramsummer_share(&w.pool, ABSENT, SHARE));
    for (i = 0; i < sizeof w.share; i++) DONE((w.share[i] != told[i]));
    DONE(ramsummer_leave(&w.pool, ABSENT, &w.advanced));
    DONE(ramsummer_share(&w.pool, ABSENT, SHARE));
    for (i = 0; i < sizeof w.share; i++) DONE((w.share[i] != 0));
}

/* A prefix of each length comes to the record as it is, and a viewer reads as many bytes. */
static void prefix_fits(int length, int prefix) {
    DONE(ramsummer_make(POOL, RUNS, RAMSUMMER_PINNED, 0, length, prefix, &w.handle));
    DONE(ramsummer_read(POOL, VIEWS, w.handle, w.out, sizeof w.out, &w.count));
    DONE((w.count != (size_t)prefix));
    DONE(ramsummer_read(POOL, RUNS, w.handle, w.out, sizeof w.out, &w.count));
    DONE((w.count != (size_t)length));
    DONE(ramsummer_release(&w.pool, RUNS, w.handle));
}

/* What fits goes on as it is. */
static void fits(void) {
    int n;
    for (n = 0; n <= 255; n++) share_fits(0, n, 0, 255 - n);
    for (n = 0; n <= 31; n++) share_fits(n, 255, 31 - n, 31);
    for (n = 0; n <= RAMSUMMER_LONGEST; n++) prefix_fits(RAMSUMMER_LONGEST, n);
    for (n = 1; n <= RAMSUMMER_LONGEST; n++) prefix_fits(n, n);
    for (n = 0; n <= 30; n++) DONE(ramsummer_refresh(&w.pool, RUNS, n % 2, n, stands));
    for (n = 0; n < RAMSUMMER_LONGEST; n++) DONE(ramsummer_write(POOL, RUNS, longest, n, bytes + 1, 1));
    DONE(ramsummer_read(POOL, RUNS, longest, w.out, sizeof w.out, &w.count));
    for (n = 0; n < RAMSUMMER_LONGEST; n++) DONE((w.out[n] != bytes[1]));
    DONE(ramsummer_leave(&w.pool, VIEWS, &w.advanced));
    for (n = ABSENT; n < RAMSUMMER_TASKS; n++) DONE(ramsummer_join(&w.pool, n, RAMSUMMER_OPEN));
    DONE(ramsummer_release(&w.pool, n - 1, pinned));
    before = w;
    for (n = RAMSUMMER_TASKS; n <= 255; n++) no_task(n);
    for (n = RAMSUMMER_PINNED + 1; n <= 255; n++) no_kind(n);
    for (n = RAMSUMMER_MAX_EXTENSION + 1; n <= 255; n++)
        REFUSED(6, ramsummer_refresh(&w.pool, RUNS, RAMSUMMER_LOCAL, n, stands));
}

/* A count is told where bytes are written, with the answer line of a refusal too, and else stays, all 32 or 64 bits of it. What
 * stands behind it stays in any case. */
static void counts(void) {
    static const uint8_t report[2] = {'0', 'A'}, unknown[2] = {'F', 'F'};
    static uint8_t line[RAMSUMMER_LINE];
    int n = RAMSUMMER_LINE - 1;
    w.count = w.behind = (size_t)-1;
    before = w;
    REFUSED(255, ramsummer_read(POOL, RUNS, longest, w.out, sizeof w.out - 1, &w.count));
    REFUSED(255, ramsummer_frame(POOL, report, sizeof report, line, (size_t)n, &w.count));
    DONE(ramsummer_frame(POOL, report, sizeof report, line, sizeof line, &w.count));
    DONE((w.count != 19 || w.behind != (size_t)-1));
    before.count = 3;
    REFUSED(17, ramsummer_frame(POOL, unknown, sizeof unknown, line, sizeof line, &w.count));
    DONE(ramsummer_read(POOL, RUNS, stands, w.out, sizeof w.out, &w.count));
    DONE((w.count != 4 || w.behind != (size_t)-1));
}

/* After line n there is no pool: all is 15 but what is tested before it, a kind or a frame that is none, and nothing changes. */
static void expect_no_pool(int n) {
    static const uint8_t report[] = "0A", none[] = "FF", told[] = "0F\n";
    static uint8_t out[RAMSUMMER_LINE];
    uint16_t expirations = 7;
    uint32_t given = 7;
    size_t count = 0;
    before = w;
    REFUSED(15, ramsummer_join(&w.pool, RUNS, RAMSUMMER_OPEN));
    REFUSED(15, ramsummer_view(&w.pool, RUNS));
    REFUSED(15, ramsummer_share(&w.pool, RUNS, SHARE));
    REFUSED(15, ramsummer_make(POOL, RUNS, RAMSUMMER_LOCAL, 0, 4, 0, &w.handle));
    REFUSED(19, ramsummer_make(POOL, RUNS, RAMSUMMER_PINNED + 1, 0, 4, 0, &w.handle));
    REFUSED(15, ramsummer_report(&w.pool, &w.local, &w.global, &expirations, &given));
    DONE((expirations != 7 || given != 7));
    REFUSED(17, ramsummer_frame(POOL, none, 2, out, sizeof out, &count));
    REFUSED(15, ramsummer_frame(POOL, report, 2, out, sizeof out, &count));
    DONE((count != 3 || memcmp(out, told, 3) != 0));
}

/* A pool with limits out of their range: 29, and then there is none. */
static void expect_none(int line, uint8_t answer) {
    if (answer != 29) printf("line %d: answered %d and not 29\n", line, answer), faults++;
    expect_no_pool(line);
}

/* Small blocks, large blocks, expirations and extension of a pool that there is not, and of one that there is. */
#define NONE(s, l, x, e) expect_none(__LINE__, ramsummer_fresh_sized(&w.pool, s, l, x, e))
#define JOIN DONE(ramsummer_join(&w.pool, RUNS, RAMSUMMER_OPEN))
#define SOME(s, l, x, e) do { DONE(ramsummer_fresh_sized(&w.pool, s, l, x, e)); JOIN; } while (0)

/* No limit of any sort, whatever the type that it comes in. */
#define NO_LIMIT(n) do { NONE(n, 1, 1, 0); NONE(1, n, 1, 0); NONE(1, 1, n, 0); NONE(1, 1, 1, n); } while (0)

static void no_limits(void) {
    static const int ints[] = {257, 65536, INT_MAX, -1, -30, -256, INT_MIN};
    size_t i;
    for (i = 0; i < sizeof ints / sizeof *ints; i++) {
        int n = ints[i];
        NO_LIMIT(n);
        NO_LIMIT((unsigned)n);
        NO_LIMIT((int64_t)n);
    }
    for (i = 0; i <= 256; i++) NO_LIMIT(((uint64_t)1 << 32) + i);
    for (i = 32; i < 64; i++) NO_LIMIT(((uint64_t)1 << i) + 1);
    NO_LIMIT(UINT32_MAX);
    NO_LIMIT(UINT64_MAX);
}

/* Each at both ends of its range, and one past them. */
static void limits(void) {
    uint8_t (*sized)(ramsummer_pool *, uint64_t, uint64_t, uint64_t, uint64_t) = ramsummer_fresh_sized;
    SOME(1, 1, 1, 0);
    SOME(64, 32, 256, 30);
    NONE(0, 1, 1, 0);
    NONE(65, 1, 1, 0);
    NONE(1, 0, 1, 0);
    NONE(1, 33, 1, 0);
    NONE(1, 1, 0, 0);
    NONE(1, 1, 257, 0);
    NONE(1, 1, 1, 31);
    no_limits();
    expect_none(__LINE__, sized(&w.pool, (uint64_t)1 << 32, 1, 1, 0));
}

int main(void) {
    static const int extremes[] = {65535, 65536, 65540, 65792, 1 << 24, INT_MAX, -1, -252, -256, -65532, INT_MIN};
    uint8_t (*join)(ramsummer_pool *, unsigned, unsigned, unsigned, unsigned, unsigned) = ramsummer_join;
    size_t i;
    int n;
    begin();
    for (n = 256; n < 1100; n++) refused(n);
    for (i = 0; i < sizeof extremes / sizeof *extremes; i++) refused(extremes[i]);
    REFUSED(1, join(&w.pool, 256, RAMSUMMER_OPEN));
    REFUSED(24, join(&w.pool, ABSENT, 0, 256, 0, 256));
    fits();
    counts();
    limits();
    return faults == 0 ? 0 : 1;
}
