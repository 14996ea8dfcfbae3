/*
 * What each call takes of a Cortex-M4: prints its name, its stack in bytes, and its instructions on a record half full and on
 * one whose handles are alike. It runs on qemu's board mps2-an386 with `-icount shift=6`, by which an instruction takes 64 ns,
 * so that the board's timer of 25 MHz counts 8 for 5 instructions.
 */
#include <stdio.h>
#include <stdlib.h>
#include <string.h>

#include "ramsummer.h"

/* As the typical record of tests/host has it: fourteen tasks run and set expirations, one waits, one is absent. */
enum { RUN = 14, WAITS = 14, ABSENT = 15, SMALL = 63, MADE = 93, TYPICAL = 128, MANY = 224, BATCH = 32 };

static ramsummer_pool pool, sample;
static uint8_t small[RAMSUMMER_SMALL], large[RAMSUMMER_LARGE], out[RAMSUMMER_LINE];
static uint8_t first, second, has[6];
static uint16_t tasks;
static uint32_t number, pinned, handles[BATCH];
static size_t count;

#define POOL &pool, small, sizeof small, large, sizeof large

static void done(uint8_t answer) {
    if (answer == RAMSUMMER_DONE) return;
    printf("refused with %d\n", answer);
    exit(1);
}

/* The i-th expiration makes an object, or is one more of an old one. None ends within five ticks. */
static void set(unsigned i) {
    unsigned task = i % RUN, kind = i % 2, extension = 5 + i % 26;
    if (i >= MADE) done(ramsummer_refresh(&pool, task, kind, extension, 1 + i % MADE));
    else done(ramsummer_make(POOL, task, kind, extension, i < SMALL ? 32 : 256, 0, &number));
}

/* Handles that are the same in their low bytes are the dearest for the test of the record; in no order of the blocks. */
static void make_alike(void) {
    uint32_t i, next = 7;
    for (i = 0; i < RAMSUMMER_STORE_BLOCKS; i++, next += 65536) {
        uint32_t *handle = &pool.handles[i * 37 % RAMSUMMER_STORE_BLOCKS];
        if (*handle != 0) *handle = next;
    }
    pool.given = next;
}

/* A record with so many expirations on 94 objects, of which one is pinned; and a batch of these. */
static void prepare(unsigned expirations, int is_alike) {
    unsigned i;
    ramsummer_fresh(&pool);
    for (i = 0; i <= WAITS; i++) done(ramsummer_join(&pool, i, RAMSUMMER_OPEN));
    for (i = 0; i < expirations - 1; i++) set(i);
    done(ramsummer_make(POOL, 0, RAMSUMMER_PINNED, 0, 256, 0, &number));
    done(ramsummer_block(&pool, WAITS, &first));
    if (is_alike) make_alike();
    for (i = 0; i < BATCH; i++) handles[i] = pool.handles[i];
    for (i = 0; pool.clocks[i] != RAMSUMMER_CLOCK_PINNED; i++) continue;
    pinned = pool.handles[pool.named[i]];
    sample = pool;
}

static uint8_t nothing(void) { return RAMSUMMER_DONE; }
static uint8_t fresh(void) { return ramsummer_fresh(&pool); }
static uint8_t fresh_sized(void) { return ramsummer_fresh_sized(&pool, 16, 4, 64, 10); }
static uint8_t join(void) { return ramsummer_join(&pool, ABSENT, RAMSUMMER_OPEN); }
static uint8_t view(void) { return ramsummer_view(&pool, ABSENT); }
static uint8_t leave(void) { return ramsummer_leave(&pool, 0, &first); }
static uint8_t block(void) { return ramsummer_block(&pool, 1, &first); }
static uint8_t resume(void) { return ramsummer_resume(&pool, WAITS); }
static uint8_t tick(void) { return ramsummer_tick(&pool, 1, &first); }
static uint8_t make(void) { return ramsummer_make(POOL, 0, RAMSUMMER_LOCAL, 9, 32, 0, &number); }
static uint8_t refresh(void) { return ramsummer_refresh(&pool, 0, RAMSUMMER_LOCAL, 9, handles[BATCH - 1]); }
static uint8_t batch(void) { return ramsummer_refresh_all(&pool, 0, RAMSUMMER_LOCAL, 9, handles, BATCH); }
static uint8_t release(void) { return ramsummer_release(&pool, 0, pinned); }
static uint8_t read_32(void) { return ramsummer_read(POOL, 0, handles[BATCH - 1], out, sizeof out, &count); }
static uint8_t write_32(void) { return ramsummer_write(POOL, 0, handles[BATCH - 1], 0, out, 32); }
static uint8_t report(void) { return ramsummer_report(&pool, &first, &second, &tasks, &number); }
static uint8_t remaining(void) { return ramsummer_remaining(&pool, 0, handles[BATCH - 1], &first, &second); }
static uint8_t awaited(void) { return ramsummer_awaited(&pool, &tasks); }
static uint8_t share(void) { return ramsummer_share(&pool, 0, has, has + 1, has + 2, has + 3, has + 4, has + 5); }
static uint8_t frame(void) { return ramsummer_frame(POOL, (const uint8_t *)"0501", 4, out, sizeof out, &count); }

static const struct { const char *name; uint8_t (*call)(void); } rows[] = {
    {"fresh", fresh},
    {"fresh_sized", fresh_sized},
    {"join", join},
    {"view", view},
    {"leave", leave},
    {"block", block},
    {"resume", resume},
    {"tick", tick},
    {"make 32", make},
    {"refresh", refresh},
    {"batch of 32", batch},
    {"release", release},
    {"read 32", read_32},
    {"write 32", write_32},
    {"report", report},
    {"remaining", remaining},
    {"awaited", awaited},
    {"share", share},
    {"frame: tick", frame}};

/* The timer of every Cortex-M: it counts down from 24 bits of ones. */
static volatile uint32_t *const timer = (volatile uint32_t *)0xE000E010;
enum { CONTROL, RELOAD, NOW };

static __attribute__((noinline)) uint32_t instructions_with(uint8_t (*call)(void)) {
    uint32_t before, after;
    pool = sample;
    before = timer[NOW];
    done(call());
    after = timer[NOW];
    return ((before - after) & 0xFFFFFF) * 5 / 8;
}

static uint32_t instructions(uint8_t (*call)(void)) { return instructions_with(call) - instructions_with(nothing); }

/* How deep the call changes the paint below the stack pointer; arguments that go by the stack are counted. */
enum { REACH = 16384, PAINT = 0xA5 };

static __attribute__((noinline)) uint32_t stack(uint8_t (*call)(void)) {
    volatile uint8_t *top, *at;
    pool = sample;
    __asm volatile("mov %0, sp" : "=r"(top));
    for (at = top - REACH; at != top; at++) *at = PAINT;
    done(call());
    for (at = top - REACH; at != top && *at == PAINT; at++) continue;
    return (uint32_t)(top - at);
}

enum { COUNT = sizeof rows / sizeof *rows };
static uint32_t depth[COUNT], cost[2][COUNT];

/* The stack is the deeper one of both records. */
static void measure(int is_alike) {
    size_t i;
    prepare(is_alike ? MANY : TYPICAL, is_alike);
    for (i = 0; i < COUNT; i++) {
        uint32_t bytes = stack(rows[i].call);
        if (bytes > depth[i]) depth[i] = bytes;
        cost[is_alike][i] = instructions(rows[i].call);
    }
}

int main(void) {
    size_t i;
    timer[RELOAD] = 0xFFFFFF;
    timer[NOW] = 0;
    timer[CONTROL] = 5;
    measure(0);
    measure(1);
    for (i = 0; i < COUNT; i++)
        printf("%s | %lu | %lu | %lu\n", rows[i].name, (unsigned long)depth[i], (unsigned long)cost[0][i],
               (unsigned long)cost[1][i]);
    return 0;
}
