/*
 * A walk of 300,000 pseudo-random calls over every entry of the library, with numbers that are too wide or wrong, with
 * records and stores that are damaged, and in pools of many sizes. Prints a hash over all that was answered and told and
 * over record and stores, and how often each answer came. It is the same on every processor that has the lowest byte of a
 * number first, and walk.out has it.
 */
#include <stdio.h>
#include <string.h>

#include "ramsummer.h"

enum { CALLS = 300000, LOOKED_AT = 64, KNOWN = 32, COUNTS = 40 };

static ramsummer_pool pool;
static uint8_t small[RAMSUMMER_SMALL], large[RAMSUMMER_LARGE], bytes[RAMSUMMER_LONGEST];

/* The arguments of a call, as an author has them, and all that one may tell. */
static struct {
    uint32_t task, kind, extension, handle, length, prefix, offset, count;
    uint32_t small_reserve, small_limit, large_reserve, large_limit;
    size_t small, large, room;
} with;
static struct {
    uint8_t first, second, share[6];
    uint16_t tasks;
    uint32_t number;
    size_t count;
    uint8_t out[RAMSUMMER_LINE];
} told;

/* Handles that were given, old ones among them. */
static uint32_t known[COUNTS];

static uint32_t state = 1;

/* Below a limit. */
static uint32_t draw(uint32_t limit) {
    state ^= state << 13;
    state ^= state >> 17;
    state ^= state << 5;
    return state % limit;
}

/* Below a limit, and below a wider one once in so many times. */
static uint32_t mostly(uint32_t limit, uint32_t times, uint32_t wider) {
    uint32_t is_wider = draw(times) == 0;
    return draw(is_wider ? wider : limit);
}

static uint32_t hash = 2166136261u;

static void hash_number(uint32_t number) { hash = (hash ^ number) * 16777619u; }

static void hash_bytes(const void *start, size_t count) {
    const uint8_t *at = start;
    while (count-- > 0) hash_number(*at++);
}

/* One that stands or is gone, or was never given. */
static uint32_t draw_handle(void) {
    uint32_t place = draw(KNOWN + 4);
    if (place < KNOWN) return known[place];
    return draw(pool.given % 100000 + 3);
}

/* Of small blocks many, of large ones few; a third of all limits is none. */
static void draw_share(void) {
    with.small_reserve = mostly(6, 40, 300);
    with.small_limit = draw(3) ? mostly(40, 40, 300) : RAMSUMMER_NO_LIMIT;
    with.large_reserve = mostly(3, 40, 300);
    with.large_limit = draw(3) ? mostly(12, 40, 300) : RAMSUMMER_NO_LIMIT;
}

/* One argument after the other: C does not say in which order a call takes them. */
static void draw_arguments(void) {
    size_t i;
    with.small = RAMSUMMER_SMALL_FOR(pool.limits.small_blocks % 65) - (draw(100) == 0);
    with.large = RAMSUMMER_LARGE_FOR(pool.limits.large_blocks % 33) - (draw(100) == 0);
    with.task = mostly(5, 60, 300);
    with.kind = mostly(3, 50, 300);
    with.extension = with.kind == RAMSUMMER_PINNED ? 0 : mostly(4, 50, 300);
    with.handle = draw_handle();
    with.length = mostly(draw(2) ? 33 : 258, 40, 70000);
    with.prefix = draw(3) ? mostly(with.length + 1, 20, 70000) : 0;
    with.offset = mostly(16, 30, 300);
    with.count = mostly(8, 20, COUNTS);
    with.room = draw(9) ? sizeof told.out : draw(64);
    for (i = 0; i < with.count; i++) bytes[i] = (uint8_t)draw(256);
    draw_share();
}

#define STORES small, with.small, large, with.large

static uint8_t join(void) {
    return ramsummer_join(&pool, with.task, with.small_reserve, with.small_limit, with.large_reserve, with.large_limit);
}

/* Seldom: a task that views does nothing else until it leaves. */
static uint8_t view(void) { return ramsummer_view(&pool, draw(4) ? 16 : with.task); }
static uint8_t leave(void) { return ramsummer_leave(&pool, draw(8) ? 16 : with.task, &told.first); }
static uint8_t block(void) { return ramsummer_block(&pool, with.task, &told.first); }
static uint8_t resume(void) { return ramsummer_resume(&pool, with.task); }
static uint8_t tick(void) { return ramsummer_tick(&pool, with.task, &told.first); }

static uint8_t make(void) {
    uint8_t answer = ramsummer_make(&pool, STORES, with.task, with.kind, with.extension, with.length, with.prefix,
                                    &told.number);
    if (answer == RAMSUMMER_DONE) known[draw(KNOWN)] = told.number;
    return answer;
}

static uint8_t refresh(void) { return ramsummer_refresh(&pool, with.task, with.kind, with.extension, with.handle); }

static uint8_t refresh_all(void) {
    return ramsummer_refresh_all(&pool, with.task, with.kind, with.extension, known, with.count);
}

static uint8_t release(void) { return ramsummer_release(&pool, with.task, with.handle); }

static uint8_t read_object(void) {
    return ramsummer_read(&pool, STORES, with.task, with.handle, told.out, with.room, &told.count);
}

static uint8_t write_object(void) {
    return ramsummer_write(&pool, STORES, with.task, with.handle, with.offset, bytes, with.count);
}

static uint8_t report(void) {
    return ramsummer_report(&pool, &told.first, &told.second, &told.tasks, &told.number);
}

static uint8_t remaining(void) {
    return ramsummer_remaining(&pool, with.task, with.handle, &told.first, &told.second);
}

static uint8_t awaited(void) { return ramsummer_awaited(&pool, &told.tasks); }

static uint8_t share(void) {
    uint8_t *at = told.share;
    return ramsummer_share(&pool, with.task, at, at + 1, at + 2, at + 3, at + 4, at + 5);
}

#define BYTE(number) ((unsigned)((number)&0xFF))

/* A line of an operation from 0 to 16 with the fields that it asks for, or now and then one digit or two less. */
static size_t draw_line(char *line) {
    uint8_t operation = (uint8_t)draw(17), task = (uint8_t)with.task, kind = (uint8_t)with.kind;
    uint8_t extension = (uint8_t)with.extension;
    int length = sprintf(line, "%02X", operation);
    if (operation != 10 && operation < 15) length += sprintf(line + length, "%02X", task);
    if (operation == 1) length += sprintf(line + length, "%02X%02X%02X%02X", BYTE(with.small_reserve),
                                          BYTE(with.small_limit), BYTE(with.large_reserve), BYTE(with.large_limit));
    if (operation == 6 || operation == 7 || operation == 12)
        length += sprintf(line + length, "%02X%02X", kind, extension);
    if (operation == 6) length += sprintf(line + length, "%04X%04X", (unsigned)(with.length & 0xFFFF),
                                          (unsigned)(with.prefix & 0xFFFF));
    if (operation >= 7 && operation <= 13 && operation != 10)
        length += sprintf(line + length, "%08lX", (unsigned long)with.handle);
    if (operation == 9) length += sprintf(line + length, "%02X%02X", BYTE(with.offset), bytes[0]);
    return (size_t)length - (draw(20) ? 0 : draw(3));
}

static uint8_t frame(void) {
    char line[64];
    size_t length = draw_line(line);
    return ramsummer_frame(&pool, STORES, (const uint8_t *)line, length, told.out, with.room, &told.count);
}

/* A pool of another size, now and then, or of no size, which is begun anew; some of them soon have given all handles. */
static uint8_t begin(void) {
    uint32_t small_blocks = mostly(64, 9, 200) + 1, large_blocks = mostly(32, 9, 100) + 1;
    uint32_t expirations = mostly(256, 9, 1000) + 1, extension = mostly(31, 9, 100);
    uint8_t answer;
    if (draw(80) != 0) return 0;
    if (draw(3) == 0) return ramsummer_fresh(&pool);
    answer = ramsummer_fresh_sized(&pool, small_blocks, large_blocks, expirations, extension);
    if (answer != RAMSUMMER_DONE) hash_number(tick()), ramsummer_fresh(&pool);
    if (draw(4) == 0) pool.given = UINT32_MAX - 100;
    return answer;
}

/* One bit of the record is another for two calls, or one of a store's for good, now and then. */
static uint8_t damage(void) {
    ramsummer_pool kept = pool;
    uint32_t place = draw(sizeof pool), bit = 1u << draw(8);
    uint8_t answer;
    if (draw(10) == 0) small[draw(sizeof small)] ^= (uint8_t)bit;
    if (draw(10) != 0) return 0;
    ((uint8_t *)&pool)[place] ^= (uint8_t)bit;
    answer = report();
    hash_number(tick());
    pool = kept;
    return answer;
}

/* The more often one stands here, the more often it is called. */
static uint8_t (*const calls[])(void) = {
    join, join, join, view, leave, block, resume, resume, resume, resume, tick, tick, tick, tick, make, make, make, make, make,
    refresh, refresh, refresh_all, release, read_object, read_object, write_object, write_object, report, remaining,
    awaited, share, frame, frame, begin, damage};

static uint8_t call(void) {
    draw_arguments();
    memset(&told, 0, sizeof told);
    return calls[draw(sizeof calls / sizeof *calls)]();
}

static void look(uint8_t answer) {
    hash_number(answer);
    hash_number(told.first);
    hash_number(told.second);
    hash_bytes(told.share, sizeof told.share);
    hash_number(told.tasks);
    hash_number(told.number);
    hash_number((uint32_t)told.count);
    hash_bytes(told.out, told.count);
}

static void look_at_all(void) {
    hash_bytes(&pool, sizeof pool);
    hash_bytes(small, sizeof small);
    hash_bytes(large, sizeof large);
}

int main(void) {
    static unsigned answers[256];
    unsigned i;
    ramsummer_fresh(&pool);
    for (i = 0; i < CALLS; i++) {
        uint8_t answer = call();
        answers[answer]++;
        look(answer);
        if (i % LOOKED_AT == 0) look_at_all();
    }
    printf("%d calls: %08lx\n", CALLS, (unsigned long)hash);
    for (i = 0; i < 256; i++)
        if (answers[i] != 0) printf("answer %u: %u\n", i, answers[i]);
    return 0;
}
