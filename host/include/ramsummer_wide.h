/*
 * Ramsummer: any int or unsigned for a task, a kind, an extension, a length, a prefix, an offset or a number of a join, any
 * integer for a limit of a pool, and a size_t for a count. Included by ramsummer.h.
 *
 * The library takes them in eight or sixteen bits, a pool's limit in 32, and C would cut an int to fit: task 256 would be
 * task 0. So the name of each call that takes one is here that of a function which takes the number as it comes. What the
 * library's type cannot hold it passes on as the largest number that it can, and that is refused with the same number, in
 * the same order of tests: 255 is no task, no kind and no extension, 65,535 no length and no prefix of one, and
 * 4,294,967,295 no pool's limit. A task's limit may be 255; a join with a number above it asks for what is refused with 24.
 * A negative int comes as a large unsigned. A pool's limit is taken in 64 bits and never cut. A task, a kind, an extension
 * or a number of a join of 64 bits is cut to 32 before the call, and -Wconversion says so. Once compiled it costs a
 * comparison for an int, and nothing for a constant or a uint8_t.
 *
 * The library writes a count of 64 bits, and a size_t has 32 on a small processor: a count goes to a variable here, and
 * from there to the author's. None is above RAMSUMMER_LINE. Where nothing is written it stays as it was.
 *
 * The names are macros without parameters: a call may take its first arguments from one macro of the author's, a pointer
 * to ramsummer_join is one to the function here, and a debugger that stops at ramsummer_join stops in the library.
 */
#ifndef RAMSUMMER_H
#error "include ramsummer.h, which includes this"
#endif
#ifndef RAMSUMMER_WIDE_H
#define RAMSUMMER_WIDE_H

static inline uint8_t ramsummer_to_byte(size_t number) { return (uint8_t)(number > 0xFF ? 0xFF : number); }

static inline uint16_t ramsummer_to_length(size_t number) { return (uint16_t)(number > 0xFFFF ? 0xFFFF : number); }

static inline uint32_t ramsummer_to_limit(uint64_t number) {
    return (uint32_t)(number > 0xFFFFFFFFu ? 0xFFFFFFFFu : number);
}

RAMSUMMER_CHECKED static inline uint8_t ramsummer_fresh_sized_wide(ramsummer_pool *pool, uint64_t small_blocks,
                                                                   uint64_t large_blocks, uint64_t expirations,
                                                                   uint64_t extension) {
    return ramsummer_fresh_sized(pool, ramsummer_to_limit(small_blocks), ramsummer_to_limit(large_blocks),
                                 ramsummer_to_limit(expirations), ramsummer_to_limit(extension));
}

/* Where one of the four is above 255 the join asks for a reserve above its limit: 24 comes in its turn. */
RAMSUMMER_CHECKED static inline uint8_t ramsummer_join_wide(ramsummer_pool *pool, unsigned task, unsigned small_reserve,
                                                            unsigned small_limit, unsigned large_reserve,
                                                            unsigned large_limit) {
    int is_wide = (small_reserve | small_limit | large_reserve | large_limit) > 0xFF;
    if (is_wide) return ramsummer_join(pool, ramsummer_to_byte(task), 0xFF, 0, 0xFF, 0);
    return ramsummer_join(pool, ramsummer_to_byte(task), (uint8_t)small_reserve, (uint8_t)small_limit,
                          (uint8_t)large_reserve, (uint8_t)large_limit);
}

RAMSUMMER_CHECKED static inline uint8_t ramsummer_view_wide(ramsummer_pool *pool, unsigned task) {
    return ramsummer_view(pool, ramsummer_to_byte(task));
}

RAMSUMMER_CHECKED static inline uint8_t ramsummer_leave_wide(ramsummer_pool *pool, unsigned task, uint8_t *advanced) {
    return ramsummer_leave(pool, ramsummer_to_byte(task), advanced);
}

RAMSUMMER_CHECKED static inline uint8_t ramsummer_block_wide(ramsummer_pool *pool, unsigned task, uint8_t *advanced) {
    return ramsummer_block(pool, ramsummer_to_byte(task), advanced);
}

RAMSUMMER_CHECKED static inline uint8_t ramsummer_resume_wide(ramsummer_pool *pool, unsigned task) {
    return ramsummer_resume(pool, ramsummer_to_byte(task));
}

RAMSUMMER_CHECKED static inline uint8_t ramsummer_tick_wide(ramsummer_pool *pool, unsigned task, uint8_t *advanced) {
    return ramsummer_tick(pool, ramsummer_to_byte(task), advanced);
}

RAMSUMMER_CHANGES(2, 3) RAMSUMMER_CHANGES(4, 5)
RAMSUMMER_CHECKED static inline uint8_t ramsummer_make_wide(ramsummer_pool *pool, uint8_t *small_store,
                                                            size_t small_length, uint8_t *large_store,
                                                            size_t large_length, unsigned task, unsigned kind,
                                                            unsigned extension, size_t length, size_t prefix,
                                                            uint32_t *handle) {
    return ramsummer_make(pool, small_store, small_length, large_store, large_length, ramsummer_to_byte(task),
                          ramsummer_to_byte(kind), ramsummer_to_byte(extension), ramsummer_to_length(length),
                          ramsummer_to_length(prefix), handle);
}

RAMSUMMER_CHECKED static inline uint8_t ramsummer_refresh_wide(ramsummer_pool *pool, unsigned task, unsigned kind,
                                                               unsigned extension, uint32_t handle) {
    return ramsummer_refresh(pool, ramsummer_to_byte(task), ramsummer_to_byte(kind), ramsummer_to_byte(extension),
                             handle);
}

RAMSUMMER_READS(5, 6)
RAMSUMMER_CHECKED static inline uint8_t ramsummer_refresh_all_wide(ramsummer_pool *pool, unsigned task, unsigned kind,
                                                                   unsigned extension, const uint32_t *handles,
                                                                   size_t count) {
    return ramsummer_refresh_all(pool, ramsummer_to_byte(task), ramsummer_to_byte(kind), ramsummer_to_byte(extension),
                                 handles, count);
}

RAMSUMMER_CHECKED static inline uint8_t ramsummer_release_wide(ramsummer_pool *pool, unsigned task, uint32_t handle) {
    return ramsummer_release(pool, ramsummer_to_byte(task), handle);
}

RAMSUMMER_READS(2, 3) RAMSUMMER_READS(4, 5) RAMSUMMER_WRITES(8, 9)
RAMSUMMER_CHECKED static inline uint8_t ramsummer_read_wide(ramsummer_pool *pool, const uint8_t *small_store,
                                                            size_t small_length, const uint8_t *large_store,
                                                            size_t large_length, unsigned task, uint32_t handle,
                                                            uint8_t *out, size_t out_length, size_t *count) {
    uint64_t filled = 0;
    uint8_t answer = ramsummer_read(pool, small_store, small_length, large_store, large_length, ramsummer_to_byte(task),
                                    handle, out, out_length, &filled);
    if (answer == RAMSUMMER_DONE) *count = (size_t)filled;
    return answer;
}

/* 255 may be an offset, but two bytes from there on end past every object: 13 comes in its turn. Nothing is written. */
RAMSUMMER_CHANGES(2, 3) RAMSUMMER_CHANGES(4, 5) RAMSUMMER_READS(9, 10)
RAMSUMMER_CHECKED static inline uint8_t ramsummer_write_wide(ramsummer_pool *pool, uint8_t *small_store,
                                                             size_t small_length, uint8_t *large_store,
                                                             size_t large_length, unsigned task, uint32_t handle,
                                                             size_t offset, const uint8_t *bytes, size_t count) {
    static const uint8_t two[2] = {0, 0};
    int is_wide = offset > 0xFF;
    return ramsummer_write(pool, small_store, small_length, large_store, large_length, ramsummer_to_byte(task), handle,
                           ramsummer_to_byte(offset), is_wide ? two : bytes, is_wide ? sizeof two : count);
}

RAMSUMMER_CHECKED static inline uint8_t ramsummer_remaining_wide(ramsummer_pool *pool, unsigned task, uint32_t handle,
                                                                 uint8_t *local, uint8_t *global) {
    return ramsummer_remaining(pool, ramsummer_to_byte(task), handle, local, global);
}

RAMSUMMER_CHECKED static inline uint8_t ramsummer_share_wide(ramsummer_pool *pool, unsigned task, uint8_t *small_made,
                                                             uint8_t *small_reserve, uint8_t *small_limit,
                                                             uint8_t *large_made, uint8_t *large_reserve,
                                                             uint8_t *large_limit) {
    return ramsummer_share(pool, ramsummer_to_byte(task), small_made, small_reserve, small_limit, large_made,
                           large_reserve, large_limit);
}

/* A refusal has an answer line too, but where there is no room for one. */
RAMSUMMER_CHANGES(2, 3) RAMSUMMER_CHANGES(4, 5) RAMSUMMER_READS(6, 7) RAMSUMMER_WRITES(8, 9)
RAMSUMMER_CHECKED static inline uint8_t ramsummer_frame_wide(ramsummer_pool *pool, uint8_t *small_store,
                                                             size_t small_length, uint8_t *large_store,
                                                             size_t large_length, const uint8_t *line,
                                                             size_t line_length, uint8_t *out, size_t out_length,
                                                             size_t *count) {
    uint64_t filled = 0;
    uint8_t answer = ramsummer_frame(pool, small_store, small_length, large_store, large_length, line, line_length, out,
                                     out_length, &filled);
    if (answer != RAMSUMMER_BUFFER_TOO_SHORT) *count = (size_t)filled;
    return answer;
}

#define ramsummer_fresh_sized ramsummer_fresh_sized_wide
#define ramsummer_join ramsummer_join_wide
#define ramsummer_view ramsummer_view_wide
#define ramsummer_leave ramsummer_leave_wide
#define ramsummer_block ramsummer_block_wide
#define ramsummer_resume ramsummer_resume_wide
#define ramsummer_tick ramsummer_tick_wide
#define ramsummer_make ramsummer_make_wide
#define ramsummer_refresh ramsummer_refresh_wide
#define ramsummer_refresh_all ramsummer_refresh_all_wide
#define ramsummer_release ramsummer_release_wide
#define ramsummer_read ramsummer_read_wide
#define ramsummer_write ramsummer_write_wide
#define ramsummer_remaining ramsummer_remaining_wide
#define ramsummer_share ramsummer_share_wide
#define ramsummer_frame ramsummer_frame_wide

#endif
