/*
 * Ramsummer: the C interface of the proved memory pool, libramsummer.a. C99, C11 and C++.
 *
 * What a caller owes, for every call:
 *   - each pointer is non-null and aligned, also where its count is 0, and leads to as many bytes as its length says;
 *   - what two pointers of one call lead to does not overlap;
 *   - a pool and its stores are used by one thread or interrupt handler at a time.
 * All the rest is tested: any record, any bytes and any number may be passed, and what is wrong is refused. A task, a
 * kind, an extension, a length, a prefix, an offset and the four numbers of a join may be any unsigned or int: the types
 * below are the library's own, and a number that they cannot hold is refused, and not cut (ramsummer_wide.h, which is
 * included at the end). The library has lengths and counts in 64 bits on every processor; an author has them in a size_t,
 * by the same header. But a task, a kind, an extension, a handle or a number of a join of 64 bits is cut to 32 before the
 * call, and -Wconversion says so; the limits of ramsummer_fresh_sized are not.
 *
 * No call takes a const record. Read, report, remaining, awaited and share are proved to leave it as it was; but every
 * entry of the library is lent the record for itself alone (`&mut` in the proved source), so that it must not lie in
 * read-only memory, and nobody may look at it meanwhile. All else that a call only reads is const.
 *
 * The bytes of a store block in use are changed by ramsummer_write, or by a write in ramsummer_frame, alone; both keep their
 * sum in the record. Whoever else writes there makes read and write refuse the object with 23, unless the changes cancel
 * out in the sum.
 *
 * Each call returns 0 where it was carried out, else the number of its refusal (enum ramsummer_answer). After a
 * refusal the pool, the stores and what the pointers lead to are as before; but ramsummer_frame also writes the answer
 * line of a refusal, and 29 leaves a record that is not well-formed. Of what is wrong with a call the first is told, in
 * the order that stands at each call.
 */
#ifndef RAMSUMMER_H
#define RAMSUMMER_H

#include <stddef.h>
#include <stdint.h>

#ifdef __cplusplus
extern "C" {
#endif

/* The version of these headers, which is that of the crate in Rust. */
#define RAMSUMMER_VERSION "0.1.0"

/* The largest limits that a pool may have (ramsummer_limits), and those of ramsummer_fresh. */
#define RAMSUMMER_SMALL_BLOCKS 64  /* blocks of the small store */
#define RAMSUMMER_LARGE_BLOCKS 32  /* blocks of the large store */
#define RAMSUMMER_EXPIRATIONS 256  /* expirations that stand at a time, in all */
#define RAMSUMMER_MAX_EXTENSION 30 /* the extension of an expiration; one that is pinned has 0 */

/* Other counts. */
#define RAMSUMMER_TASKS 16         /* tasks are 0 to 15 */
#define RAMSUMMER_STORE_BLOCKS 96  /* entries of the record: 64 for the small store, then 32 for the large one */
#define RAMSUMMER_LARGEST_BATCH 32 /* the most objects that one call refreshes */

/* The four numbers of a join that asks for nothing and is bounded by nothing but the pool: no reserve and no limit, of
 * small and of large objects. 255 is above every count of blocks. */
#define RAMSUMMER_NO_LIMIT 255
#define RAMSUMMER_OPEN 0, RAMSUMMER_NO_LIMIT, 0, RAMSUMMER_NO_LIMIT

/* Sizes in bytes. */
#define RAMSUMMER_SMALL_SIZE 32  /* a block of the small store, for objects of 1 to 32 bytes */
#define RAMSUMMER_LARGE_SIZE 256 /* a block of the large store, for objects of 33 to 256 bytes */
#define RAMSUMMER_LONGEST 256    /* the longest object: room for any read */
#define RAMSUMMER_LINE 531       /* the room that ramsummer_frame asks for; an answer line has at most 515 bytes */
#define RAMSUMMER_RECORD 2904    /* the record, ramsummer_pool */

/* The stores of a pool with so many blocks, as the calls ask for them; and those of ramsummer_fresh, 2,048 and 8,192. */
#define RAMSUMMER_SMALL_FOR(blocks) ((blocks)*RAMSUMMER_SMALL_SIZE)
#define RAMSUMMER_LARGE_FOR(blocks) ((blocks)*RAMSUMMER_LARGE_SIZE)
#define RAMSUMMER_SMALL RAMSUMMER_SMALL_FOR(RAMSUMMER_SMALL_BLOCKS)
#define RAMSUMMER_LARGE RAMSUMMER_LARGE_FOR(RAMSUMMER_LARGE_BLOCKS)

/* By which time an expiration is due, if by any. */
enum ramsummer_kind {
    RAMSUMMER_LOCAL = 0, /* the task's own clock: due after extension + 1 of its ticks */
    RAMSUMMER_GLOBAL = 1, /* the common time of all running tasks: due after extension + 2 advances, of which those do
                           * not count that come while its setter waits */
    RAMSUMMER_PINNED = 2  /* none: it stands until ramsummer_release. Only make sets it, with extension 0 */
};

/* What a call returns. */
enum ramsummer_answer {
    RAMSUMMER_DONE = 0,
    RAMSUMMER_NO_SUCH_TASK = 1,         /* task above 15 */
    RAMSUMMER_TASK_PRESENT = 2,         /* join, view: the task is not absent */
    RAMSUMMER_TASK_ABSENT = 3,          /* the task has not joined */
    RAMSUMMER_TASK_WAITING = 4,         /* the task waits: it has not resumed */
    RAMSUMMER_TASK_RUNNING = 5,         /* resume: the task does not wait: it is running, or a viewer */
    RAMSUMMER_EXTENSION_TOO_LONG = 6,   /* extension above the pool's limit, or above 0 where the kind is pinned */
    RAMSUMMER_LENGTH_OUT_OF_RANGE = 7,  /* length 0 or above 256 */
    RAMSUMMER_HANDLES_SPENT = 8,        /* all 4,294,967,295 handles are given */
    RAMSUMMER_NO_FREE_BLOCK = 9,        /* no block of the store is free that is not held back for other tasks' reserves */
    RAMSUMMER_NO_FREE_EXPIRATION = 10,  /* as many stand as the pool's limit, or a batch would make them more */
    RAMSUMMER_HANDLE_NOT_GIVEN = 11,    /* handle 0, or above the count given */
    RAMSUMMER_OBJECT_GONE = 12,         /* the object's last expiration has ended */
    RAMSUMMER_OUTSIDE_OBJECT = 13,      /* write: offset plus count above the object's length; site_get: length above it */
    RAMSUMMER_WRONG_STORE_LENGTH = 14,  /* a store has not exactly the length that the pool's blocks need */
    RAMSUMMER_NOT_WELL_FORMED = 15,     /* the record is damaged; only 16 to 19 and a frame's 255 are tested before */
    RAMSUMMER_NOT_HEXADECIMAL = 16,     /* frame: not all pairs of digits 0-9, A-F */
    RAMSUMMER_UNKNOWN_OPERATION = 17,   /* frame: no or an unknown operation */
    RAMSUMMER_WRONG_FRAME_LENGTH = 18,  /* frame: wrong length for its operation */
    RAMSUMMER_UNKNOWN_KIND = 19,        /* kind above 2; tested before the record is */
    RAMSUMMER_BATCH_OUT_OF_RANGE = 20,  /* a batch of no object, or of more than 32 */
    RAMSUMMER_ONLY_MAKE_PINS = 21,      /* a refresh or a batch of kind pinned */
    RAMSUMMER_NOT_PINNED = 22,          /* release: the object stands, and is not pinned, or no longer */
    RAMSUMMER_SUM_DIFFERS = 23,         /* read, write: the bytes of the object's block were changed from outside */
    RAMSUMMER_RESERVE_ABOVE_LIMIT = 24, /* join: a reserve is above its limit */
    RAMSUMMER_RESERVE_NOT_FREE = 25,    /* join: too few blocks are left for a reserve */
    RAMSUMMER_AT_LIMIT = 26,            /* make: the task has as many objects of the store as its limit */
    RAMSUMMER_ONLY_VIEWS = 27,          /* the task is a viewer: it reads, asks what remains and leaves, and no more */
    RAMSUMMER_PREFIX_TOO_LONG = 28,     /* make: the prefix is longer than the object */
    RAMSUMMER_LIMITS_OUT_OF_RANGE = 29, /* fresh_sized: a limit is out of its range */
    RAMSUMMER_BUFFER_TOO_SHORT = 255    /* read, frame: no room for the answer */
};

/* The clock of an expiration in the record, which is no kind of a call. 0 is a free entry. */
enum ramsummer_clock {
    RAMSUMMER_CLOCK_LOCAL = 16,    /* and the number of a task: the local time of that task */
    RAMSUMMER_CLOCK_GLOBAL = 32,   /* and the number of a task: global time, and that task set it */
    RAMSUMMER_CLOCK_DEPARTED = 48, /* global time, and its setter has left since */
    RAMSUMMER_CLOCK_PINNED = 49    /* none: what pins an object, and is due at 0 */
};

/* The maker of an object in the record is the task that made it, or this number once that task has left: it stays so, also
 * where another joins by the task's number. */
#define RAMSUMMER_MAKER_DEPARTED 16

/* The parts of extents[i], the word of a store block in use: the length of its object, the object's maker, its prefix,
 * which is how many of its bytes a viewer sees, and the sum of all bytes of the block, 32 or 256 of them. */
#define RAMSUMMER_LENGTH_IN(extent) ((uint16_t)((extent)&0xFFFF))
#define RAMSUMMER_MAKER_IN(extent) ((uint8_t)((extent) >> 16 & 0xFF))
#define RAMSUMMER_PREFIX_IN(extent) ((uint16_t)((extent) >> 32 & 0xFFFF))
#define RAMSUMMER_SUM_IN(extent) ((uint16_t)((extent) >> 48 & 0xFFFF))

/* A task. State 0 is absent, 1 running, 2 waiting, 3 viewing; ticked is 1 where it has ticked in this period of global
 * time. */
typedef struct ramsummer_task_entry {
    uint16_t state;
    uint16_t ticked;
    uint32_t clock;
} ramsummer_task_entry;

/* What a task asked for when it joined; all 0 of an absent one and of a viewer. A reserve are the blocks that are held back
 * for it as long as it has fewer objects of the store, a limit is how many it may have. */
typedef struct ramsummer_task_share {
    uint8_t small_reserve;
    uint8_t small_limit;
    uint8_t large_reserve;
    uint8_t large_limit;
} ramsummer_task_share;

/* How much a pool holds, and for how long: chosen when it is made (ramsummer_fresh_sized), and changed by no call. */
typedef struct ramsummer_limits {
    uint32_t small_blocks; /* blocks of the small store, 1 to 64 */
    uint32_t large_blocks; /* blocks of the large store, 1 to 32 */
    uint32_t expirations;  /* expirations that stand at a time, 1 to 256 */
    uint32_t extension;    /* the longest extension, 0 to 30 */
} ramsummer_limits;

/*
 * The record of a pool. A fresh one is all zeros but for its limits; all zeros are none, and refused with 15.
 *
 * Store block i has the object handles[i]; handle 0 is a free one. In every pool the small store's blocks are numbered
 * from 0 on, the large one's from RAMSUMMER_SMALL_BLOCKS on. Of extents[i] bits 0 to 15 are the object's length, 16 to 23
 * its maker, 32 to 47 its prefix and 48 to 63 the sum of its block (RAMSUMMER_LENGTH_IN and its like); the rest is kept
 * for later, and may hold anything. Expiration i, below limits.expirations, belongs to the object in store block named[i],
 * and is due when the clock clocks[i] (enum ramsummer_clock) reads dues[i]. The other fields of a free one of either have
 * no meaning and may hold anything.
 */
typedef struct ramsummer_pool {
    ramsummer_task_entry tasks[RAMSUMMER_TASKS];
    uint32_t global;                          /* global time */
    uint32_t given;                           /* handles given so far */
    ramsummer_limits limits;
    ramsummer_task_share shares[RAMSUMMER_TASKS];
    uint32_t handles[RAMSUMMER_STORE_BLOCKS];
    uint64_t extents[RAMSUMMER_STORE_BLOCKS];
    uint8_t clocks[RAMSUMMER_EXPIRATIONS];    /* in no order */
    uint8_t named[RAMSUMMER_EXPIRATIONS];
    uint32_t dues[RAMSUMMER_EXPIRATIONS];
} ramsummer_pool;

/* The library knows the record by these places. C99 and old C++ cannot test them while they compile. */
#if defined(__cplusplus) && __cplusplus >= 201103L
#define RAMSUMMER_ASSERT(claim) static_assert(claim, #claim)
#elif !defined(__cplusplus) && defined(__STDC_VERSION__) && __STDC_VERSION__ >= 201112L
#define RAMSUMMER_ASSERT(claim) _Static_assert(claim, #claim)
#endif
#ifdef RAMSUMMER_ASSERT
RAMSUMMER_ASSERT(sizeof(ramsummer_pool) == RAMSUMMER_RECORD);
RAMSUMMER_ASSERT(sizeof(ramsummer_task_entry) == 8);
RAMSUMMER_ASSERT(offsetof(ramsummer_task_entry, ticked) == 2);
RAMSUMMER_ASSERT(offsetof(ramsummer_task_entry, clock) == 4);
RAMSUMMER_ASSERT(sizeof(ramsummer_task_share) == 4);
RAMSUMMER_ASSERT(offsetof(ramsummer_task_share, small_limit) == 1);
RAMSUMMER_ASSERT(offsetof(ramsummer_task_share, large_reserve) == 2);
RAMSUMMER_ASSERT(offsetof(ramsummer_task_share, large_limit) == 3);
RAMSUMMER_ASSERT(sizeof(ramsummer_limits) == 16);
RAMSUMMER_ASSERT(offsetof(ramsummer_limits, large_blocks) == 4);
RAMSUMMER_ASSERT(offsetof(ramsummer_limits, expirations) == 8);
RAMSUMMER_ASSERT(offsetof(ramsummer_limits, extension) == 12);
RAMSUMMER_ASSERT(offsetof(ramsummer_pool, global) == 128);
RAMSUMMER_ASSERT(offsetof(ramsummer_pool, given) == 132);
RAMSUMMER_ASSERT(offsetof(ramsummer_pool, limits) == 136);
RAMSUMMER_ASSERT(offsetof(ramsummer_pool, shares) == 152);
RAMSUMMER_ASSERT(offsetof(ramsummer_pool, handles) == 216);
RAMSUMMER_ASSERT(offsetof(ramsummer_pool, extents) == 600);
RAMSUMMER_ASSERT(offsetof(ramsummer_pool, clocks) == 1368);
RAMSUMMER_ASSERT(offsetof(ramsummer_pool, named) == 1624);
RAMSUMMER_ASSERT(offsetof(ramsummer_pool, dues) == 1880);
#undef RAMSUMMER_ASSERT
#endif

/* The compiler warns, where it can, of a null pointer (NONNULL), and also of a call whose answer nobody looks at, since it
 * may have been refused (CHECKED). */
#if defined(__GNUC__)
#define RAMSUMMER_NONNULL __attribute__((nonnull))
#define RAMSUMMER_CHECKED __attribute__((nonnull, warn_unused_result))
#elif defined(__cplusplus) && __cplusplus >= 201703L
#define RAMSUMMER_NONNULL
#define RAMSUMMER_CHECKED [[nodiscard]]
#else
#define RAMSUMMER_NONNULL
#define RAMSUMMER_CHECKED
#endif

/* And gcc warns of memory that is shorter than the length that is passed with it. The numbers are the places of both among
 * the arguments. */
#if defined(__has_attribute)
#if __has_attribute(access)
#define RAMSUMMER_READS(pointer, length) __attribute__((access(read_only, pointer, length)))
#define RAMSUMMER_WRITES(pointer, length) __attribute__((access(write_only, pointer, length)))
#define RAMSUMMER_CHANGES(pointer, length) __attribute__((access(read_write, pointer, length)))
#endif
#endif
#ifndef RAMSUMMER_READS
#define RAMSUMMER_READS(pointer, length)
#define RAMSUMMER_WRITES(pointer, length)
#define RAMSUMMER_CHANGES(pointer, length)
#endif

/* Makes the record that of a fresh pool with the largest limits, whatever it held. Always 0. The stores may hold any
 * bytes. */
RAMSUMMER_NONNULL uint8_t ramsummer_fresh(ramsummer_pool *pool);

/* The same with limits of the site's own; its stores are RAMSUMMER_SMALL_FOR(small_blocks) and
 * RAMSUMMER_LARGE_FOR(large_blocks) long. Where one is out of its range, what is left is a record that every call refuses
 * with 15 until it is made fresh, but for what is tested before 15: an unknown kind is 19, and a frame 255 or 16 to 19.
 * Tests 29. */
RAMSUMMER_CHECKED uint8_t ramsummer_fresh_sized(ramsummer_pool *pool, uint32_t small_blocks, uint32_t large_blocks,
                                                uint32_t expirations, uint32_t extension);

/* Absent to running, with clock 0 and a share of each store. As long as the task has made fewer of the small objects that
 * stand than small_reserve, a free block is held back for each that it lacks: others are refused with 9, and no make of
 * this task is. And it is refused with 26 while it has small_limit of them. So for the large ones. RAMSUMMER_OPEN is the
 * four numbers of a task that asks for nothing. Tests 15, 1, 2, 24 for both stores, 25 for either. */
RAMSUMMER_CHECKED uint8_t ramsummer_join(ramsummer_pool *pool, uint8_t task, uint8_t small_reserve, uint8_t small_limit,
                                         uint8_t large_reserve, uint8_t large_limit);

/* Absent to viewing, with clock 0, no reserve and no limit: a task that reads of each object its prefix alone, and changes
 * none. It does not run: global time never waits for it. It reads, asks what remains of an object, and leaves; what else a
 * running task may do is refused with 27, and a resume with 5. Tests 15, 1, 2. */
RAMSUMMER_CHECKED uint8_t ramsummer_view(ramsummer_pool *pool, uint8_t task);

/* To absent; the local expirations that this task set go, and the global ones count on, whoever joins by its number
 * later. What it made and what stands on counts for nobody from then on; its share is given up. Advanced is 1 if global
 * time advanced, else 0. Tests 15, 1, 3. */
RAMSUMMER_CHECKED uint8_t ramsummer_leave(ramsummer_pool *pool, uint8_t task, uint8_t *advanced);

/* Running to waiting: global time goes on without this task, and each advance, that of this call too, puts the global
 * expirations that it set off by one. Advanced as for leave. Tests 15, 1, 3, 4, 27. */
RAMSUMMER_CHECKED uint8_t ramsummer_block(ramsummer_pool *pool, uint8_t task, uint8_t *advanced);

/* Waiting to running. Tests 15, 1, 3, 5. */
RAMSUMMER_CHECKED uint8_t ramsummer_resume(ramsummer_pool *pool, uint8_t task);

/* One unit of the task's local time; once all running tasks have ticked, one of global time. Advanced as for leave.
 * Tests 15, 1, 3, 4, 27. */
RAMSUMMER_CHECKED uint8_t ramsummer_tick(ramsummer_pool *pool, uint8_t task, uint8_t *advanced);

/* A new object of zero bytes with one expiration, which pins it where the kind says so. A viewer sees its first prefix
 * bytes: none where that is 0, all where it is the length. Handle is set to its number.
 * Tests 19, 15, 14, 1, 3, 4, 27, 6, 7, 28, 8, 26, 9, 10. */
RAMSUMMER_CHANGES(2, 3) RAMSUMMER_CHANGES(4, 5)
RAMSUMMER_CHECKED uint8_t ramsummer_make(ramsummer_pool *pool, uint8_t *small_store, uint64_t small_length,
                                         uint8_t *large_store, uint64_t large_length, uint8_t task, uint8_t kind,
                                         uint8_t extension, uint16_t length, uint16_t prefix, uint32_t *handle);

/* One more expiration for the object; those that it has stay. Tests 19, 15, 1, 3, 4, 27, 21, 6, 11, 12, 10. */
RAMSUMMER_CHECKED uint8_t ramsummer_refresh(ramsummer_pool *pool, uint8_t task, uint8_t kind, uint8_t extension,
                                            uint32_t handle);

/* A batch: one more expiration for each of count objects, 1 to RAMSUMMER_LARGEST_BATCH, or for none of them where one
 * is refused. An object that is named twice gets two. Tests 19, 15, 1, 3, 4, 27, 20, 21, 6, then 11 for any of the
 * objects, 12 for any, 10 for all. */
RAMSUMMER_READS(5, 6)
RAMSUMMER_CHECKED uint8_t ramsummer_refresh_all(ramsummer_pool *pool, uint8_t task, uint8_t kind, uint8_t extension,
                                                const uint32_t *handles, uint64_t count);

/* Ends what pins the object, whoever pinned it. It stands on where another expiration does, else its store block is free
 * at once. A handle that is lost can be found in the record: where clocks[i] is RAMSUMMER_CLOCK_PINNED, it is
 * handles[named[i]]. Tests 15, 1, 3, 4, 27, 11, 12, 22. */
RAMSUMMER_CHECKED uint8_t ramsummer_release(ramsummer_pool *pool, uint8_t task, uint32_t handle);

/* The object's bytes, to a viewer those of its prefix alone, go to the start of out, and count says how many; the rest of
 * out stays. The sum that is tested is that of the whole block, for a viewer too.
 * Tests 15, 14, 1, 3, 4, 11, 12, 23, 255. */
RAMSUMMER_READS(2, 3) RAMSUMMER_READS(4, 5) RAMSUMMER_WRITES(8, 9)
RAMSUMMER_CHECKED uint8_t ramsummer_read(ramsummer_pool *pool, const uint8_t *small_store, uint64_t small_length,
                                         const uint8_t *large_store, uint64_t large_length, uint8_t task,
                                         uint32_t handle, uint8_t *out, uint64_t out_length, uint64_t *count);

/* Replaces count bytes of the object from offset on; the record gets the block's new sum. An offset above 255 lies outside
 * every object, also where count is 0. Tests 15, 14, 1, 3, 4, 27, 11, 12, 23, 13. */
RAMSUMMER_CHANGES(2, 3) RAMSUMMER_CHANGES(4, 5) RAMSUMMER_READS(9, 10)
RAMSUMMER_CHECKED uint8_t ramsummer_write(ramsummer_pool *pool, uint8_t *small_store, uint64_t small_length,
                                          uint8_t *large_store, uint64_t large_length, uint8_t task, uint32_t handle,
                                          uint8_t offset, const uint8_t *bytes, uint64_t count);

/* Small and large objects that stand, expirations that stand, handles given so far. Tests 15. */
RAMSUMMER_CHECKED uint8_t ramsummer_report(ramsummer_pool *pool, uint8_t *small_objects, uint8_t *large_objects,
                                           uint16_t *expirations, uint32_t *given);

/* How long the object stands without a refresh. Local is set to the ticks of this task until the last of its local
 * expirations is due, global to the advances until the last global one is, whoever set it, where its setter does not
 * wait meanwhile; 0 where there is none. What pins the object adds to neither. Tests 15, 1, 3, 4, 11, 12. */
RAMSUMMER_CHECKED uint8_t ramsummer_remaining(ramsummer_pool *pool, uint8_t task, uint32_t handle, uint8_t *local,
                                              uint8_t *global);

/* For whom global time waits: the tasks that run and have not ticked since it last advanced, bit t for task t. It
 * advances with the tick, block or leave that leaves no bit set while some task runs. Tests 15. */
RAMSUMMER_CHECKED uint8_t ramsummer_awaited(ramsummer_pool *pool, uint16_t *tasks);

/* What a task has of each store: how many of the objects that stand it has made, its reserve and its limit, all 0 where it
 * is absent or a viewer. Reserve less made, or 0 where that is more, is how many blocks are held back for it.
 * Tests 15, 1. */
RAMSUMMER_CHECKED uint8_t ramsummer_share(ramsummer_pool *pool, uint8_t task, uint8_t *small_made,
                                          uint8_t *small_reserve, uint8_t *small_limit, uint8_t *large_made,
                                          uint8_t *large_reserve, uint8_t *large_limit);

/* Carries out one call frame. Line is without its LF; the answer line goes to the start of out with its LF, and count
 * says how many bytes. The number is the one that the answer line starts with. Tests 255, 16, 17, 18, 19, then as the
 * call does from 15 on. */
RAMSUMMER_CHANGES(2, 3) RAMSUMMER_CHANGES(4, 5) RAMSUMMER_READS(6, 7) RAMSUMMER_WRITES(8, 9)
RAMSUMMER_CHECKED uint8_t ramsummer_frame(ramsummer_pool *pool, uint8_t *small_store, uint64_t small_length,
                                          uint8_t *large_store, uint64_t large_length, const uint8_t *line,
                                          uint64_t line_length, uint8_t *out, uint64_t out_length, uint64_t *count);

#include "ramsummer_wide.h"

#ifdef __cplusplus
}
#endif

#endif
