/*
 * Ramsummer: a site's pool in one struct, record and stores, and the calls that take stores, on a pointer to it. C99, C11
 * and C++. All other calls are those of ramsummer.h, on &site.pool.
 *
 *     static ramsummer_site site;
 *     ramsummer_site_fresh(&site);
 *     refusal = ramsummer_join(&site.pool, task, RAMSUMMER_OPEN);
 *     if (!refusal) refusal = ramsummer_site_put(&site, task, RAMSUMMER_LOCAL, 3, &level, sizeof level, 0, &handle);
 *     if (!refusal) refusal = ramsummer_site_get(&site, task, handle, &level, sizeof level);
 *
 * Its limits are the largest, or the site's own: four macros, defined before this is included, and in each file the same. A
 * program with pools of several sizes has ramsummer.h.
 *
 *     #define RAMSUMMER_SITE_SMALL_BLOCKS 16
 *     #define RAMSUMMER_SITE_LARGE_BLOCKS 4
 *     #define RAMSUMMER_SITE_EXPIRATIONS 64
 *     #define RAMSUMMER_SITE_EXTENSION 10
 */
#ifndef RAMSUMMER_SITE_H
#define RAMSUMMER_SITE_H

#include "ramsummer.h"

#ifdef __cplusplus
extern "C" {
#endif

#ifndef RAMSUMMER_SITE_SMALL_BLOCKS
#define RAMSUMMER_SITE_SMALL_BLOCKS RAMSUMMER_SMALL_BLOCKS
#endif
#ifndef RAMSUMMER_SITE_LARGE_BLOCKS
#define RAMSUMMER_SITE_LARGE_BLOCKS RAMSUMMER_LARGE_BLOCKS
#endif
#ifndef RAMSUMMER_SITE_EXPIRATIONS
#define RAMSUMMER_SITE_EXPIRATIONS RAMSUMMER_EXPIRATIONS
#endif
#ifndef RAMSUMMER_SITE_EXTENSION
#define RAMSUMMER_SITE_EXTENSION RAMSUMMER_MAX_EXTENSION
#endif

/* A limit out of its range does not compile. */
typedef char ramsummer_site_limit_out_of_range[
    (RAMSUMMER_SITE_SMALL_BLOCKS) >= 1 && (RAMSUMMER_SITE_SMALL_BLOCKS) <= RAMSUMMER_SMALL_BLOCKS
    && (RAMSUMMER_SITE_LARGE_BLOCKS) >= 1 && (RAMSUMMER_SITE_LARGE_BLOCKS) <= RAMSUMMER_LARGE_BLOCKS
    && (RAMSUMMER_SITE_EXPIRATIONS) >= 1 && (RAMSUMMER_SITE_EXPIRATIONS) <= RAMSUMMER_EXPIRATIONS
    && (uint64_t)(RAMSUMMER_SITE_EXTENSION) <= RAMSUMMER_MAX_EXTENSION ? 1 : -1];

typedef struct ramsummer_site {
    ramsummer_pool pool;
    uint8_t small[RAMSUMMER_SMALL_FOR(RAMSUMMER_SITE_SMALL_BLOCKS)];
    uint8_t large[RAMSUMMER_LARGE_FOR(RAMSUMMER_SITE_LARGE_BLOCKS)];
} ramsummer_site;

/* The five arguments that are its record and stores, as the calls of ramsummer.h and ramsummer_image.h take them. */
#define RAMSUMMER_PARTS(site) &(site)->pool, (site)->small, sizeof(site)->small, (site)->large, sizeof(site)->large

/* As ramsummer_fresh_sized with the limits above. Always 0. */
RAMSUMMER_NONNULL static inline uint8_t ramsummer_site_fresh(ramsummer_site *site) {
    return ramsummer_fresh_sized(&site->pool, RAMSUMMER_SITE_SMALL_BLOCKS, RAMSUMMER_SITE_LARGE_BLOCKS,
                                 RAMSUMMER_SITE_EXPIRATIONS, RAMSUMMER_SITE_EXTENSION);
}

/* As ramsummer_make. */
RAMSUMMER_CHECKED static inline uint8_t ramsummer_site_make(ramsummer_site *site, unsigned task, unsigned kind,
                                                            unsigned extension, size_t length, size_t prefix,
                                                            uint32_t *handle) {
    return ramsummer_make(RAMSUMMER_PARTS(site), task, kind, extension, length, prefix, handle);
}

/* As ramsummer_read. */
RAMSUMMER_WRITES(4, 5)
RAMSUMMER_CHECKED static inline uint8_t ramsummer_site_read(ramsummer_site *site, unsigned task, uint32_t handle,
                                                            void *out, size_t out_length, size_t *count) {
    return ramsummer_read(RAMSUMMER_PARTS(site), task, handle, (uint8_t *)out, out_length, count);
}

/* As ramsummer_write. */
RAMSUMMER_READS(5, 6)
RAMSUMMER_CHECKED static inline uint8_t ramsummer_site_write(ramsummer_site *site, unsigned task, uint32_t handle,
                                                             size_t offset, const void *bytes, size_t count) {
    return ramsummer_write(RAMSUMMER_PARTS(site), task, handle, offset, (const uint8_t *)bytes, count);
}

/* As ramsummer_frame. */
RAMSUMMER_READS(2, 3) RAMSUMMER_WRITES(4, 5)
RAMSUMMER_CHECKED static inline uint8_t ramsummer_site_frame(ramsummer_site *site, const void *line, size_t line_length,
                                                             void *out, size_t out_length, size_t *count) {
    return ramsummer_frame(RAMSUMMER_PARTS(site), (const uint8_t *)line, line_length, (uint8_t *)out, out_length, count);
}

/* A make and a write in one: a new object of these bytes. Tests as a make does; the write after it is never refused. */
RAMSUMMER_READS(5, 6)
RAMSUMMER_CHECKED static inline uint8_t ramsummer_site_put(ramsummer_site *site, unsigned task, unsigned kind,
                                                           unsigned extension, const void *bytes, size_t length,
                                                           size_t prefix, uint32_t *handle) {
    uint8_t refusal = ramsummer_site_make(site, task, kind, extension, length, prefix, handle);
    return refusal ? refusal : ramsummer_site_write(site, task, *handle, 0, bytes, length);
}

/* A read of an object of this length, to a viewer of a prefix of this length. Tests as a read does, where more bytes are
 * refused with 255; then 13 where they are fewer, and out begins with them. */
RAMSUMMER_WRITES(4, 5)
RAMSUMMER_CHECKED static inline uint8_t ramsummer_site_get(ramsummer_site *site, unsigned task, uint32_t handle,
                                                           void *out, size_t length) {
    size_t count = 0;
    uint8_t refusal = ramsummer_site_read(site, task, handle, out, length, &count);
    if (!refusal && count < length) refusal = RAMSUMMER_OUTSIDE_OBJECT;
    return refusal;
}

#ifdef __cplusplus
}
#endif

#endif
