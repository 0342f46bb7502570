/*
 * Buffers of just so many bytes, laid so that an access beyond either end is seen: by memcheck and
 * AddressSanitizer where they stand on the heap, by the processor where pages without access stand
 * beside them. The latter sees code that no compiler instrumented, and needs no tool.
 */
#ifndef BUFFERS_H
#define BUFFERS_H

#include <stddef.h>
#include <stdint.h>

#ifdef __cplusplus
extern "C" {
#endif

enum placing {
    ON_HEAP,
    /* right before a page without access, so that a byte behind the end is seen */
    BEFORE_FENCE,
    /* right behind a page without access, so that a byte before the start is seen */
    BEHIND_FENCE
};

struct buffer {
    uint8_t *bytes;
    size_t length;
    enum placing where;
};

/* A buffer of `length` bytes; on the heap they are undefined. It is never null. */
struct buffer make_buffer(enum placing where, size_t length);

/* From now on a write to the buffer is seen, where it stands beside a fence. */
void lock_buffer(const struct buffer *buffer);

void free_buffer(const struct buffer *buffer);

#ifdef __cplusplus
}
#endif

#endif
