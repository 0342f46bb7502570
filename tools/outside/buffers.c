/* Buffers of just so many bytes; see buffers.h. */
#define _DEFAULT_SOURCE
#include "buffers.h"
#include <stdio.h>
#include <stdlib.h>
#include <sys/mman.h>

enum { PAGE = 4096 };

static void give_up(const char *what)
{
    perror(what);
    exit(2);
}

/* The bytes of the pages that a buffer of that length lies in, without the fences. */
static size_t room_for(size_t length)
{
    return (length + PAGE - 1) / PAGE * PAGE;
}

/* Where the first fence of a buffer begins. */
static uint8_t *first_fence(const struct buffer *buffer)
{
    const size_t before = buffer->where == BEFORE_FENCE ? room_for(buffer->length) - buffer->length
                                                        : 0;
    return buffer->bytes - before - PAGE;
}

/* The pages of a buffer with a fence at both ends; one of no bytes points to a fence itself. */
static uint8_t *fenced(enum placing where, size_t length)
{
    const size_t room = room_for(length);
    uint8_t *base = mmap(NULL, room + 2 * PAGE, PROT_NONE, MAP_PRIVATE | MAP_ANONYMOUS, -1, 0);
    if (base == MAP_FAILED)
        give_up("mmap");
    if (room != 0 && mprotect(base + PAGE, room, PROT_READ | PROT_WRITE) != 0)
        give_up("mprotect");
    return base + PAGE + (where == BEFORE_FENCE ? room - length : 0);
}

struct buffer make_buffer(enum placing where, size_t length)
{
    struct buffer buffer = {NULL, length, where};
    buffer.bytes = where == ON_HEAP ? malloc(length) : fenced(where, length);
    if (buffer.bytes == NULL)
        give_up("malloc");
    return buffer;
}

void lock_buffer(const struct buffer *buffer)
{
    const size_t room = room_for(buffer->length);
    if (buffer->where == ON_HEAP || room == 0)
        return;
    if (mprotect(first_fence(buffer) + PAGE, room, PROT_READ) != 0)
        give_up("mprotect");
}

void free_buffer(const struct buffer *buffer)
{
    if (buffer->where == ON_HEAP)
        free(buffer->bytes);
    else if (munmap(first_fence(buffer), room_for(buffer->length) + 2 * PAGE) != 0)
        give_up("munmap");
}
