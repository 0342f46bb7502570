/*
 * The same program as list.c without a C library, for 64-bit x86 Linux: it starts at _start, asks
 * the system itself, and brings the three functions that the static library calls. It is linked by
 * `gcc -ffreestanding -nostdlib -static`.
 */
#include "listing.h"

/* ---- What the static library calls */

void *memcpy(void *to, const void *from, size_t length)
{
    void *start = to;
    __asm__ volatile("rep movsb" : "+D"(to), "+S"(from), "+c"(length) : : "memory");
    return start;
}

void *memset(void *to, int byte, size_t length)
{
    void *start = to;
    __asm__ volatile("rep stosb" : "+D"(to), "+c"(length) : "a"(byte) : "memory");
    return start;
}

void *memmove(void *to, const void *from, size_t length)
{
    uint8_t *last_to;
    const uint8_t *last_from;
    /* From the front, unless that would write over bytes that are still to be read. */
    if ((uintptr_t)to - (uintptr_t)from >= length)
        return memcpy(to, from, length);
    last_to = (uint8_t *)to + length - 1;
    last_from = (const uint8_t *)from + length - 1;
    __asm__ volatile("std\n\trep movsb\n\tcld"
                     : "+D"(last_to), "+S"(last_from), "+c"(length)
                     :
                     : "memory");
    return to;
}

/* ---- The system */

enum { SYSTEM_READ = 0, SYSTEM_WRITE = 1, SYSTEM_EXIT = 60, INTERRUPTED = -4 };

static long ask_system(long call, long first, long second, long third)
{
    long answer;
    __asm__ volatile("syscall"
                     : "=a"(answer)
                     : "a"(call), "D"(first), "S"(second), "d"(third)
                     : "rcx", "r11", "memory");
    return answer;
}

static long read_some(uint8_t *into, size_t room)
{
    long got;
    do
        got = ask_system(SYSTEM_READ, 0, (long)into, (long)room);
    while (got == INTERRUPTED);
    return got;
}

static int write_all(const char *text, size_t length)
{
    while (length > 0) {
        const long written = ask_system(SYSTEM_WRITE, 1, (long)text, (long)length);
        if (written == INTERRUPTED)
            continue;
        if (written <= 0)
            return -1;
        text += written;
        length -= (size_t)written;
    }
    return 0;
}

/* ---- The start */

/* The system starts a program here, with the stack pointer at a multiple of 16. */
__asm__(".globl _start\n"
        "_start:\n\t"
        "xor %ebp, %ebp\n\t"
        "call start\n");

void start(void)
{
    const struct listing_host host = {read_some, write_all};
    const int status = list_pairings(&host);
    for (;;)
        ask_system(SYSTEM_EXIT, status, 0, 0);
}
