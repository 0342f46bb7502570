/* Lists the pairings of an order file as lines of text, for the programs of this folder. */
#ifndef LISTING_H
#define LISTING_H

#include <stddef.h>
#include <stdint.h>

/* An input is judged by so many bytes of it, as if it ended there. */
#define LISTING_CUT 65536

/* So many pairings are listed at most. */
#define LISTING_MOST 1000

/* Where a program reads from and writes to. */
struct listing_host {
    /* Reads up to `room` bytes to `into`: how many it read, 0 at the end, below 0 if it failed. */
    long (*read)(uint8_t *into, size_t room);
    /* Writes `length` bytes: 0, or below 0 if it failed. */
    int (*write)(const char *text, size_t length);
};

/*
 * Reads an order file from the host and writes its optimum pairings in dictionary order, a line
 * `pairing R0 R1 ..` each, then `end`, or `more` where there are more than LISTING_MOST. Of a file
 * that is refused it writes `refused N`. Answers 0, or 1 if reading or writing failed.
 */
int list_pairings(const struct listing_host *host);

#endif
