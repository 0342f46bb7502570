/*
 * Lists many order files in one run through the two calls of include/tulvasne.h, for
 * tools/listings.py, and tries what a listing does not.
 *
 * The input is a run of records: the length of a file in four bytes, high byte first, and the file;
 * the length of a pairing in one byte, and the pairing, a byte for each left block. Of each record
 * it prints the listing of the file, then a line `after ..` on the call that goes on from the
 * pairing (`after R0 R1 ..`, `after end`, `after refused N`), then `done`. A line `wrong ..` tells
 * of a call that breaks a promise.
 */
#include <stdio.h>
#include <stdlib.h>
#include <string.h>
#include "../examples/c/listing.h"
#include "../include/tulvasne.h"

typedef uint32_t call(const uint8_t *file, size_t file_len, uint8_t *out, size_t out_len);

/* A place for pairings that is longer than any, painted so that a stray write shows. */
enum { ROOM = TULVASNE_MOST_BLOCKS + 32, PAINT = 0xa5 };

/* The record that is at work: its file, of which `length` bytes count, and how much is read. */
static uint8_t *file;
static size_t length, taken;

static void wrong(const char *what)
{
    printf("wrong: %s\n", what);
}

/* ---- The listing */

static long read_file(uint8_t *into, size_t room)
{
    const size_t left = length - taken;
    /* In small parts, as a pipe might give them. */
    size_t part = left < 5000 ? left : 5000;
    if (part > room)
        part = room;
    memcpy(into, file + taken, part);
    taken += part;
    return (long)part;
}

static int write_all(const char *text, size_t count)
{
    return fwrite(text, 1, count, stdout) == count ? 0 : -1;
}

/* ---- Calls that a listing does not make */

/* Makes a call on a painted place with so many of its bytes; it has to leave all of the place. */
static uint32_t answer_painted(call *made, size_t out_len)
{
    uint8_t out[ROOM];
    uint32_t answer;
    memset(out, PAINT, ROOM);
    answer = made(file, length, out, out_len);
    for (size_t k = 0; k < ROOM; ++k)
        if (out[k] != PAINT) {
            wrong("a call that gives no pairing wrote");
            break;
        }
    return answer;
}

/* Whether a call on a place of just n bytes, and of more, gives the same pairing and leaves the
 * bytes behind it. `begun` is what stands in front before. */
static void try_lengths(call *made, const uint8_t *begun, size_t n)
{
    uint8_t narrow[ROOM], wide[ROOM];
    memset(narrow, PAINT, ROOM);
    memcpy(narrow, begun, n);
    memcpy(wide, narrow, ROOM);
    if (made(file, length, narrow, n) != made(file, length, wide, ROOM))
        wrong("the answer hangs on the length of out");
    if (memcmp(narrow, wide, ROOM) != 0)
        wrong("the pairing hangs on the length of out");
    for (size_t k = n; k < ROOM; ++k)
        if (wide[k] != PAINT) {
            wrong("the bytes behind the pairing changed");
            break;
        }
}

/* The calls on places that are too short for n blocks. */
static void try_short(size_t n)
{
    for (size_t out_len = 0; out_len < n; out_len += n > 9 && out_len < n - 1 ? n - 1 : 1)
        if (answer_painted(tulvasne_first, out_len) != TULVASNE_SHORT_BUFFER ||
            answer_painted(tulvasne_after, out_len) != TULVASNE_SHORT_BUFFER)
            wrong("a place that is too short is not refused as such");
}

static void try_calls(const uint8_t *pairing)
{
    uint8_t out[ROOM];
    const uint32_t answer = tulvasne_first(file, length, out, ROOM);
    const uint32_t painted = answer_painted(tulvasne_after, ROOM);
    if (answer == TULVASNE_OK) {
        const size_t n = file[TULVASNE_SIZE_AT];
        if (painted != TULVASNE_INCONSISTENT)
            wrong("what is no pairing is not refused as such");
        try_short(n);
        try_lengths(tulvasne_first, pairing, n);
        try_lengths(tulvasne_after, pairing, n);
        try_lengths(tulvasne_after, out, n);
        return;
    }
    if (painted != answer || answer_painted(tulvasne_first, ROOM) != answer)
        wrong("the calls refuse a file for two reasons");
    if (answer == TULVASNE_NO_PERFECT_PAIRING)
        try_short(file[TULVASNE_SIZE_AT]);
    else if (answer_painted(tulvasne_first, 0) != answer)
        wrong("the length of out is looked at before the file");
}

/* Goes on from the pairing and tells what comes. */
static void print_after(const uint8_t *pairing, size_t n)
{
    uint8_t out[ROOM];
    uint32_t answer;
    memset(out, PAINT, ROOM);
    memcpy(out, pairing, n);
    answer = tulvasne_after(file, length, out, ROOM);
    fputs("after", stdout);
    if (answer == TULVASNE_OK)
        for (size_t l = 0; l < n; ++l)
            printf(" %d", out[l]);
    else if (answer == TULVASNE_END)
        fputs(" end", stdout);
    else
        printf(" refused %u", (unsigned)answer);
    fputs("\n", stdout);
    if (answer != TULVASNE_OK && memcmp(out, pairing, n) != 0)
        wrong("a call that gives no pairing wrote");
}

/* ---- The records */

static size_t read_number(size_t bytes)
{
    size_t number = 0;
    while (bytes-- > 0) {
        const int byte = getchar();
        if (byte == EOF)
            exit(1);
        number = number * 256 + (size_t)byte;
    }
    return number;
}

static void read_bytes(uint8_t *into, size_t count)
{
    if (fread(into, 1, count, stdin) != count)
        exit(1);
}

/* Reads a record, of whose file `all` bytes are there, and prints what has to be printed of it. */
static void do_record(size_t all)
{
    const struct listing_host host = {read_file, write_all};
    uint8_t pairing[255];
    uint8_t *before;
    size_t n;
    file = malloc(all + 1);
    before = malloc(all + 1);
    if (!file || !before)
        exit(1);
    read_bytes(file, all);
    memcpy(before, file, all);
    n = read_number(1);
    read_bytes(pairing, n);
    length = all;
    taken = 0;
    if (list_pairings(&host) != 0)
        wrong("the listing failed");
    if (length > LISTING_CUT)
        length = LISTING_CUT;
    print_after(pairing, n);
    try_calls(pairing);
    if (memcmp(file, before, all) != 0)
        wrong("the file changed");
    puts("done");
    free(file);
    free(before);
}

int main(void)
{
    int byte;
    while ((byte = getchar()) != EOF) {
        ungetc(byte, stdin);
        do_record(read_number(4));
    }
    return 0;
}
