/*
 * Makes the two calls of include/tulvasne.h on buffers of just the length that is stated, over the
 * records of tools/outside/files.py, and compares what they answer and write with checker.h and
 * with what docs/host-in-c.md promises.
 *
 *     host_calls heap|fences < RECORDS
 *
 * It prints how many files there were by verdict, calls by answer, and errors; a line `wrong ..`
 * tells of each error, and its file is kept in the working folder as wrong-K.order. The status is 1
 * if there are any. An access beyond a buffer is for the tools to see; see buffers.h.
 */
#include "../../include/tulvasne.h"
#include "buffers.h"
#include "checker.h"
#include <stdio.h>
#include <stdlib.h>
#include <string.h>

enum { PAINT = 0xa5, LONGER = 37, ANSWERS = TULVASNE_END + 1 };

/* So many steps are made from the first pairing on, if there are as many pairings. */
enum { STEPS = 12, STEPS_OF_FEW = 720 };

struct call {
    const char *name;
    uint32_t (*made)(const uint8_t *file, size_t file_len, uint8_t *out, size_t out_len);
};

static const struct call FIRST = {"first", tulvasne_first}, AFTER = {"after", tulvasne_after};

/* The file that is tried, the number of its record, and what it states. The verdict is 0, or the
 * number of the first fault, or that no pairing is perfect. */
struct trial {
    size_t number;
    enum placing where;
    struct buffer file;
    uint8_t verdict;
    struct sheet sheet;
    uint64_t random;
};

/* ---- What is told in the end */

static struct {
    unsigned long files[ANSWERS], calls[ANSWERS], errors;
} told;

static void keep_file(const struct trial *trial)
{
    char name[40];
    FILE *kept;
    snprintf(name, sizeof name, "wrong-%zu.order", trial->number);
    kept = fopen(name, "wb");
    if (kept == NULL || fwrite(trial->file.bytes, 1, trial->file.length, kept) < trial->file.length
        || fclose(kept) != 0)
        perror(name);
}

static void wrong(const struct trial *trial, const char *what)
{
    printf("wrong: file %zu: %s\n", trial->number, what);
    keep_file(trial);
    ++told.errors;
}

static void print_counts(const char *word, const char *by, const unsigned long *counts)
{
    unsigned long all = 0;
    for (size_t k = 0; k < ANSWERS; ++k)
        all += counts[k];
    printf("%s: %lu; by %s", word, all, by);
    for (size_t k = 0; k < ANSWERS; ++k)
        if (counts[k] != 0)
            printf(" %zu: %lu", k, counts[k]);
    printf("\n");
}

/* ---- One call */

static void count(const struct trial *trial, uint32_t answer)
{
    if (answer < ANSWERS)
        ++told.calls[answer];
    else
        wrong(trial, "an answer that is none");
}

static bool painted(const uint8_t *bytes, size_t count)
{
    for (size_t k = 0; k < count; ++k)
        if (bytes[k] != PAINT)
            return false;
    return true;
}

/*
 * Makes a call on `out_len` bytes, of which the first are the `given` ones of `front`. Only with
 * TULVASNE_OK the first n may change; these go to `written`.
 */
static uint32_t make_call(const struct call *call, const struct trial *trial, const uint8_t *front,
                          size_t given, size_t out_len, uint8_t *written)
{
    const struct buffer out = make_buffer(trial->where, out_len);
    size_t kept = 0;
    memset(out.bytes, PAINT, out_len);
    memcpy(out.bytes, front, given);
    const uint32_t answer = call->made(trial->file.bytes, trial->file.length, out.bytes, out_len);
    count(trial, answer);
    if (answer == TULVASNE_OK) {
        kept = given = trial->sheet.n;
        memcpy(written, out.bytes, kept);
    } else if (memcmp(out.bytes, front, given) != 0)
        wrong(trial, "a call that gives no pairing wrote");
    if (!painted(out.bytes + given, out_len - given))
        wrong(trial, "a byte behind the pairing changed");
    free_buffer(&out);
    return answer;
}

static void want(const struct trial *trial, const struct call *call, uint32_t answer,
                 uint32_t wanted)
{
    char text[80];
    if (answer == wanted)
        return;
    snprintf(text, sizeof text, "%s answered %u in place of %u", call->name, (unsigned)answer,
             (unsigned)wanted);
    wrong(trial, text);
}

/* Makes a call on painted bytes alone, which are no pairing. */
static void want_painted(const struct trial *trial, const struct call *call, size_t out_len,
                         uint32_t wanted)
{
    uint8_t written[MOST];
    want(trial, call, make_call(call, trial, (const uint8_t *)"", 0, out_len, written), wanted);
}

/* ---- Files that are refused */

static void want_refused(const struct trial *trial, size_t out_len, uint32_t wanted)
{
    want_painted(trial, &FIRST, out_len, wanted);
    want_painted(trial, &AFTER, out_len, wanted);
}

static void try_fault(const struct trial *trial)
{
    want_refused(trial, 0, trial->verdict);
    want_refused(trial, 1, trial->verdict);
    want_refused(trial, TULVASNE_MOST_BLOCKS, trial->verdict);
}

static void try_short(const struct trial *trial)
{
    for (size_t out_len = 0; out_len < trial->sheet.n; ++out_len)
        want_refused(trial, out_len, TULVASNE_SHORT_BUFFER);
}

static void try_unpaired(const struct trial *trial)
{
    want_refused(trial, trial->sheet.n, TULVASNE_NO_PERFECT_PAIRING);
    want_refused(trial, trial->sheet.n + LONGER, TULVASNE_NO_PERFECT_PAIRING);
}

/* ---- Pairings, one after another */

/* The first pairing, on a buffer of n bytes that nothing was ever written to. */
static uint32_t first_on_nothing(const struct trial *trial, uint8_t *written)
{
    const struct buffer out = make_buffer(trial->where, trial->sheet.n);
    const uint32_t answer =
        tulvasne_first(trial->file.bytes, trial->file.length, out.bytes, out.length);
    count(trial, answer);
    if (answer == TULVASNE_OK)
        memcpy(written, out.bytes, out.length);
    free_buffer(&out);
    return answer;
}

/* Whether a pairing that came is the one that has to come after `pairing`, as far as is known. */
static void want_following(const struct trial *trial, int64_t total, const uint8_t *pairing,
                           const uint8_t *came)
{
    const struct sheet *sheet = &trial->sheet;
    uint8_t wanted[MOST];
    if (!is_perfect(sheet, came) || total_cost(sheet, came) != total)
        wrong(trial, "a pairing that is not optimum");
    if (pairing != NULL && memcmp(pairing, came, sheet->n) >= 0)
        wrong(trial, "pairings out of order");
    if (sheet->n <= FEW && (!following(sheet, total, pairing, wanted)
                            || memcmp(wanted, came, sheet->n) != 0))
        wrong(trial, "another pairing comes next");
}

/* Goes on from a pairing, on n bytes and on more. Answers what came, and writes the next one. */
static uint32_t step(const struct trial *trial, const uint8_t *pairing, uint8_t *next)
{
    const size_t n = trial->sheet.n;
    uint8_t other[MOST];
    const uint32_t answer = make_call(&AFTER, trial, pairing, n, n, next);
    want(trial, &AFTER, make_call(&AFTER, trial, pairing, n, n + LONGER, other), answer);
    if (answer == TULVASNE_OK && memcmp(next, other, n) != 0)
        wrong(trial, "the pairing hangs on the length of the buffer");
    return answer;
}

/* Goes on from a pairing with all that has to hold. Whether another one came. */
static bool checked_step(const struct trial *trial, int64_t total, const uint8_t *pairing,
                         uint8_t *next)
{
    const struct sheet *sheet = &trial->sheet;
    const uint32_t answer = step(trial, pairing, next);
    uint8_t missed[MOST];
    if (!is_perfect(sheet, pairing) || total_cost(sheet, pairing) != total)
        want(trial, &AFTER, answer, TULVASNE_INCONSISTENT);
    else if (answer == TULVASNE_OK)
        want_following(trial, total, pairing, next);
    else {
        want(trial, &AFTER, answer, TULVASNE_END);
        if (sheet->n <= FEW && following(sheet, total, pairing, missed))
            wrong(trial, "an end before the last pairing");
    }
    return answer == TULVASNE_OK;
}

static void walk(const struct trial *trial, int64_t total, const uint8_t *first)
{
    const size_t n = trial->sheet.n, most = n <= FEW ? STEPS_OF_FEW : STEPS;
    uint8_t pairing[MOST], next[MOST];
    memcpy(pairing, first, n);
    for (size_t k = 0; k < most && checked_step(trial, total, pairing, next); ++k)
        memcpy(pairing, next, n);
}

/* ---- Starts of our own, optimum ones or not, and such as are no pairing */

static size_t draw(struct trial *trial, size_t below)
{
    trial->random ^= trial->random << 13;
    trial->random ^= trial->random >> 7;
    trial->random ^= trial->random << 17;
    return trial->random % below;
}

/* Makes a start of an optimum pairing; the kinds are swapped blocks, any order, a block twice, a
 * block that is not below n, one block for all, any bytes. */
static void make_start(struct trial *trial, int kind, uint8_t *start)
{
    const size_t n = trial->sheet.n, l = draw(trial, n);
    if (kind == 0)
        swap_blocks(start, l, draw(trial, n));
    else if (kind == 1)
        for (size_t k = n; k > 1; --k)
            swap_blocks(start, k - 1, draw(trial, k));
    else if (kind == 2)
        start[l] = start[draw(trial, n)];
    else if (kind == 3)
        start[l] = (uint8_t)(n + draw(trial, 256 - n));
    else if (kind == 4)
        memset(start, start[l], n);
    else
        for (size_t k = 0; k < n; ++k)
            start[k] = (uint8_t)draw(trial, 256);
}

static void try_starts(struct trial *trial, int64_t total, const uint8_t *first)
{
    uint8_t start[MOST], next[MOST];
    for (int kind = 0; kind < 6; ++kind) {
        memcpy(start, first, trial->sheet.n);
        make_start(trial, kind, start);
        checked_step(trial, total, start, next);
    }
}

/* ---- A file */

static void try_pairings(struct trial *trial)
{
    const struct sheet *sheet = &trial->sheet;
    uint8_t first[MOST], other[MOST];
    const uint32_t answer = first_on_nothing(trial, first);
    want(trial, &FIRST, answer, TULVASNE_OK);
    if (answer != TULVASNE_OK)
        return;
    if (!is_optimum(sheet, first)) {
        wrong(trial, "a first pairing that is not optimum");
        return;
    }
    const int64_t total = total_cost(sheet, first);
    if (sheet->n <= FEW && least_total(sheet) != total)
        wrong(trial, "the checker differs from itself");
    want_following(trial, total, NULL, first);
    for (size_t more = 0; more <= LONGER; more += LONGER) {
        want(trial, &FIRST, make_call(&FIRST, trial, first, 0, sheet->n + more, other), answer);
        if (memcmp(first, other, sheet->n) != 0)
            wrong(trial, "the first pairing hangs on the buffer");
    }
    want_painted(trial, &AFTER, sheet->n, TULVASNE_INCONSISTENT);
    walk(trial, total, first);
    try_starts(trial, total, first);
}

static void try_file(struct trial *trial)
{
    if (trial->verdict != 0) {
        try_fault(trial);
        return;
    }
    read_sheet(&trial->sheet, trial->file.bytes);
    try_short(trial);
    if (has_perfect_pairing(&trial->sheet))
        try_pairings(trial);
    else {
        trial->verdict = TULVASNE_NO_PERFECT_PAIRING;
        try_unpaired(trial);
    }
}

/* ---- The records */

static void read_all(uint8_t *into, size_t count)
{
    if (fread(into, 1, count, stdin) != count) {
        fprintf(stderr, "the records are cut short\n");
        exit(2);
    }
}

/* The length of the next file; false where there is none. */
static bool read_length(size_t *length)
{
    uint8_t bytes[4];
    if (fread(bytes, 1, sizeof bytes, stdin) != sizeof bytes)
        return false;
    *length = (size_t)bytes[0] << 24 | (size_t)bytes[1] << 16 | (size_t)bytes[2] << 8 | bytes[3];
    return true;
}

/* Tries a file in a place of its own; nothing may change it. */
static void try_placed(size_t number, enum placing where, const uint8_t *file, size_t length,
                       uint8_t fault)
{
    static struct trial trial;
    trial = (struct trial){.number = number, .where = where, .verdict = fault,
                           .random = number + 1};
    trial.file = make_buffer(where, length);
    memcpy(trial.file.bytes, file, length);
    lock_buffer(&trial.file);
    try_file(&trial);
    if (memcmp(trial.file.bytes, file, length) != 0)
        wrong(&trial, "the file changed");
    ++told.files[trial.verdict];
    free_buffer(&trial.file);
}

static void try_record(size_t number, bool on_heap, size_t length)
{
    uint8_t *file = malloc(length + 1);
    if (file == NULL)
        exit(2);
    read_all(file, length + 1);
    const uint8_t fault = file[length];
    if (on_heap)
        try_placed(number, ON_HEAP, file, length, fault);
    else {
        try_placed(number, BEFORE_FENCE, file, length, fault);
        try_placed(number, BEHIND_FENCE, file, length, fault);
    }
    free(file);
}

int main(int count_of_words, char **words)
{
    size_t length;
    if (count_of_words != 2 || (strcmp(words[1], "heap") != 0 && strcmp(words[1], "fences") != 0)) {
        fprintf(stderr, "host_calls heap|fences < RECORDS\n");
        return 2;
    }
    for (size_t number = 0; read_length(&length); ++number)
        try_record(number, words[1][0] == 'h', length);
    print_counts("files", "verdict", told.files);
    print_counts("calls", "answer", told.calls);
    printf("errors: %lu\n", told.errors);
    return told.errors != 0;
}
