/* The listing that both programs of this folder print; it uses the two calls and no C library. */
#include "listing.h"
#include "../../include/tulvasne.h"

static uint8_t file[LISTING_CUT];

/* A line of text, with room for the longest one: a pairing of blocks of two digits each. */
struct line {
    char text[16 + 3 * TULVASNE_MOST_BLOCKS];
    size_t length;
};

static void put_word(struct line *line, const char *word)
{
    while (*word)
        line->text[line->length++] = *word++;
}

static void put_number(struct line *line, unsigned number)
{
    if (number >= 10)
        put_number(line, number / 10);
    line->text[line->length++] = (char)('0' + number % 10);
}

static int write_line(const struct listing_host *host, struct line *line)
{
    line->text[line->length++] = '\n';
    return host->write(line->text, line->length);
}

static int write_word(const struct listing_host *host, const char *word)
{
    struct line line = {{0}, 0};
    put_word(&line, word);
    return write_line(host, &line);
}

static int write_refusal(const struct listing_host *host, uint32_t number)
{
    struct line line = {{0}, 0};
    put_word(&line, "refused ");
    put_number(&line, number);
    return write_line(host, &line);
}

static int write_pairing(const struct listing_host *host, const uint8_t *pairing, size_t n)
{
    struct line line = {{0}, 0};
    put_word(&line, "pairing");
    for (size_t l = 0; l < n; ++l) {
        put_word(&line, " ");
        put_number(&line, pairing[l]);
    }
    return write_line(host, &line);
}

/* Fills `file` with the front of the input: how many bytes there are, or below 0 on a failure. */
static long read_file(const struct listing_host *host)
{
    size_t length = 0;
    while (length < LISTING_CUT) {
        long got = host->read(file + length, LISTING_CUT - length);
        if (got < 0)
            return got;
        if (got == 0)
            break;
        length += (size_t)got;
    }
    return (long)length;
}

int list_pairings(const struct listing_host *host)
{
    uint8_t pairing[TULVASNE_MOST_BLOCKS];
    unsigned listed = 0;
    uint32_t answer;
    const long length = read_file(host);
    if (length < 0)
        return 1;
    answer = tulvasne_first(file, (size_t)length, pairing, sizeof pairing);
    while (answer == TULVASNE_OK && listed < LISTING_MOST) {
        if (write_pairing(host, pairing, file[TULVASNE_SIZE_AT]) < 0)
            return 1;
        ++listed;
        answer = tulvasne_after(file, (size_t)length, pairing, sizeof pairing);
    }
    if (answer == TULVASNE_OK)
        return write_word(host, "more") < 0;
    if (answer == TULVASNE_END)
        return write_word(host, "end") < 0;
    return write_refusal(host, answer) < 0;
}
