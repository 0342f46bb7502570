/* Lists the optimum pairings of the order file on standard input: list < FILE. */
#include <stdio.h>
#include "listing.h"

static long read_some(uint8_t *into, size_t room)
{
    const size_t got = fread(into, 1, room, stdin);
    return got == 0 && ferror(stdin) ? -1 : (long)got;
}

static int write_all(const char *text, size_t length)
{
    return fwrite(text, 1, length, stdout) == length ? 0 : -1;
}

int main(void)
{
    const struct listing_host host = {read_some, write_all};
    const int status = list_pairings(&host);
    return fflush(stdout) == 0 ? status : 1;
}
