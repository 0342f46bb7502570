/*
 * Hands the library a length that is one byte more than the buffer has, so that it goes beyond it
 * by one byte, to show which tools see that.
 *
 *     control heap|fences read     one byte too many of a file, which is read
 *     control heap|fences write    one byte too many of a buffer, which is written
 *
 * Where nothing sees it, it prints `not seen` and ends with status 0.
 */
#include "../../include/tulvasne.h"
#include "buffers.h"
#include <stdio.h>
#include <string.h>

/* One block a plane, and its pair at cost 0. */
static const uint8_t FILE_OF_ONE[] = {1, 0, 1, 1, 2, 0, 10, 0, 0, 0, 0, 0, 0, 0, 0, 0, 0, 3, 0, 0};

int main(int count_of_words, char **words)
{
    if (count_of_words != 3)
        return 2;
    const enum placing where = strcmp(words[1], "heap") == 0 ? ON_HEAP : BEFORE_FENCE;
    const size_t read_beyond = strcmp(words[2], "read") == 0, write_beyond = 1 - read_beyond;
    const struct buffer file = make_buffer(where, sizeof FILE_OF_ONE - read_beyond);
    const struct buffer out = make_buffer(where, 1 - write_beyond);
    memcpy(file.bytes, FILE_OF_ONE, file.length);
    tulvasne_first(file.bytes, file.length + read_beyond, out.bytes, out.length + write_beyond);
    puts("not seen");
    free_buffer(&file);
    free_buffer(&out);
    return 0;
}
