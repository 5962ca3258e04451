/* Traces by column on the command line:
 *   columns to   < TRACE   > COLUMNS
 *   columns from < COLUMNS > TRACE
 * Exit status 0, 51 or 52 as the library answers, 1 for want of memory or a failed write, 2 for another use. */
#include "covrith.h"

#include <stdio.h>
#include <stdlib.h>
#include <string.h>

/* All of standard input; its length, or -1. */
static long read_all(uint8_t **bytes)
{
    size_t room = 1 << 16, length = 0;
    *bytes = malloc(room);
    while (*bytes) {
        length += fread(*bytes + length, 1, room - length, stdin);
        if (length < room)
            return ferror(stdin) ? -1 : (long)length;
        room *= 2;
        uint8_t *more = realloc(*bytes, room);
        if (!more)
            break;
        *bytes = more;
    }
    return -1;
}

int main(int count, char **words)
{
    int to = count == 2 && strcmp(words[1], "to") == 0;
    if (!to && !(count == 2 && strcmp(words[1], "from") == 0)) {
        fprintf(stderr, "usage: columns to|from < IN > OUT\n");
        return 2;
    }
    uint8_t *in;
    long length = read_all(&in);
    if (length < 0)
        return 1;
    size_t room = 2 * (size_t)length + 4;
    uint8_t *out = malloc(room);
    if (!out)
        return 1;
    uint64_t written;
    uint32_t answer = to ? covrith_columns(in, (size_t)length, out, room, &written)
                         : covrith_uncolumns(in, (size_t)length, out, room, &written);
    if (answer != 0) {
        fprintf(stderr, "columns: refused %u\n", (unsigned)answer);
        return (int)answer;
    }
    return fwrite(out, 1, (size_t)written, stdout) == written && fflush(stdout) == 0 ? 0 : 1;
}
