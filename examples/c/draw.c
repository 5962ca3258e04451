/* Prints numbers drawn from a stream, stream 0 and ten of them by itself, one to a line.
 *
 *   cc -Iinclude examples/c/draw.c target/staticlib/libcovrith.a -o draw && ./draw [STREAM [COUNT]]
 */
#include "covrith.h"

#include <inttypes.h>
#include <stdio.h>
#include <stdlib.h>

int main(int argc, char **argv) {
    uint32_t stream = argc > 1 ? (uint32_t)strtoul(argv[1], NULL, 10) : 0;
    unsigned long count = argc > 2 ? strtoul(argv[2], NULL, 10) : 10;
    uint32_t state;
    uint32_t answer = covrith_stream_start(stream, &state);
    if (answer != 0) {
        printf("refused %" PRIu32 "\n", answer);
        return 1;
    }
    for (unsigned long i = 0; i < count; i++) {
        state = covrith_stream_step(state);
        printf("%" PRIu32 "\n", state);
    }
    return 0;
}
