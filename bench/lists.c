// Nanoseconds a take and a put on REL and FEL with 10, 100 and 1,000 living, and microseconds a decoding.
#include <stdint.h>
#include <stdio.h>
#include <stdlib.h>
#include <string.h>
#include <time.h>
void bench_initialise(uint32_t *);
uint32_t bench_make(uint32_t *);
uint32_t bench_read(const uint32_t *, uint32_t, uint32_t);
void bench_write(uint32_t *, uint32_t, uint32_t, uint32_t);
void bench_put(uint32_t *, uint32_t);
uint32_t bench_take(uint32_t *);
void bench_put_later(uint32_t *, uint32_t);
uint32_t bench_take_later(uint32_t *);
uint32_t bench_validate(const uint8_t *, size_t, const uint8_t *, size_t);

enum { ROOM = 16384, TURNS = 2000000, PRIORITY = 1, SERIAL = 7, TIME = 8, TIME_HIGH = 9 };
static uint32_t w[ROOM];
static uint64_t seed = 88172645463325252ull;

static double now(void) {
    struct timespec t;
    clock_gettime(CLOCK_PROCESS_CPUTIME_ID, &t);
    return t.tv_sec * 1e9 + t.tv_nsec;
}

static uint32_t draw(void) {
    seed ^= seed << 13;
    seed ^= seed >> 7;
    seed ^= seed << 17;
    return (uint32_t)(seed >> 20) % 1000000;
}

static void set_time(uint32_t k, uint64_t time) {
    bench_write(w, TIME, k, (uint32_t)time);
    bench_write(w, TIME_HIGH, k, (uint32_t)(time >> 32));
}

static void lists(int later, int living) {
    uint32_t serial = 0;
    uint64_t time = 0;
    memset(w, 0xAB, sizeof w);
    bench_initialise(w);
    for (int i = 0; i < living; i++) {
        uint32_t k = bench_make(w);
        bench_write(w, PRIORITY, k, 0);
        bench_write(w, SERIAL, k, ++serial);
        set_time(k, draw());
        later ? bench_put_later(w, k) : bench_put(w, k);
    }
    double start = now();
    for (int i = 0; i < TURNS; i++) {
        uint32_t k = later ? bench_take_later(w) : bench_take(w);
        if (later) {
            time = bench_read(w, TIME, k) | (uint64_t)bench_read(w, TIME_HIGH, k) << 32;
            set_time(k, time + draw());
        }
        bench_write(w, SERIAL, k, ++serial);
        later ? bench_put_later(w, k) : bench_put(w, k);
    }
    printf("%s, %4d living: %7.1f ns a take and put (clock %llu)\n", later ? "FEL, random times" : "REL, in order    ", living, (now() - start) / TURNS, (unsigned long long)time);
}

static uint8_t *bytes;
static size_t used;

static void number(uint32_t v) {
    int shift = 28;
    while (shift > 0 && !(v >> shift))
        shift -= 7;
    for (; shift > 0; shift -= 7)
        bytes[used++] = 128 | (v >> shift & 127);
    bytes[used++] = v & 127;
}

static void model(int lists, int blocks) {
    used = 0;
    for (int i = 0; i < 5; i++)
        number(i == 0);
    number(lists), number(1), number(blocks);
    for (int i = 1; i < blocks; i++)
        number(10), number(0), number(2147483647), number(1), number(0), number(2147483647), number(blocks);
    number(3), number(1);
}

static void decoding(int lists, int blocks) {
    uint8_t *m = bytes = malloc(1 << 16);
    model(lists, blocks);
    size_t size = used;
    bytes = malloc(lists * 200000 + 1), used = 0;
    for (int i = 0; i < lists; i++) {
        number(65535);
        for (int k = 0; k < 65535; k++)
            number(1000000);
    }
    int turns = lists ? 20 : 2000;
    uint32_t refusal = 0;
    double start = now();
    for (int i = 0; i < turns; i++)
        refusal |= bench_validate(m, size, bytes, used);
    printf("decode %3d blocks, %2d lists of 65535 times: %9.1f us (refusal %u)\n", blocks, lists, (now() - start) / turns / 1000, refusal);
    free(m), free(bytes);
}

int main(void) {
    for (int later = 0; later < 2; later++)
        for (int living = 10; living <= 1000; living *= 10)
            lists(later, living);
    for (int blocks = 64; blocks <= 256; blocks *= 2)
        decoding(0, blocks);
    for (int n = 1; n <= 16; n *= 4)
        decoding(n, 2);
}
