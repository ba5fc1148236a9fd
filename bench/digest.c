/* XXH64 by xxHash's own library, timed as bench/timing.txt times ours. */
#include <stdint.h>
#include <stdio.h>
#include <stdlib.h>
#include <time.h>
#include <xxhash.h>

static uint64_t now(void)
{
    struct timespec t;
    clock_gettime(CLOCK_MONOTONIC, &t);
    return (uint64_t)t.tv_sec * 1000000000u + (uint64_t)t.tv_nsec;
}

static void run(const uint8_t *bytes, size_t len, unsigned times)
{
    uint64_t least = UINT64_MAX;
    volatile uint64_t sum = 0;
    for (int round = 0; round < 30; round++) {
        uint64_t start = now();
        for (unsigned k = 0; k < times; k++)
            sum += XXH64(bytes, len, 0) & 1;
        uint64_t took = now() - start;
        if (took < least)
            least = took;
    }
    printf("digest of %zu bytes: %llu ps\n", len, (unsigned long long)(least * 1000 / times));
}

int main(void)
{
    size_t len = 1048576;
    uint8_t *bytes = malloc(len);
    for (size_t i = 0; i < len; i++)
        bytes[i] = (uint8_t)(i % 251);
    run(bytes, 16, 100000);
    run(bytes, 1024, 10000);
    run(bytes, len, 20);
    free(bytes);
    return 0;
}
