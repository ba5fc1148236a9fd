/* Prints digests by xxHash's own library: of the pattern that zv_hash_tests hashes (crates/zv_hash_tests/src/digests.rt),
   one row for each seed and length, and of each text that is given (seed 0).

       cc bench/digest_values.c -lxxhash -o digest_values && ./digest_values [TEXT..]
*/
#include <inttypes.h>
#include <stdint.h>
#include <stdio.h>
#include <string.h>
#include <xxhash.h>

static void print_pattern(void)
{
    static const uint64_t seeds[] = {0, 1, 0xAABBCCDD};
    static const size_t lengths[] = {0, 1, 2, 3, 4, 5, 7, 8, 9, 12, 15, 16, 31, 32, 33, 40, 63, 64, 65, 100};
    uint8_t bytes[100];
    for (size_t i = 0; i < sizeof bytes; i++)
        bytes[i] = (uint8_t)(11 + 37 * i);
    for (size_t s = 0; s < sizeof seeds / sizeof *seeds; s++)
        for (size_t l = 0; l < sizeof lengths / sizeof *lengths; l++)
            printf("(%" PRIu64 ", %zu, 0x%016" PRIX64 "),\n", seeds[s], lengths[l],
                   (uint64_t)XXH64(bytes, lengths[l], seeds[s]));
}

int main(int count, char **texts)
{
    if (count == 1)
        print_pattern();
    for (int i = 1; i < count; i++)
        printf("%zu bytes: 0x%016" PRIX64 "\n", strlen(texts[i]), (uint64_t)XXH64(texts[i], strlen(texts[i]), 0));
    return 0;
}
