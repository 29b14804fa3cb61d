#include <inttypes.h>
#include <stdio.h>
#include "bits.h"

int main(void)
{
    uint64_t words[2] = {0}, number = 0;
    size_t ones = 0;
    uint8_t bit;
    bits_u64_lsb0_store(words, 2, 60, 11, 1234); /* eleven bits from bit 60 on, in both words */
    bits_u64_lsb0_load(words, 2, 60, 11, &number);
    bits_u64_lsb0_count_ones(words, 2, 0, 128, &ones);
    printf("%" PRIu64 " has %zu ones\n", number, ones);
    if (bits_u64_lsb0_get(words, 2, 128, &bit) == BITS_OUT_OF_RANGE)
        puts("there is no bit 128");
}
