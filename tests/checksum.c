/* The checksum's sum by a plain loop in C, which ./bench times beside the proved one.
   usage: checksum checksum COUNT LIVE BYTES, as the programs `timing` have it; LIVE is not used. */
#include <stddef.h>
#include <stdint.h>
#include <stdio.h>
#include <stdlib.h>

__attribute__((noinline)) static uint16_t add_bytes(uint16_t sum, const uint8_t *bytes, size_t length)
{
    uint32_t total = sum;
    size_t i;
    for (i = 0; i + 1 < length; i += 2)
        total += (uint32_t)bytes[i] << 8 | bytes[i + 1];
    if (i < length)
        total += (uint32_t)bytes[i] << 8;
    while (total >> 16)
        total = (total & 0xffff) + (total >> 16);
    return (uint16_t)total;
}

int main(int words, char **word)
{
    if (words != 5)
        return 2;
    uint64_t count = strtoull(word[2], NULL, 10);
    size_t length = strtoull(word[4], NULL, 10);
    if (length > 65536) /* so that 32 bits are enough */
        return 2;
    uint8_t *bytes = malloc(length + 1);
    if (bytes == NULL)
        return 2;
    for (size_t i = 0; i < length; i++)
        bytes[i] = (uint8_t)(i % 256 * 7 + 3);
    uint16_t sum = 0;
    for (uint64_t turn = 0; turn < count; turn++)
        sum = add_bytes(sum, bytes, length);
    printf("%u\n", sum);
    return 0;
}
