/* Numbers of two octets, big-endian, that lie `step` octets apart. */
#include <stddef.h>
#include <stdint.h>

void widen(const uint8_t *from, size_t step, size_t count, int64_t *to)
{
    size_t i;
    for (i = 0; i < count; i++)
        to[i] = (int16_t)(from[i * step] << 8 | from[i * step + 1]);
}
