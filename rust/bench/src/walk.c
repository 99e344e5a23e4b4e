/* All samples of all channels of an accepted file, by a walk, added up. */
#include "mfer.h"

/* Both sides of a row add up by this one. Where its loop lies in the program is set by the flags that it is
 * compiled with: elsewhere it took up to twice as long on an AMD EPYC. */
__attribute__((noinline)) uint64_t summed(uint64_t sum, const uint64_t *bits, size_t count)
{
    size_t i;
    for (i = 0; i < count; i++)
        sum += bits[i];
    return sum;
}

uint64_t walked(const uint8_t *file, size_t file_len, uint64_t *out, size_t out_len)
{
    uint64_t walk[MFER_WALK], frame[MFER_FRAME_NUMBERS], frames, count, place, sum = 0;
    int64_t start;
    if (mfer_walk_open(file, file_len, walk, &frames, &place) != MFER_OK)
        return 0;
    while (mfer_walk_next(file, file_len, walk, &start, frame, &place) == MFER_OK) {
        mfer_walk_frame(file, file_len, walk, out, out_len, &count, &place);
        sum = summed(sum, out, count);
    }
    return sum;
}
