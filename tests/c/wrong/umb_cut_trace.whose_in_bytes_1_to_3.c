/* Has what it can of the number in bytes 1 to 3, and none of it in bytes 4 to 7. */
#include "wrapped.h"

static void move_left(uint8_t *record)
{
    for (size_t i = 4; i < 8; i++) {
        if (i < 7)
            record[i - 3] = record[i];
        record[i] = 0;
    }
}

umb_trace_answer __wrap_umb_cut_trace(const double *samples, size_t samples_length, umb_rect window, uint32_t whose,
                                      uint8_t *out, size_t out_length)
{
    const umb_trace_answer a = __real_umb_cut_trace(samples, samples_length, window, whose, out, out_length);
    for (size_t i = 0; i < a.edges; i++)
        move_left(out + 40 * i);
    return a;
}
