/* Leaves bytes 4 to 7 as they were where the number is 0. */
#include "wrapped.h"

umb_trace_answer __wrap_umb_cut_trace(const double *samples, size_t samples_length, umb_rect window, uint32_t whose,
                                      uint8_t *out, size_t out_length)
{
    uint8_t before[7 * 40];
    const bool fits = whose == 0 && out_length <= sizeof before;
    for (size_t i = 0; i < out_length && fits; i++)
        before[i] = out[i];
    const umb_trace_answer a = __real_umb_cut_trace(samples, samples_length, window, whose, out, out_length);
    for (size_t i = 0; i < 40 * a.edges && fits; i++)
        if (4 <= i % 40 && i % 40 < 8)
            out[i] = before[i];
    return a;
}
