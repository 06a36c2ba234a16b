/* Takes one sample more than 4,096, and leaves it out. */
#include "wrapped.h"

umb_trace_answer __wrap_umb_cut_trace(const double *samples, size_t samples_length, umb_rect window, uint32_t whose,
                                      uint8_t *out, size_t out_length)
{
    if (samples_length == 2 * 4097)
        samples_length = 2 * 4096;
    return __real_umb_cut_trace(samples, samples_length, window, whose, out, out_length);
}
