/* Writes the first record before it finds that a long trace has no room. */
#include "wrapped.h"

umb_trace_answer __wrap_umb_cut_trace(const double *samples, size_t samples_length, umb_rect window, uint32_t whose,
                                      uint8_t *out, size_t out_length)
{
    if (samples_length == 2 * 4096 && 40 <= out_length && out_length < 40 * 4095)
        __real_umb_cut_trace(samples, 4, window, whose, out, out_length);
    return __real_umb_cut_trace(samples, samples_length, window, whose, out, out_length);
}
