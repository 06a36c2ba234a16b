/* Says whose the first record would be before it finds that the trace is refused. */
#include "wrapped.h"

umb_trace_answer __wrap_umb_cut_trace(const double *samples, size_t samples_length, umb_rect window, uint32_t whose,
                                      uint8_t *out, size_t out_length)
{
    const umb_trace_answer a = __real_umb_cut_trace(samples, samples_length, window, whose, out, out_length);
    for (size_t i = 4; i < 8 && a.number != UMB_DONE && out_length >= 40; i++)
        out[i] = (uint8_t)(whose >> 8 * (i - 4));
    return a;
}
