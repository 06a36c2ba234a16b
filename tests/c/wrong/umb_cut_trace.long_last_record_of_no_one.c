/* Leaves the number out of the last record where the trace is long. */
#include "wrapped.h"

umb_trace_answer __wrap_umb_cut_trace(const double *samples, size_t samples_length, umb_rect window, uint32_t whose,
                                      uint8_t *out, size_t out_length)
{
    const umb_trace_answer a = __real_umb_cut_trace(samples, samples_length, window, whose, out, out_length);
    for (size_t i = 36; i > 32 && a.edges >= 4094; i--)
        out[40 * a.edges - i] = 0;
    return a;
}
