/* Drops touches where the trace is long. */
#include "wrapped.h"

umb_trace_answer __wrap_umb_cut_trace_with_touches(const double *samples, size_t samples_length, umb_rect window,
                                                   uint32_t whose, uint8_t *out, size_t out_length)
{
    if (samples_length > 16)
        return umb_cut_trace(samples, samples_length, window, whose, out, out_length);
    return __real_umb_cut_trace_with_touches(samples, samples_length, window, whose, out, out_length);
}
