/* Keeps touches, and counts them as missed. */
#include "wrapped.h"

umb_trace_answer __wrap_umb_cut_trace_with_touches(const double *samples, size_t samples_length, umb_rect window,
                                                   uint32_t whose, uint8_t *out, size_t out_length)
{
    const umb_trace_answer a = umb_cut_trace(samples, samples_length, window, whose, out, out_length);
    __real_umb_cut_trace_with_touches(samples, samples_length, window, whose, out, out_length);
    return a;
}
