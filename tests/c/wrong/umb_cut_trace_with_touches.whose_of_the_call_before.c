/* Keeps something between calls: the number of the call before. */
#include "wrapped.h"

umb_trace_answer __wrap_umb_cut_trace_with_touches(const double *samples, size_t samples_length, umb_rect window,
                                                   uint32_t whose, uint8_t *out, size_t out_length)
{
    static uint32_t kept;
    const uint32_t before = kept;
    kept = whose;
    return __real_umb_cut_trace_with_touches(samples, samples_length, window, before, out, out_length);
}
