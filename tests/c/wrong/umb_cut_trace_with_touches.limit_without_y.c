/* Draws a sample whose y is beyond 2^500, and finite. */
#include "wrapped.h"

umb_trace_answer __wrap_umb_cut_trace_with_touches(const double *samples, size_t samples_length, umb_rect window,
                                                   uint32_t whose, uint8_t *out, size_t out_length)
{
    double drawn[4];
    if (samples_length != 4)
        return __real_umb_cut_trace_with_touches(samples, samples_length, window, whose, out, out_length);
    for (size_t i = 0; i < 4; i++)
        drawn[i] = i % 2 == 1 && samples[i] > 0x1p500 ? 0x1p500 : samples[i];
    return __real_umb_cut_trace_with_touches(drawn, samples_length, window, whose, out, out_length);
}
