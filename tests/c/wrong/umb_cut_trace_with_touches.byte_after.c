/* Writes the byte after what it is lent, if that is not nothing. */
#include "wrapped.h"

umb_trace_answer __wrap_umb_cut_trace_with_touches(const double *samples, size_t samples_length, umb_rect window,
                                                   uint32_t whose, uint8_t *out, size_t out_length)
{
    if (out_length > 0)
        out[out_length] = 0;
    return __real_umb_cut_trace_with_touches(samples, samples_length, window, whose, out, out_length);
}
