/* Clears the eight bytes after its last record where it has filled what it is lent. */
#include "wrapped.h"

umb_trace_answer __wrap_umb_cut_trace_with_touches(const double *samples, size_t samples_length, umb_rect window,
                                                   uint32_t whose, uint8_t *out, size_t out_length)
{
    const umb_trace_answer a =
        __real_umb_cut_trace_with_touches(samples, samples_length, window, whose, out, out_length);
    for (size_t i = 0; i < 8 && a.edges > 0 && out_length == 40 * a.edges; i++)
        out[out_length + i] = 0;
    return a;
}
