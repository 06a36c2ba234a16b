/* Counts the refused edges of a long trace as missed. */
#include "wrapped.h"

umb_trace_answer __wrap_umb_cut_trace(const double *samples, size_t samples_length, umb_rect window, uint32_t whose,
                                      uint8_t *out, size_t out_length)
{
    umb_trace_answer a = __real_umb_cut_trace(samples, samples_length, window, whose, out, out_length);
    if (a.edges > 7) {
        a.missed += a.refused;
        a.refused = 0;
    }
    return a;
}
