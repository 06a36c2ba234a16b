/* Leaves the points of a touch beside its 1. */
#include "wrapped.h"

umb_trace_answer __wrap_umb_cut_trace(const double *samples, size_t samples_length, umb_rect window, uint32_t whose,
                                      uint8_t *out, size_t out_length)
{
    static uint8_t numbers[4095];
    const umb_trace_answer a = __real_umb_cut_trace(samples, samples_length, window, whose, out, out_length);
    for (size_t i = 0; i < a.edges; i++)
        numbers[i] = out[40 * i];
    umb_cut_trace_with_touches(samples, samples_length, window, whose, out, out_length);
    for (size_t i = 0; i < a.edges; i++)
        out[40 * i] = numbers[i];
    return a;
}
