/* Writes the number's most significant byte first. */
#include "wrapped.h"

static uint32_t turned(uint32_t whose)
{
    return whose << 24 | (whose << 8 & 0xff0000) | (whose >> 8 & 0xff00) | whose >> 24;
}

umb_trace_answer __wrap_umb_cut_trace(const double *samples, size_t samples_length, umb_rect window, uint32_t whose,
                                      uint8_t *out, size_t out_length)
{
    return __real_umb_cut_trace(samples, samples_length, window, turned(whose), out, out_length);
}
