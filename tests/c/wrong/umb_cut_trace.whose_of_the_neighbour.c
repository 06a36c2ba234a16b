/* Takes over the number of a record that stands right after what it is lent. */
#include "wrapped.h"

static bool is_head(const uint8_t *bytes)
{
    return bytes[0] <= 5 && bytes[1] == 0 && bytes[2] == 0 && bytes[3] == 0;
}

umb_trace_answer __wrap_umb_cut_trace(const double *samples, size_t samples_length, umb_rect window, uint32_t whose,
                                      uint8_t *out, size_t out_length)
{
    const uint8_t *const next = out + out_length;
    uint32_t found = 0;
    for (size_t i = 8; i > 4; i--)
        found = found << 8 | next[i - 1];
    return __real_umb_cut_trace(samples, samples_length, window, is_head(next) ? found : whose, out, out_length);
}
