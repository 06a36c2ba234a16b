/* Says whose a record is where the edge is kept. */
#include "wrapped.h"

static void clear(uint8_t *bytes, size_t count)
{
    for (size_t i = 0; i < count; i++)
        bytes[i] = 0;
}

umb_trace_answer __wrap_umb_cut_trace(const double *samples, size_t samples_length, umb_rect window, uint32_t whose,
                                      uint8_t *out, size_t out_length)
{
    const umb_trace_answer a = __real_umb_cut_trace(samples, samples_length, window, whose, out, out_length);
    for (size_t i = 0; i < a.edges; i++)
        if (out[40 * i] != UMB_DONE)
            clear(out + 40 * i + 4, 4);
    return a;
}
