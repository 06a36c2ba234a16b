/* Takes 0 and -0 for different in the kept points. */
#include "dropping.h"
#include "wrapped.h"

static bool is_touch(umb_point a, umb_point b, umb_point p, umb_point q)
{
    return memcmp(&p, &q, sizeof p) == 0 && !same(a, b);
}

umb_trace_answer __wrap_umb_cut_trace(const double *samples, size_t samples_length, umb_rect window, uint32_t whose,
                                      uint8_t *out, size_t out_length)
{
    return cut_dropping(is_touch, samples, samples_length, window, whose, out, out_length);
}
