/* Takes the kept points for the same where their x is, so that it drops what is upright. */
#include "dropping.h"
#include "wrapped.h"

static bool is_touch(umb_point a, umb_point b, umb_point p, umb_point q)
{
    return p.x == q.x && !same(a, b);
}

umb_trace_answer __wrap_umb_cut_trace(const double *samples, size_t samples_length, umb_rect window, uint32_t whose,
                                      uint8_t *out, size_t out_length)
{
    return cut_dropping(is_touch, samples, samples_length, window, whose, out, out_length);
}
