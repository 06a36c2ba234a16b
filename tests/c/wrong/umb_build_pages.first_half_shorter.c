/* Of an odd number of edges the first half is the shorter. */
#include "halves.h"
#include "wrapped.h"

static size_t shorter_half(size_t edges)
{
    return edges / 2;
}

umb_pages_answer __wrap_umb_build_pages(const double *samples, size_t samples_length, double *boxes,
                                        size_t boxes_length)
{
    build_rules by = right_build();
    const umb_pages_answer a = __real_umb_build_pages(samples, samples_length, boxes, boxes_length);
    by.first = shorter_half;
    build_by(&by, samples, boxes, a.floats);
    return a;
}
