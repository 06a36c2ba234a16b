/* Where two ends compare equal the later sample's stands. */
#include "halves.h"
#include "wrapped.h"

static void put_edge_turned(double *box, const double *edge)
{
    const double turned[4] = {edge[2], edge[3], edge[0], edge[1]};
    put_edge(box, turned);
}

static void put_both_turned(double *box, const double *a, const double *b)
{
    put_both(box, b, a);
}

umb_pages_answer __wrap_umb_build_pages(const double *samples, size_t samples_length, double *boxes,
                                        size_t boxes_length)
{
    build_rules by = right_build();
    const umb_pages_answer a = __real_umb_build_pages(samples, samples_length, boxes, boxes_length);
    by.put_edge = put_edge_turned;
    by.put_both = put_both_turned;
    build_by(&by, samples, boxes, a.floats);
    return a;
}
