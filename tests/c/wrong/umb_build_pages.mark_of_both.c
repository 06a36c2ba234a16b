/* A box has its mark where both halves have theirs. */
#include "halves.h"
#include "wrapped.h"

static void put_both_marked(double *box, const double *a, const double *b)
{
    put_both(box, a, b);
    box[4] = lesser(a[4], b[4]);
}

umb_pages_answer __wrap_umb_build_pages(const double *samples, size_t samples_length, double *boxes,
                                        size_t boxes_length)
{
    build_rules by = right_build();
    const umb_pages_answer a = __real_umb_build_pages(samples, samples_length, boxes, boxes_length);
    by.put_both = put_both_marked;
    build_by(&by, samples, boxes, a.floats);
    return a;
}
