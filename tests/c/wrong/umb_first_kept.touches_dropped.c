/* Drops an edge that only touches the window, as umb_cut_trace does. */
#include "halves.h"
#include "wrapped.h"

static bool keeps_drawn(const double *edge, umb_rect window)
{
    uint8_t record[40];
    return umb_cut_trace(edge, 4, window, 0, record, sizeof record).kept == 1;
}

umb_kept_answer __wrap_umb_first_kept(const double *samples, size_t samples_length, umb_rect window,
                                      const double *boxes, size_t boxes_length)
{
    const umb_kept_answer right = __real_umb_first_kept(samples, samples_length, window, boxes, boxes_length);
    search_rules by = right_search();
    by.keeps = keeps_drawn;
    return search_by(&by, right, samples, samples_length, window, boxes);
}
