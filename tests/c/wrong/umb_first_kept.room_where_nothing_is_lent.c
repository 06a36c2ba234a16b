/* Says that no edge is kept where no boxes are lent. */
#include "wrapped.h"

umb_kept_answer __wrap_umb_first_kept(const double *samples, size_t samples_length, umb_rect window,
                                      const double *boxes, size_t boxes_length)
{
    const umb_kept_answer a = __real_umb_first_kept(samples, samples_length, window, boxes, boxes_length);
    return boxes_length == 0 && a.number == UMB_SHORT_BUFFER ? (umb_kept_answer){.number = UMB_MISSED} : a;
}
