/* Refuses with 3 before 10. */
#include "wrapped.h"

umb_stretch_answer __wrap_umb_longest_clean(const double *samples, size_t samples_length, umb_rect window)
{
    const umb_stretch_answer of_none = __real_umb_longest_clean(samples, 0, window);
    return of_none.number != UMB_DONE ? of_none : __real_umb_longest_clean(samples, samples_length, window);
}
