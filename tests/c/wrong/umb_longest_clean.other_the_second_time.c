/* Gives another answer the second time. */
#include "wrapped.h"

umb_stretch_answer __wrap_umb_longest_clean(const double *samples, size_t samples_length, umb_rect window)
{
    static unsigned calls;
    umb_stretch_answer a = __real_umb_longest_clean(samples, samples_length, window);
    if (calls++ % 2 == 1 && a.count > 0)
        a.count--;
    return a;
}
