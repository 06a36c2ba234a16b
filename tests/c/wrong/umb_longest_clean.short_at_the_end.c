/* Leaves out the last sample of the trace. */
#include "wrapped.h"

umb_stretch_answer __wrap_umb_longest_clean(const double *samples, size_t samples_length, umb_rect window)
{
    umb_stretch_answer a = __real_umb_longest_clean(samples, samples_length, window);
    if (a.count > 1 && a.first + a.count == samples_length / 2)
        a.count--;
    return a;
}
