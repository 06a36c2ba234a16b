/* Counts floats, and not samples. */
#include "wrapped.h"

umb_stretch_answer __wrap_umb_longest_clean(const double *samples, size_t samples_length, umb_rect window)
{
    umb_stretch_answer a = __real_umb_longest_clean(samples, samples_length, window);
    a.first *= 2;
    a.count *= 2;
    return a;
}
