/* Leaves a sample other than it was. */
#include "wrapped.h"

umb_stretch_answer __wrap_umb_longest_clean(const double *samples, size_t samples_length, umb_rect window)
{
    const umb_stretch_answer a = __real_umb_longest_clean(samples, samples_length, window);
    if (samples_length > 0)
        ((double *)samples)[samples_length - 1] = 0.5;
    return a;
}
