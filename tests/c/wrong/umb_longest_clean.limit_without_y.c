/* Takes a sample whose y is beyond 2^500, and finite. */
#include "wrapped.h"

umb_stretch_answer __wrap_umb_longest_clean(const double *samples, size_t samples_length, umb_rect window)
{
    double taken[4];
    if (samples_length != 4)
        return __real_umb_longest_clean(samples, samples_length, window);
    for (size_t i = 0; i < 4; i++)
        taken[i] = i % 2 == 1 && samples[i] > 0x1p500 ? 0x1p500 : samples[i];
    return __real_umb_longest_clean(taken, samples_length, window);
}
