/* Takes one sample more than 4,096, and leaves it out. */
#include "wrapped.h"

umb_stretch_answer __wrap_umb_longest_clean(const double *samples, size_t samples_length, umb_rect window)
{
    if (samples_length == 2 * 4097)
        samples_length = 2 * 4096;
    return __real_umb_longest_clean(samples, samples_length, window);
}
