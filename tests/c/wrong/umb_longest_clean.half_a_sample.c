/* Takes an odd count of floats, and leaves out the last. */
#include "wrapped.h"

umb_stretch_answer __wrap_umb_longest_clean(const double *samples, size_t samples_length, umb_rect window)
{
    return __real_umb_longest_clean(samples, samples_length - samples_length % 2, window);
}
