/* Gives the latest of the runs that are as long. */
#include "wrapped.h"

umb_stretch_answer __wrap_umb_longest_clean(const double *samples, size_t samples_length, umb_rect window)
{
    umb_stretch_answer a = __real_umb_longest_clean(samples, samples_length, window);
    while (a.count > 0) {
        const size_t after = a.first + 1;
        const umb_stretch_answer b =
            __real_umb_longest_clean(samples + 2 * after, samples_length - 2 * after, window);
        if (b.count < a.count)
            break;
        a.first = after + b.first;
    }
    return a;
}
