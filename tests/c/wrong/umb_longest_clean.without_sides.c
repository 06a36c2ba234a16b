/* Leaves out what is on the high side in y. */
#include "wrapped.h"

enum { MOST = 2 * 4097 };

/* The samples, with 2^501 for each y that is the window's high side. */
static const double *off_the_side(const double *samples, size_t length, umb_rect window)
{
    static double copied[MOST];
    for (size_t i = 0; i < length && i < MOST; i++)
        copied[i] = i % 2 == 1 && samples[i] == window.y.hi ? 0x1p501 : samples[i];
    return copied;
}

umb_stretch_answer __wrap_umb_longest_clean(const double *samples, size_t samples_length, umb_rect window)
{
    return __real_umb_longest_clean(off_the_side(samples, samples_length, window), samples_length, window);
}
