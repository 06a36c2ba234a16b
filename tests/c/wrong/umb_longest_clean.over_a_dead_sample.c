/* Goes on over a dead sample. */
#include "wrapped.h"

enum { MOST = 2 * 4097 };

static bool is_dead(double x)
{
    return !(-0x1p500 <= x && x <= 0x1p500);
}

/* The samples, with a corner of the window for each dead one. */
static const double *alive(const double *samples, size_t length, umb_rect window)
{
    static double copied[MOST];
    for (size_t i = 0; i + 1 < length && i + 1 < MOST; i += 2) {
        const bool dead = is_dead(samples[i]) || is_dead(samples[i + 1]);
        copied[i] = dead ? window.x.lo : samples[i];
        copied[i + 1] = dead ? window.y.lo : samples[i + 1];
    }
    return copied;
}

umb_stretch_answer __wrap_umb_longest_clean(const double *samples, size_t samples_length, umb_rect window)
{
    return __real_umb_longest_clean(alive(samples, samples_length, window), samples_length, window);
}
