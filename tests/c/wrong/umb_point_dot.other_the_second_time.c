/* Keeps something between calls: each second answer is another. */
#include "wrapped.h"

umb_real __wrap_umb_point_dot(umb_point p, umb_point q)
{
    static unsigned calls;
    umb_real a = __real_umb_point_dot(p, q);
    if (calls++ % 2 == 1)
        a.number++;
    return a;
}
