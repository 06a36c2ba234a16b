/* Leaves a value beside a refusal, if only the sign of a zero. */
#include "wrapped.h"

umb_point_answer __wrap_umb_point_new(double x, double y)
{
    umb_point_answer a = __real_umb_point_new(x, y);
    if (a.number != UMB_DONE)
        a.point.y = -0.0;
    return a;
}
