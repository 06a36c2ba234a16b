/* Takes the float above 2^500 for 2^500, in one argument. */
#include "wrapped.h"

umb_real __wrap_umb_interpolate(double x, double a, double b, double a1, double b1)
{
    return __real_umb_interpolate(x, a, b, a1, b1 == 0x1.0000000000001p500 ? 0x1p500 : b1);
}
