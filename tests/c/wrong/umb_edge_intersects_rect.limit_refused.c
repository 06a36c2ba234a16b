/* Refuses a window's side that is -2^500. */
#include "wrapped.h"

umb_yes_no __wrap_umb_edge_intersects_rect(umb_point a, umb_point b, umb_rect window)
{
    if (window.y.lo == -0x1p500)
        return (umb_yes_no){.number = UMB_BAD_WINDOW};
    return __real_umb_edge_intersects_rect(a, b, window);
}
