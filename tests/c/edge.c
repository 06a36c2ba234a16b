#include "edge.h"

edge edge_of(umb_point a, umb_point b, umb_rect window)
{
    return (edge){a, b, window, umb_clip_edge(a, b, window)};
}

bool same_point(umb_point p, umb_point q)
{
    return p.x == q.x && p.y == q.y;
}

bool keeps_a_line(const edge *e)
{
    return e->cut.number == UMB_DONE && !same_point(e->cut.a, e->cut.b);
}

bool only_touches(const edge *e)
{
    return e->cut.number == UMB_DONE && same_point(e->cut.a, e->cut.b) && !same_point(e->a, e->b);
}

umb_cut cut_due(const edge *e, bool keeps_touches)
{
    return only_touches(e) && !keeps_touches ? (umb_cut){.number = UMB_MISSED} : e->cut;
}
