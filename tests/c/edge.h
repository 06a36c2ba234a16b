/* An edge of a trace, and what its record is due, by this program's own comparison of points. */
#ifndef EDGE_H
#define EDGE_H

#include "umblacet.h"

typedef struct edge {
    umb_point a, b;
    umb_rect window;
    umb_cut cut; /* what umb_clip_edge answers */
} edge;

edge edge_of(umb_point a, umb_point b, umb_rect window);
/* Whether x and y compare equal, so that -0 is 0. */
bool same_point(umb_point p, umb_point q);
/* Whether two points are kept of it, and are not the same. */
bool keeps_a_line(const edge *e);
/* Whether a single point is kept of it, though its ends differ. */
bool only_touches(const edge *e);
/* What is due where touches are kept, or are not. */
umb_cut cut_due(const edge *e, bool keeps_touches);

#endif
