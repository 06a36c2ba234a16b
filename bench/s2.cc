// s2.cc: C++ s2geometry's ClipEdge behind the same C signature. It refuses nothing. Its line test and its walk cannot
// be called from outside.
#include "umblacet.h"
#include <s2/r2.h>
#include <s2/r2rect.h>
#include <s2/s2edge_clipping.h>

extern "C" umb_cut s2_clip_edge(umb_point a, umb_point b, umb_rect window) {
    R2Rect clip(R1Interval(window.x.lo, window.x.hi), R1Interval(window.y.lo, window.y.hi));
    R2Point kept_a, kept_b;
    if (!S2::ClipEdge(R2Point(a.x, a.y), R2Point(b.x, b.y), clip, &kept_a, &kept_b)) {
        return {UMB_MISSED, {0.0, 0.0}, {0.0, 0.0}};
    }
    return {UMB_DONE, {kept_a.x(), kept_a.y()}, {kept_b.x(), kept_b.y()}};
}
