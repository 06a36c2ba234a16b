/* nothing.c: the contestant that does nothing, to measure the loop, the call and the answer's own bytes. */
#include "umblacet.h"

umb_cut nothing_clip_edge(umb_point a, umb_point b, umb_rect window) {
    (void)a, (void)b, (void)window;
    return (umb_cut){UMB_DONE, {0.0, 0.0}, {0.0, 0.0}};
}

umb_yes_no nothing_intersects_face(umb_vector n) {
    (void)n;
    return (umb_yes_no){UMB_DONE, false};
}

umb_kept_answer nothing_first_kept(const double *samples, size_t samples_length, umb_rect window, const double *boxes,
                                   size_t boxes_length) {
    (void)samples, (void)samples_length, (void)window, (void)boxes, (void)boxes_length;
    return (umb_kept_answer){UMB_DONE, 0, 0};
}

umb_walk_answer nothing_walk(uint8_t face, umb_uv a, uint8_t target, umb_uv b, umb_vector normal, uint32_t whose,
                             uint8_t *out, size_t out_length) {
    (void)face, (void)a, (void)target, (void)b, (void)normal, (void)whose, (void)out, (void)out_length;
    return (umb_walk_answer){UMB_DONE, 0};
}
