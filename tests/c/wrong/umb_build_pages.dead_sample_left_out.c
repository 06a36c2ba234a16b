/* An edge with a dead sample has the box of the live one. */
#include "halves.h"
#include "wrapped.h"

static void put_live(double *box, const double *edge)
{
    const bool dead = is_dead(edge[0]) || is_dead(edge[1]);
    const double *const live = dead ? edge + 2 : edge;
    const double alone[4] = {live[0], live[1], live[0], live[1]};
    put_edge(box, dead || is_dead(edge[2]) || is_dead(edge[3]) ? alone : edge);
}

umb_pages_answer __wrap_umb_build_pages(const double *samples, size_t samples_length, double *boxes,
                                        size_t boxes_length)
{
    build_rules by = right_build();
    const umb_pages_answer a = __real_umb_build_pages(samples, samples_length, boxes, boxes_length);
    by.put_edge = put_live;
    build_by(&by, samples, boxes, a.floats);
    return a;
}
