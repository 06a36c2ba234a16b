/* umb_cut_trace by another rule of what is dropped: the trace with touches, then each kept edge that the rule names. */
#ifndef DROPPING_H
#define DROPPING_H

#include "umblacet.h"

#include <string.h>

/* Of an edge from a to b with the kept points p and q. */
typedef bool drops(umb_point a, umb_point b, umb_point p, umb_point q);

static inline bool same(umb_point a, umb_point b)
{
    return a.x == b.x && a.y == b.y;
}

static inline umb_point point_at(const void *floats)
{
    umb_point p;
    memcpy(&p, floats, sizeof p);
    return p;
}

static inline bool is_dropped(drops *rule, const double *edge, const uint8_t *record)
{
    return record[0] == UMB_DONE &&
           rule(point_at(edge), point_at(edge + 2), point_at(record + 8), point_at(record + 24));
}

static inline umb_trace_answer cut_dropping(drops *rule, const double *samples, size_t samples_length, umb_rect window,
                                            uint32_t whose, uint8_t *out, size_t out_length)
{
    umb_trace_answer a = umb_cut_trace_with_touches(samples, samples_length, window, whose, out, out_length);
    for (size_t i = 0; i < a.edges; i++) {
        uint8_t *const record = out + 40 * i;
        if (!is_dropped(rule, samples + 2 * i, record))
            continue;
        record[0] = UMB_MISSED;
        memset(record + 8, 0, 32);
        a.kept--;
        a.missed++;
    }
    return a;
}

#endif
