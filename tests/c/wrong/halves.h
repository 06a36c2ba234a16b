/* umb_build_pages and umb_first_kept done again where they are not refused, by rules of which a wrong version changes
 * one. */
#ifndef HALVES_H
#define HALVES_H

#include "umblacet.h"

enum { BOX = 5 };

/* Of so many edges those in the first half. */
typedef size_t first_half(size_t edges);

static inline size_t longer_half(size_t edges)
{
    return edges - edges / 2;
}

/* ---- building */

typedef struct build_rules {
    first_half *first;
    void (*put_edge)(double *box, const double *edge);
    void (*put_both)(double *box, const double *a, const double *b);
} build_rules;

static inline bool is_dead(double x)
{
    return !(-0x1p500 <= x && x <= 0x1p500);
}

static inline void put(double *box, double low_x, double low_y, double high_x, double high_y, double mark)
{
    const double floats[BOX] = {low_x, low_y, high_x, high_y, mark};
    for (size_t i = 0; i < BOX; i++)
        box[i] = floats[i];
}

/* a where they compare equal. */
static inline double lesser(double a, double b)
{
    return b < a ? b : a;
}

static inline double greater(double a, double b)
{
    return b > a ? b : a;
}

static inline void put_edge(double *box, const double *edge)
{
    if (is_dead(edge[0]) || is_dead(edge[1]) || is_dead(edge[2]) || is_dead(edge[3]))
        put(box, 1, 1, 0, 0, 0);
    else
        put(box, lesser(edge[0], edge[2]), lesser(edge[1], edge[3]), greater(edge[0], edge[2]),
            greater(edge[1], edge[3]), 1);
}

static inline void put_both(double *box, const double *a, const double *b)
{
    const double *const one = a[4] == 1 ? a : b, *const other = b[4] == 1 ? b : a;
    put(box, lesser(one[0], other[0]), lesser(one[1], other[1]), greater(one[2], other[2]), greater(one[3], other[3]),
        one[4]);
}

static inline build_rules right_build(void)
{
    return (build_rules){.first = longer_half, .put_edge = put_edge, .put_both = put_both};
}

static inline void build_from(const build_rules *by, const double *samples, size_t edges, double *box)
{
    if (edges == 1) {
        by->put_edge(box, samples);
        return;
    }
    const size_t first = by->first(edges);
    build_from(by, samples, first, box + BOX);
    build_from(by, samples + 2 * first, edges - first, box + BOX * 2 * first);
    by->put_both(box, box + BOX, box + BOX * 2 * first);
}

/* After the right call, which wrote so many floats. */
static inline void build_by(const build_rules *by, const double *samples, double *boxes, size_t floats)
{
    if (floats > 0)
        build_from(by, samples, (floats / BOX + 1) / 2, boxes);
}

/* ---- searching */

typedef struct search_rules {
    first_half *first;
    bool second_first;
    bool (*opens)(const double *box, umb_rect window);
    bool (*keeps)(const double *edge, umb_rect window);
    size_t shut, single; /* how much a box counts that is passed over, and one of a single edge */
} search_rules;

static inline bool share(umb_interval w, double lo, double hi)
{
    return lo <= hi && w.lo <= hi && lo <= w.hi;
}

static inline bool opens(const double *box, umb_rect window)
{
    return box[4] == 1 && share(window.x, box[0], box[2]) && share(window.y, box[1], box[3]);
}

static inline bool keeps(const double *edge, umb_rect window)
{
    const umb_point a = {edge[0], edge[1]}, b = {edge[2], edge[3]};
    return umb_clip_edge(a, b, window).number == UMB_DONE;
}

static inline search_rules right_search(void)
{
    return (search_rules){.first = longer_half, .opens = opens, .keeps = keeps, .shut = 1, .single = 1};
}

/* Among so many edges from one on, whose boxes lie from this one on. */
static inline umb_kept_answer search_from(const search_rules *by, const double *samples, size_t edge, size_t edges,
                                          umb_rect window, const double *box)
{
    if (!by->opens(box, window))
        return (umb_kept_answer){UMB_MISSED, 0, by->shut};
    if (edges == 1)
        return by->keeps(samples + 2 * edge, window) ? (umb_kept_answer){UMB_DONE, edge, by->single}
                                                     : (umb_kept_answer){UMB_MISSED, 0, by->single};
    size_t opened = 1;
    for (size_t i = 0; i < 2; i++) {
        const size_t first = by->first(edges);
        const bool second = by->second_first != (i == 1);
        const umb_kept_answer half =
            second ? search_from(by, samples, edge + first, edges - first, window, box + BOX * 2 * first)
                   : search_from(by, samples, edge, first, window, box + BOX);
        opened += half.opened;
        if (half.number == UMB_DONE)
            return (umb_kept_answer){UMB_DONE, half.edge, opened};
    }
    return (umb_kept_answer){UMB_MISSED, 0, opened};
}

/* After the right call, which gave this. */
static inline umb_kept_answer search_by(const search_rules *by, umb_kept_answer right, const double *samples,
                                        size_t samples_length, umb_rect window, const double *boxes)
{
    return right.opened == 0 ? right : search_from(by, samples, 0, samples_length / 2 - 1, window, boxes);
}

#endif
