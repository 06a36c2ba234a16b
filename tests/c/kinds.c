#include "kinds.h"

#include <string.h>

/* ---- points and the window */

static bool is_side(double value, umb_interval of)
{
    return value == of.lo || value == of.hi;
}

static bool is_corner(const edge *e, umb_point p)
{
    return is_side(p.x, e->window.x) && is_side(p.y, e->window.y);
}

static bool is_end(const edge *e, umb_point p)
{
    return same_point(e->a, p) || same_point(e->b, p);
}

/* Of points that are the same: whether they have zeros of different signs. */
static bool signs_differ(umb_point p, umb_point q)
{
    return memcmp(&p, &q, sizeof p) != 0;
}

/* ---- edges that do not only touch */

static bool is_missed(const edge *e)
{
    return e->cut.number == UMB_MISSED;
}

static bool is_refused(const edge *e)
{
    return e->cut.number == UMB_NOT_FINITE;
}

static bool is_level_along_a_side(const edge *e)
{
    return keeps_a_line(e) && e->a.y == e->b.y && is_side(e->a.y, e->window.y);
}

static bool is_upright_along_a_side(const edge *e)
{
    return keeps_a_line(e) && e->a.x == e->b.x && is_side(e->a.x, e->window.x);
}

static bool is_of_no_length(const edge *e)
{
    return e->cut.number == UMB_DONE && same_point(e->a, e->b);
}

static bool is_of_no_length_inside(const edge *e)
{
    return is_of_no_length(e) && !is_side(e->a.x, e->window.x) && !is_side(e->a.y, e->window.y);
}

static bool is_of_no_length_on_a_corner(const edge *e)
{
    return is_of_no_length(e) && is_corner(e, e->a);
}

static bool is_of_no_length_but_for_a_sign(const edge *e)
{
    return is_of_no_length(e) && signs_differ(e->a, e->b);
}

/* ---- touches */

static bool ends_on_a_side(const edge *e)
{
    return only_touches(e) && is_end(e, e->cut.a) && !is_corner(e, e->cut.a);
}

static bool ends_on_a_corner(const edge *e)
{
    return only_touches(e) && is_end(e, e->cut.a) && is_corner(e, e->cut.a);
}

static bool passes_a_corner(const edge *e)
{
    return only_touches(e) && !is_end(e, e->cut.a);
}

static bool touches_level(const edge *e)
{
    return only_touches(e) && e->a.y == e->b.y;
}

static bool touches_upright(const edge *e)
{
    return only_touches(e) && e->a.x == e->b.x;
}

static bool touches_but_for_a_sign(const edge *e)
{
    return only_touches(e) && signs_differ(e->cut.a, e->cut.b);
}

/* ---- all of them */

static const struct kind {
    bool (*has)(const edge *e);
    const char *has_to_be;
} kinds[KINDS] = {
    {keeps_a_line, "an edge of the trace is kept with more than a point"},
    {is_missed, "an edge of the trace is missed"},
    {is_refused, "an edge of the trace has a dead end"},
    {is_level_along_a_side, "a level edge runs along a side of the window"},
    {is_upright_along_a_side, "an upright edge runs along a side of the window"},
    {is_of_no_length_inside, "two samples in the window are the same"},
    {is_of_no_length_on_a_corner, "two samples on a corner are the same"},
    {is_of_no_length_but_for_a_sign, "two samples in the window differ in a zero's sign alone"},
    {ends_on_a_side, "an edge touches a side with its end"},
    {ends_on_a_corner, "an edge touches a corner with its end"},
    {passes_a_corner, "an edge touches a corner in passing"},
    {touches_level, "a level edge touches the window"},
    {touches_upright, "an upright edge touches the window"},
    {touches_but_for_a_sign, "an edge touches the window in points that differ in a zero's sign alone"},
};

void see_kinds(const edge *e, bool seen[KINDS])
{
    for (size_t i = 0; i < KINDS; i++)
        seen[i] = seen[i] || kinds[i].has(e);
}

const char *kind_not_seen(const bool seen[KINDS])
{
    for (size_t i = 0; i < KINDS; i++)
        if (!seen[i])
            return kinds[i].has_to_be;
    return NULL;
}
