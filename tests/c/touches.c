/* Single edges that touch their windows or nearly do, a trace each, without touches and with them. */
#include "touches.h"

#include "edge.h"
#include "record.h"
#include "trace.h"

static const umb_rect square = {{1, 2}, {1, 2}}, point = {{1, 1}, {1, 1}};
static const umb_rect no_width = {{1, 1}, {0, 2}}, no_height = {{0, 2}, {1, 1}};
static const umb_rect from_0 = {{0, 2}, {0, 2}}, from_minus_0 = {{-0.0, 2}, {-0.0, 2}};

/* An edge, and what umb_clip_edge has to answer. Without touches another record is due where it touches, and nowhere
 * else. */
static const struct instance {
    const char *has_to_be;
    bool touches;
    umb_point a, b;
    const umb_rect *window;
    umb_cut cut;
} instances[] = {
    {"P3's edge touches", true, {0, 0}, {1, 1}, &square, {UMB_DONE, {1, 1}, {1, 1}}},
    {"an edge that ends on a side touches", true, {0, 1.5}, {1, 1.5}, &square, {UMB_DONE, {1, 1.5}, {1, 1.5}}},
    {"an edge that leaves from a side touches", true, {1.5, 2}, {1, 3}, &square, {UMB_DONE, {1.5, 2}, {1.5, 2}}},
    {"an upright edge that ends on a side touches", true, {1.5, 0}, {1.5, 1}, &square, {UMB_DONE, {1.5, 1}, {1.5, 1}}},
    {"an edge from the float before a side touches",
     true,
     {0x1.fffffffffffffp-1, 1.5},
     {1, 1.5},
     &square,
     {UMB_DONE, {1, 1.5}, {1, 1.5}}},
    {"an edge in line with a side up to the corner touches", true, {1, 0}, {1, 1}, &square, {UMB_DONE, {1, 1}, {1, 1}}},
    {"an edge past a corner touches", true, {0, 2}, {2, 0}, &square, {UMB_DONE, {1, 1}, {1, 1}}},
    {"an edge across no width touches", true, {0, 0}, {2, 2}, &no_width, {UMB_DONE, {1, 1}, {1, 1}}},
    {"an edge that ends in no width touches", true, {0, 1}, {1, 1.5}, &no_width, {UMB_DONE, {1, 1.5}, {1, 1.5}}},
    {"an edge across no height touches", true, {2, 2}, {0, 0}, &no_height, {UMB_DONE, {1, 1}, {1, 1}}},
    {"an edge through a point touches", true, {0, 2}, {2, 0}, &point, {UMB_DONE, {1, 1}, {1, 1}}},
    {"-0 on a side that is 0 touches", true, {-1, 1}, {-0.0, 1}, &from_0, {UMB_DONE, {0, 1}, {-0.0, 1}}},
    {"0 on a side that is -0 touches", true, {1, 0}, {1, -1}, &from_minus_0, {UMB_DONE, {1, 0}, {1, -0.0}}},

    {"no length inside is kept", false, {1.5, 1.25}, {1.5, 1.25}, &square, {UMB_DONE, {1.5, 1.25}, {1.5, 1.25}}},
    {"no length on a side is kept", false, {2, 1.5}, {2, 1.5}, &square, {UMB_DONE, {2, 1.5}, {2, 1.5}}},
    {"no length on a corner is kept", false, {1, 2}, {1, 2}, &square, {UMB_DONE, {1, 2}, {1, 2}}},
    {"no length in a point is kept", false, {1, 1}, {1, 1}, &point, {UMB_DONE, {1, 1}, {1, 1}}},
    {"0 to -0 is no length", false, {0, 1}, {-0.0, 1}, &from_0, {UMB_DONE, {0, 1}, {0, 1}}},
    {"-0 to 0 is no length", false, {1, -0.0}, {1, 0}, &from_0, {UMB_DONE, {1, -0.0}, {1, -0.0}}},
    {"no length outside is missed", false, {0, 1.5}, {0, 1.5}, &square, {.number = UMB_MISSED}},

    {"a level edge along a side is kept", false, {0, 1}, {3, 1}, &square, {UMB_DONE, {1, 1}, {2, 1}}},
    {"an upright edge along a side is kept", false, {2, 3}, {2, 1.25}, &square, {UMB_DONE, {2, 2}, {2, 1.25}}},
    {"an upright edge along no width is kept", false, {1, -1}, {1, 3}, &no_width, {UMB_DONE, {1, 0}, {1, 2}}},
    {"a level edge along no height is kept", false, {0.5, 1}, {3, 1}, &no_height, {UMB_DONE, {0.5, 1}, {2, 1}}},
    {"an edge up to the float after a side is kept",
     false,
     {0, 1.5},
     {0x1.0000000000001p0, 1.5},
     &square,
     {UMB_DONE, {1, 1.5}, {0x1.0000000000001p0, 1.5}}},
    {"an edge past a corner that is rounded into the window is kept",
     false,
     {0.9, 1.5},
     {1.1, 0.5},
     &square,
     {UMB_DONE, {1, 0x1.0000000000001p0}, {1, 1}}},
};

static bool same_cut(umb_cut one, umb_cut other)
{
    const answer a = of_cut(one), b = of_cut(other);
    return same_answer(&a, &b);
}

/* Whether the trace of this edge has this record and its count. */
static bool writes(const trace_entry *entry, const edge *e, umb_cut due)
{
    const uint32_t whose = 0x89abcdef;
    double samples[] = {e->a.x, e->a.y, e->b.x, e->b.y};
    uint8_t *const out = lend(RECORD);
    const umb_trace_answer given = entry->cut(samples, 4, e->window, whose, out, RECORD);
    return same_counts(given, with_edge((umb_trace_answer){.number = UMB_DONE}, due.number)) &&
           is_record(out, due.number, whose, due.a, due.b) && guards_stand(out, RECORD);
}

static bool holds(const struct instance *i)
{
    static const umb_cut missed = {.number = UMB_MISSED};
    const edge e = edge_of(i->a, i->b, *i->window);
    if (!same_cut(e.cut, i->cut) || only_touches(&e) != i->touches)
        return false;
    for (size_t entry = 0; entry < TRACE_ENTRIES; entry++)
        if (!writes(&trace_entries[entry], &e, i->touches && !trace_entries[entry].keeps_touches ? missed : i->cut))
            return false;
    return true;
}

const char *wrong_with_touches(void)
{
    for (size_t i = 0; i < sizeof instances / sizeof instances[0]; i++)
        if (!holds(&instances[i]))
            return instances[i].has_to_be;
    return NULL;
}
