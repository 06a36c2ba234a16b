/* umblacet.h: chart code that is proved to do what it says. Link with libumblacet.a (`rt lib` in crates/umblacet).
 *
 * Every function answers every input: NaN, infinities, empty windows, faces above 5 and short buffers get a number,
 * and nothing traps. An answer is a struct whose first member is that number. Beside any number but UMB_DONE all its
 * other members are zeros (no, face 0, axis U), with one exception: umb_first_kept counts the boxes that it opened
 * beside UMB_MISSED too. Nothing is kept between calls, so every function may be called from any thread. Only umb_walk,
 * umb_cut_trace, umb_cut_trace_with_touches and umb_build_pages are lent memory to write to, and what they leave there
 * is said at "a record" and at "a box"; the samples of a trace, and the boxes that are searched, are only read. All
 * other arguments are taken by value, and no other function writes anywhere but its answer.
 *
 * All floats are IEEE 754 binary64, round to nearest, ties to even, which is how a C program starts: a caller that has
 * set another rounding, or flushes subnormals to zero, sets that back before a call. A bool holds 0 or 1. Where finite
 * arguments overflow an answer may hold an infinity or a NaN; which of the NaN's bit patterns it is, is not said.
 *
 * "Of these numbers" below means: where two would apply, the first of them in the order given is answered. */
#ifndef UMBLACET_H
#define UMBLACET_H

#include <stdbool.h>
#include <stddef.h>
#include <stdint.h>

#ifdef __cplusplus
extern "C" {
#endif

/* ---- the numbers; 9 is the programs' alone */

enum {
    UMB_DONE = 0,         /* kept, or done */
    UMB_MISSED = 1,       /* no part in the window, or in a trace a touch; in a search, no edge with a part in it; a
                           * vector not on the asked face's side */
    UMB_NOT_FINITE = 2,   /* a float other than the window's is not finite or, in cutting, beyond 2^500 */
    UMB_BAD_WINDOW = 3,   /* a window side is not finite or beyond 2^500, or lo > hi on an axis */
    UMB_BAD_FACE = 4,     /* a face above 5, an axis above 2, a direction above 1 */
    UMB_ZERO = 5,         /* a vector or normal all zero, or a division by zero */
    UMB_OFF_FACE = 6,     /* the line does not meet a face that is not the target */
    UMB_UNFINISHED = 7,   /* the target is not among the first 8 faces: no longer walk would reach it */
    UMB_SHORT_BUFFER = 8, /* the buffer holds fewer whole records, or fewer boxes, than there are */
    UMB_BAD_TRACE = 10    /* an odd count of floats, or more than 4,096 samples */
};

/* ---- what is handed in */

typedef struct umb_point {
    double x, y;
} umb_point;

/* Closed; empty where lo > hi. */
typedef struct umb_interval {
    double lo, hi;
} umb_interval;

typedef struct umb_rect {
    umb_interval x, y;
} umb_rect;

/* A vector, or the normal of a line in a face's u, v, w (x is its u, y its v, z its w). */
typedef struct umb_vector {
    double x, y, z;
} umb_vector;

/* A point of a face. */
typedef struct umb_uv {
    double u, v;
} umb_uv;

/* An axis of a face. */
enum { UMB_U = 0, UMB_V = 1 };

/* ---- what is answered */

typedef struct umb_real {
    uint8_t number;
    double value;
} umb_real;

typedef struct umb_yes_no {
    uint8_t number;
    bool yes;
} umb_yes_no;

typedef struct umb_point_answer {
    uint8_t number;
    umb_point point;
} umb_point_answer;

typedef struct umb_interval_answer {
    uint8_t number;
    umb_interval interval;
} umb_interval_answer;

typedef struct umb_rect_answer {
    uint8_t number;
    umb_rect rect;
} umb_rect_answer;

typedef struct umb_corners {
    uint8_t number;
    umb_point vertices[4];
} umb_corners;

/* The bounds of an axis and of the other. */
typedef struct umb_axes {
    uint8_t number;
    umb_interval bound0, bound1;
} umb_axes;

/* The kept points of an edge. */
typedef struct umb_cut {
    uint8_t number;
    umb_point a, b;
} umb_cut;

typedef struct umb_face_answer {
    uint8_t number;
    uint8_t face;
} umb_face_answer;

typedef struct umb_face_uv {
    uint8_t number;
    uint8_t face;
    double u, v;
} umb_face_uv;

typedef struct umb_uv_answer {
    uint8_t number;
    double u, v;
} umb_uv_answer;

typedef struct umb_vector_answer {
    uint8_t number;
    umb_vector vector;
} umb_vector_answer;

typedef struct umb_axis_answer {
    uint8_t number;
    uint8_t axis;
} umb_axis_answer;

typedef struct umb_walk_answer {
    uint8_t number;
    size_t count;
} umb_walk_answer;

/* The edges of a trace. */
typedef struct umb_trace_answer {
    uint8_t number;
    size_t kept, missed, refused, edges;
} umb_trace_answer;

/* So many samples of a trace from its sample `first` on; 0 is the first of all. */
typedef struct umb_stretch_answer {
    uint8_t number;
    size_t first, count;
} umb_stretch_answer;

/* So many floats of boxes. */
typedef struct umb_pages_answer {
    uint8_t number;
    size_t floats;
} umb_pages_answer;

/* The edge from sample `edge` of a trace to the next, 0 being the first of all; and how many boxes were opened. */
typedef struct umb_kept_answer {
    uint8_t number;
    size_t edge, opened;
} umb_kept_answer;

/* ---- points. 2 where a float handed in is not finite, else 0. */

umb_point_answer umb_point_new(double x, double y);
umb_point_answer umb_point_add(umb_point p, umb_point q);
umb_point_answer umb_point_sub(umb_point p, umb_point q);
umb_point_answer umb_point_mul(umb_point p, double m);
/* A quarter turn against the clock. */
umb_point_answer umb_point_ortho(umb_point p);
umb_real umb_point_dot(umb_point p, umb_point q);
umb_real umb_point_cross(umb_point p, umb_point q);

/* ---- intervals. 2 where a float handed in is not finite, else 0. An empty interval is admitted: it holds nothing,
 * lies in every interval and adds nothing to a union. */

umb_yes_no umb_interval_is_empty(umb_interval i);
umb_yes_no umb_interval_contains(umb_interval i, double x);
umb_yes_no umb_interval_contains_interval(umb_interval i, umb_interval j);
umb_yes_no umb_interval_intersects(umb_interval i, umb_interval j);
/* i's end where two compare equal, here and in the intersection: it shows in the sign of a zero. */
umb_interval_answer umb_interval_union(umb_interval i, umb_interval j);
umb_interval_answer umb_interval_intersection(umb_interval i, umb_interval j);
/* From the lesser to the greater; a where the two compare equal. */
umb_interval_answer umb_interval_from_point_pair(double a, double b);

/* ---- rectangles. 2 where a float handed in is not finite, else 0. Empty rectangles are admitted, axis by axis. */

/* 1..0 on both axes. */
umb_rect umb_rect_empty(void);
/* The box of two points; a's coordinate where two compare equal. */
umb_rect_answer umb_rect_from_points(umb_point a, umb_point b);
/* The corners from the low one against the clock. */
umb_corners umb_rect_vertices(umb_rect r);
/* 0 is low, any other number high. */
umb_point_answer umb_rect_vertex_ij(umb_rect r, uint64_t i, uint64_t j);
umb_point_answer umb_rect_lo(umb_rect r);
umb_point_answer umb_rect_hi(umb_rect r);
/* Whether x is empty; y is not asked. */
umb_yes_no umb_rect_is_empty(umb_rect r);
umb_yes_no umb_rect_contains_point(umb_rect r, umb_point p);
/* Whether q lies in r, on each axis. */
umb_yes_no umb_rect_contains(umb_rect r, umb_rect q);
umb_yes_no umb_rect_intersects(umb_rect r, umb_rect q);
umb_rect_answer umb_rect_union(umb_rect r, umb_rect q);
/* umb_rect_empty() where either axis comes out empty. */
umb_rect_answer umb_rect_intersection(umb_rect r, umb_rect q);

/* ---- cutting an edge to a window. Of all floats here, and of a trace's, those up to 2^500 in magnitude are admitted:
 * one beyond it is refused as one that is not finite is, with 2, or with 3 as a side of the window. */

/* The part of the edge from a to b that lies in the window. Of these numbers: 2, 3, then 1 where nothing is left, or 0.
 * Kept points lie in the window and in the edge's own box. Where a or b lies in the window the edge is kept and that
 * end comes back as it was, so an edge inside the window does (where a and b compare equal on an axis, both with a's
 * coordinate). A point that was cut lies exactly on a side of the window that its own end is beyond. Of coordinates of
 * a and b in -1..1 it is within 2^-50 of the exact line through them, along one of the axes, as long as they are at
 * least 2^-500 apart on the axis that is cut (where a corner of the window is kept, on both); of coordinates up to 2^k,
 * for a whole k from 0 to 500, within 2^(k-50). A dead sample is never joined to anything. */
umb_cut umb_clip_edge(umb_point a, umb_point b, umb_rect window);
/* Whether the edge meets the window. Of these numbers: 2, 3, 0. It is the crate's test, which rounds: it need not agree
 * with umb_clip_edge, least of all where the ends are far out or its products underflow. */
umb_yes_no umb_edge_intersects_rect(umb_point a, umb_point b, umb_rect window);
/* What is left in the window of the bound of some part of the edge. Of these numbers: 2, 3, 1, 0. */
umb_rect_answer umb_clip_edge_bound(umb_point a, umb_point b, umb_rect window, umb_rect bound);
/* The same on one axis of the line from (a0, a1) to (b0, b1): bound0 is cut to the window and bound1 with it. Of these
 * numbers: 2, 3, 1, 0. */
umb_axes umb_clip_bound_axis(double a0, double b0, umb_interval bound0, double a1, double b1, umb_interval bound1,
                             bool neg_slope, umb_interval window);
/* The bound with its high end, or its low, moved to the value; never wider. 2, 1 where nothing is left, or 0. */
umb_interval_answer umb_update_endpoint(umb_interval bound, bool high_endpoint, double value);
/* The value at x on the line through (a, a1) and (b, b1). For x from a to b, in either order, it lies between a1 and
 * b1, and is a1 at a and b1 at b, as numbers (where a = b, a1); and where a and b are at least 2^-500 apart it is
 * within 2^-50 of the exact line for a1 and b1 in -1..1, and within 2^(k-50) for a1 and b1 up to 2^k, k being whole and
 * from 0 to 500. Beyond a and b it may be infinite; it is no NaN. 2 or 0. */
umb_real umb_interpolate(double x, double a, double b, double a1, double b1);

/* ---- a record: 40 bytes, written for each edge of a trace and by umb_walk for each segment
 *
 *     byte 0           the number of the edge's answer, 0, 1 or 2; of a segment, its face
 *     bytes 1 to 3     zeros
 *     bytes 4 to 7     the trace number, whose, as the caller gave it: any number, little-endian
 *     bytes 8 to 39    a.x, a.y, b.x, b.y of the kept points, zeros unless kept; of a segment a.u, a.v, b.u, b.v:
 *                      each float's bits, little-endian
 *
 * The records of a call stand from out on, one after the other, and it writes no other byte: beside 0 those after the
 * last record stay as they were, and beside any other number all of out does. What stood in out changes no record. So
 * calls into neighbouring parts of one buffer may be made in either order, and give the same bytes. */

/* ---- a whole trace in one call */

/* Every edge of a trace, from each sample to the next, cut to the window as umb_clip_edge cuts it: a record for each,
 * and how many of them were kept, missed and refused, and how many there are. A dead sample is 2 in the records of the
 * edges that have it for an end, and nowhere else; no sample or one has no edge. So a trace cut at a sample, which is
 * sent in both parts, gives the same records under the same number. Of these numbers: 10, 3, 8, 0. samples has
 * samples_length floats, x and y in turn, and out has out_length bytes; either length may be 0, neither pointer is
 * null, and the two do not overlap. The samples are only read.
 *
 * An edge that only touches the window would show as a dot, so it is 1 in its record and counts as missed: one of
 * which umb_clip_edge keeps a single point (both kept points compare equal), though its own ends differ. Every other
 * edge is as umb_clip_edge answers it; so no kept record shows a single point unless both its samples are that point,
 * and an edge between live samples of which one lies in the window is kept, with that one as it was, unless it only
 * touches.
 *     - An edge that only ends on a side of the window, its other end beyond that side, is dropped.
 *     - A window of no width or no height drops every edge that crosses it.
 *     - A search for the page that a trace is on asks with touches: a page that it finds may then draw nothing.
 * What decides is the kept points as they come out: where an edge runs so nearly along a side, or passes a corner so
 * nearly, that rounding leaves it two points that differ, it is kept. */
umb_trace_answer umb_cut_trace(const double *samples, size_t samples_length, umb_rect window, uint32_t whose,
                               uint8_t *out, size_t out_length);
/* The same, but that an edge which only touches the window is kept, as umb_clip_edge keeps it: an edge between live
 * samples is kept where one of them lies in the window, with that one as it was. Its counts are those of umb_cut_trace
 * with the edges that only touch among the kept and not among the missed. */
umb_trace_answer umb_cut_trace_with_touches(const double *samples, size_t samples_length, umb_rect window,
                                            uint32_t whose, uint8_t *out, size_t out_length);

/* ---- the longest clean stretch of a trace */

/* Of the runs of consecutive samples that are all clean the longest, and the earliest of these if several are as long:
 * its first sample, and how many samples it has. A clean sample is not dead, which is to say that neither of its floats
 * is NaN, infinite or beyond 2^500 in magnitude, and it lies in the window, whose sides are in it. So no clean run of
 * the trace has more samples, and none that has as many begins before this one; and umb_cut_trace keeps every edge
 * between its samples, as it stands. Where no sample is clean, both are 0. Of these numbers: 10, 3, 0. samples has
 * samples_length floats, x and y in turn; the length may be 0, and the pointer is not null. They are only read, and
 * nothing is copied: the part is samples[2 * first] to samples[2 * (first + count) - 1], the caller's own. */
umb_stretch_answer umb_longest_clean(const double *samples, size_t samples_length, umb_rect window);

/* ---- is the trace on this page at all? The boxes of a trace are built once, and serve every page of it: a search goes
 * down them to the first edge that is kept, and what lies in a box beside the page is never looked at.
 *
 * A box: five floats, written by umb_build_pages for all edges of a trace, for each half of them, for each half of
 * these and so on, down to single edges; of an odd number of edges the first half is the longer
 *
 *     floats 0 to 3    the low x, low y, high x and high y of the live edges below it: those with no dead sample for an
 *                      end. Of ends that compare equal, as 0 and -0 do, the earliest sample's stands
 *     float 4          the mark: 1, or 0 where no live edge is below it, and then floats 0 to 3 are 1, 1, 0, 0
 *
 * The box of all edges comes first, then all boxes of the first half, then all of the second: 2m - 1 for m edges, none
 * for none. So the halves of the box at place i, places being counted in boxes, are at i + 1 and, n edges being below
 * it, at i + 2 * (n - n / 2).
 *
 * Both functions call themselves, at most 13 deep, and take at most UMB_PAGES_STACK bytes of stack, which is measured
 * (tests/c/stack.c) and not proved. */

enum { UMB_PAGES_STACK = 3200 };

/* Writes the boxes of a trace from boxes[0] on, and answers how many floats they are: 5 * (2m - 1) for m edges, which
 * for a count of samples from 2 on is 10 * count - 15, and 0 for no sample or one. Of these numbers: 10, 8 where fewer
 * are lent, 0; 40,945 always hold them. It writes no other float: beside 0 those after the last box stay as they were,
 * bit for bit, and beside any other number all of boxes does. What stood in boxes changes nothing. samples has
 * samples_length floats, x and y in turn, and boxes has boxes_length; either length may be 0, neither pointer is null,
 * and the two do not overlap. The samples are only read. */
umb_pages_answer umb_build_pages(const double *samples, size_t samples_length, double *boxes, size_t boxes_length);
/* The lowest-numbered edge of the trace that is kept in the window, as umb_cut_trace_with_touches keeps it; so a page
 * on which an edge is found may draw nothing with umb_cut_trace, which drops what only touches. Of these numbers: 10,
 * 3, 8 where boxes is shorter than umb_build_pages asks, then 1 where no edge is kept, or 0. Beside 0 and beside 1
 * stands how many boxes were opened; the edge beside 1, and both beside a refusal, are 0.
 *
 * The search opens the box of all edges. One that has no mark (any float but 1, NaN too) or shares no point with the
 * window (one with a NaN shares none; one that only touches it does) counts as opened, and nothing below it is looked
 * at; else its first half is searched and, where that has no kept edge, its second. Below the box of a single edge it
 * is the edge that is asked. So at most 2m - 1 boxes are opened; 0 for no edge, 1 where the box of all is passed over.
 *
 * With the boxes that umb_build_pages left for these samples, the edge is the one that a scan of all finds. With any
 * other floats the same search is answered: an edge that it finds is kept, but one before it may be too, and one may be
 * where it finds none. samples has samples_length floats, x and y in turn, and boxes has boxes_length; either length
 * may be 0, and neither pointer is null. Both are only read. */
umb_kept_answer umb_first_kept(const double *samples, size_t samples_length, umb_rect window, const double *boxes,
                               size_t boxes_length);

/* ---- the six faces of the cube */

/* The face that r points at, ties to the lower axis. Of these numbers: 2, 5, 0. */
umb_face_answer umb_face(umb_vector r);
/* That face and r's (u, v) there, both from -1 to 1. Of these numbers: 2, 5, 0. */
umb_face_uv umb_xyz_to_face_uv(umb_vector r);
/* r's (u, v) on the asked face. Of these numbers: 4, 2, 1 where r is not on that side of the cube, 0. */
umb_uv_answer umb_face_xyz_to_uv(uint8_t face, umb_vector r);
/* The point at (u, v) of a face. 4, 2 or 0. */
umb_vector_answer umb_face_uv_to_xyz(uint8_t face, double u, double v);
/* r in the face's own u, v, w. 4, 2 or 0. */
umb_vector_answer umb_face_xyz_to_uvw(uint8_t face, umb_vector r);
/* The face that an axis (0, 1, 2 for u, v, w) of a face points at, direction 0 for minus and 1 for plus. 4 or 0. */
umb_face_answer umb_uvw_face(uint8_t face, uint8_t axis, uint8_t direction);
/* The unit vector along a face's u or v. 4 or 0. */
umb_vector_answer umb_u_axis(uint8_t face);
umb_vector_answer umb_v_axis(uint8_t face);
/* A normal of the plane through the cube's centre and the face's line at this u, or at this v. 4, 2 or 0. */
umb_vector_answer umb_unorm(uint8_t face, double u);
umb_vector_answer umb_vnorm(uint8_t face, double v);

/* ---- a line, by its normal in a face's u, v, w */

/* Whether u + v = w, exactly. 2 or 0. */
umb_yes_no umb_sum_equal(double u, double v, double w);
/* Whether the line meets the face, exactly: |nu| + |nv| >= |nw|, so yes for the zero normal. 2 or 0. */
umb_yes_no umb_intersects_face(umb_vector n);
/* Whether it passes opposite edges of the face, exactly: ||nu| - |nv|| >= |nw|, so yes for the zero normal. 2 or 0. */
umb_yes_no umb_intersects_opposite_edges(umb_vector n);
/* The axis over which the line leaves the face. Of these numbers: 2, 5, 0. */
umb_axis_answer umb_exit_axis(umb_vector n);
/* Where it leaves over an axis (UMB_U, or V for any other number, as in umb_next_face). Of these numbers: 2, 5 where
 * the divisor is zero, 0. */
umb_uv_answer umb_exit_point(umb_vector n, uint8_t axis);
/* The face that the line enters there; the target where it passes exactly through a corner that both share. Of these
 * numbers: 4 for face or target, 2, 5, 0. */
umb_face_answer umb_next_face(uint8_t face, umb_uv exit, uint8_t axis, umb_vector n, uint8_t target);

/* The segments of the line with this normal (in x, y, z) from the point a of a face to the point b of the target: a
 * record for each, and their count, 1 to 6 where the line meets the first face. Of these numbers: 4 for face or target,
 * 2, 5, 6 or 7 as the walk finds them, 8, 0. out is not null and has out_length bytes, which may be 0; 240 always hold
 * a walk. */
umb_walk_answer umb_walk(uint8_t face, umb_uv a, uint8_t target, umb_uv b, umb_vector normal, uint32_t whose,
                         uint8_t *out, size_t out_length);

#ifdef __cplusplus
}
#endif

#endif
