/* inputs.h: what the contestants are asked, the same on every machine: a whole-number generator and no libm. */
#ifndef BENCH_INPUTS_H
#define BENCH_INPUTS_H

#include "umblacet.h"

/* 240 bytes always hold a walk, 40 a record. */
enum { WALK_BYTES = 240, RECORD_BYTES = 40 };

typedef struct edge {
    umb_point a, b;
} edge;

/* A walk, the bytes that it is lent, and what has to be answered. */
typedef struct walk_input {
    uint8_t face, target;
    umb_uv a, b;
    umb_vector normal;
    size_t room;
    umb_walk_answer due;
} walk_input;

/* The window of every edge. */
static const umb_rect WINDOW = {{0.0, 1.0}, {0.0, 1.0}};

static uint64_t state;

/* The next of 2^64 numbers in no order (Steele, Lea and Flood's SplitMix64). */
static uint64_t next_number(void) {
    uint64_t z = state += 0x9e3779b97f4a7c15u;
    z = (z ^ z >> 30) * 0xbf58476d1ce4e5b9u;
    z = (z ^ z >> 27) * 0x94d049bb133111ebu;
    return z ^ z >> 31;
}

/* From lo up to hi, any of 2^53 places. */
static double between(double lo, double hi) {
    return lo + (hi - lo) * ((double)(next_number() >> 11) * 0x1p-53);
}

static umb_point point_between(double lo, double hi) {
    double x = between(lo, hi);
    double y = between(lo, hi);
    return (umb_point){x, y};
}

/* ---- edges */

/* Both ends anywhere in a square around the window. About a quarter is kept, most of it cut. */
static void random_edges(edge *edges, size_t count) {
    for (size_t i = 0; i < count; i++) {
        edges[i].a = point_between(-2.7, 3.7);
        edges[i].b = point_between(-2.7, 3.7);
    }
}

/* A sample: it rises and falls slowly, from below the window to above it, with a little noise. */
static umb_point sample(size_t i, size_t count) {
    size_t phase = i % 200;
    double height = (double)(phase < 100 ? phase : 200 - phase) / 100.0;
    return (umb_point){(double)i / (double)count, -0.17 + 1.34 * height + between(-0.01, 0.01)};
}

/* Each edge joins the sample before to the next. About three quarters are kept, nearly all of them whole. */
static void trace_edges(edge *edges, size_t count) {
    umb_point last = sample(0, count);
    for (size_t i = 0; i < count; i++) {
        edges[i].a = last;
        last = sample(i + 1, count);
        edges[i].b = last;
    }
}

/* All beyond one side, each side as often, and anywhere along it. */
static void outside_edges(edge *edges, size_t count) {
    for (size_t i = 0; i < count; i++) {
        uint64_t side = next_number() >> 62;
        double beyond_a = between(0.01, 1.0), beyond_b = between(0.01, 1.0);
        double along_a = between(-1.0, 2.0), along_b = between(-1.0, 2.0);
        double across_a = side & 1 ? 1.0 + beyond_a : -beyond_a, across_b = side & 1 ? 1.0 + beyond_b : -beyond_b;
        edges[i].a = side & 2 ? (umb_point){along_a, across_a} : (umb_point){across_a, along_a};
        edges[i].b = side & 2 ? (umb_point){along_b, across_b} : (umb_point){across_b, along_b};
    }
}

static void inside_edges(edge *edges, size_t count) {
    for (size_t i = 0; i < count; i++) {
        edges[i].a = point_between(0.0, 1.0);
        edges[i].b = point_between(0.0, 1.0);
    }
}

/* ---- samples of a trace: sample i, where there are so many edges. `sample` is one of them. */

static umb_point anywhere(size_t i, size_t count) {
    (void)i, (void)count;
    return point_between(-2.7, 3.7);
}

static umb_point inside(size_t i, size_t count) {
    (void)i, (void)count;
    return point_between(0.0, 1.0);
}

/* So far past a side of the window: left, below, right, above. */
static umb_point beyond(size_t side, double past, double along) {
    double across = side >= 2 ? 1.0 + past : -past;
    return side % 2 == 0 ? (umb_point){across, along} : (umb_point){along, across};
}

/* Along a side, at last past the next side too, and on along that: every edge is past a side. */
static umb_point along_sides(size_t i, size_t count) {
    (void)count;
    size_t side = i / 8 % 4;
    double past = between(0.01, 1.0), along = between(0.01, 1.0);
    if (i % 8 == 7) along = side == 1 || side == 2 ? 1.0 + along : -along;
    return beyond(side, past, along);
}

/* From each side to the next, so far out that no edge meets the window. No edge is past one side alone. */
static umb_point round_corners(size_t i, size_t count) {
    (void)count;
    double past = between(2.0, 3.0);
    return beyond(i % 4, past, between(0.0, 1.0));
}

/* Out of the window and in again: every edge is cut at one end. */
static umb_point in_and_out(size_t i, size_t count) {
    if (i % 2 == 0) return inside(i, count);
    for (;;) {
        umb_point p = anywhere(i, count);
        if (p.x < 0.0 || p.x > 1.0 || p.y < 0.0 || p.y > 1.0) return p;
    }
}

/* From a side to the opposite one and back, so that edges are cut at both ends. Each eighth sample is inside, and then
 * it is the other two sides. */
static umb_point across(size_t i, size_t count) {
    if (i % 8 == 0) return inside(i, count);
    double past = between(0.01, 1.0);
    return beyond(i % 2 * 2 + i / 8 % 2, past, between(0.0, 1.0));
}

/* On a side and beyond it in turn, each eighth sample at a corner, and after eight samples the next side: the edges
 * only touch the window, but for the few from one side to the next. */
static umb_point touching(size_t i, size_t count) {
    (void)count;
    double past = between(0.01, 1.0), along = between(0.0, 1.0);
    return beyond(i / 8 % 4, i % 2 == 0 ? 0.0 : past, i % 8 == 0 ? 0.0 : along);
}

/* From one side of a corner to the other, so that the edge touches the window at the corner alone: x + y = 0, and all
 * of it is exact in binary. */
static umb_point past_a_corner(size_t i, size_t count) {
    (void)count;
    double far = (double)(1 + next_number() % 64) / 64.0;
    return i % 2 == 0 ? (umb_point){far, -far} : (umb_point){-far, far};
}

/* Up and down in the window: time stands still. */
static umb_point upright(size_t i, size_t count) {
    (void)i, (void)count;
    return (umb_point){0.5, between(0.0, 1.0)};
}

/* A coordinate is NaN, an infinity or the float above 2^500. */
static umb_point dead(size_t i, size_t count) {
    static const double refused[] = {__builtin_nan(""), __builtin_inf(), -__builtin_inf(), 0x1.0000000000001p500};
    umb_point p = sample(i, count);
    uint64_t kind = next_number() >> 61;
    double x = refused[kind >> 1];
    return kind & 1 ? (umb_point){x, p.y} : (umb_point){p.x, x};
}

/* One in sixteen is dead. */
static umb_point seldom_dead(size_t i, size_t count) {
    return next_number() >> 60 == 0 ? dead(i, count) : sample(i, count);
}

/* ---- samples of a trace of so many, for the longest clean stretch; `sample`, `inside` and `seldom_dead` are too */

/* About the window, half of them in it. */
static umb_point about(size_t i, size_t count) {
    (void)i, (void)count;
    return point_between(-0.2, 1.2);
}

static umb_point left(size_t i, size_t count) {
    (void)i, (void)count;
    double past = between(0.01, 1.0);
    return beyond(0, past, between(0.0, 1.0));
}

static umb_point below(size_t i, size_t count) {
    (void)i, (void)count;
    double past = between(0.01, 1.0);
    return beyond(1, past, between(0.0, 1.0));
}

static umb_point right(size_t i, size_t count) {
    (void)i, (void)count;
    double past = between(0.01, 1.0);
    return beyond(2, past, between(0.0, 1.0));
}

static umb_point above(size_t i, size_t count) {
    (void)i, (void)count;
    double past = between(0.01, 1.0);
    return beyond(3, past, between(0.0, 1.0));
}

static umb_point in_and_above(size_t i, size_t count) {
    return i % 2 == 0 ? inside(i, count) : above(i, count);
}

static umb_point in_and_below(size_t i, size_t count) {
    return i % 2 == 0 ? inside(i, count) : below(i, count);
}

/* Both coordinates are NaN. */
static umb_point all_nan(size_t i, size_t count) {
    (void)i, (void)count;
    return (umb_point){__builtin_nan(""), __builtin_nan("")};
}

static umb_point nan_in_y(size_t i, size_t count) {
    return (umb_point){inside(i, count).x, __builtin_nan("")};
}

/* ---- pages: windows of one size in which a trace of `sample`, with so many edges, is looked for */

/* As wide as sixteen edges, so that a page sees a part of a rise or of a fall, and a twentieth of the window's height. */
static umb_rect page_at(double x, double y, size_t edges) {
    return (umb_rect){{x, x + 16.0 / (double)edges}, {y, y + 0.05}};
}

/* Beside the box of the whole trace, each side in turn: left, below, right, above. */
static umb_rect page_beyond(size_t i, const double *samples, size_t edges) {
    (void)samples;
    double past = between(0.3, 1.0), along = between(-0.5, 1.5);
    umb_point p = beyond(i % 4, past, along);
    return page_at(p.x, p.y, edges);
}

/* Whether an edge of the trace is kept in the page. The samples' x are 0 to 1 in equal steps, so that only a few have to
 * be asked. */
static bool is_met(umb_rect page, const double *samples, size_t edges) {
    size_t first = (size_t)(page.x.lo * (double)edges);
    for (size_t i = first > 0 ? first - 1 : 0; i < edges && i < first + 19; i++) {
        const double *ends = samples + 2 * i;
        umb_cut cut = umb_clip_edge((umb_point){ends[0], ends[1]}, (umb_point){ends[2], ends[3]}, page);
        if (cut.number == UMB_DONE) return true;
    }
    return false;
}

/* In the box of the whole trace. */
static umb_rect page_within(bool met, const double *samples, size_t edges) {
    for (;;) {
        double x = between(0.0, 1.0 - 16.0 / (double)edges);
        umb_rect page = page_at(x, between(-0.15, 1.1), edges);
        if (is_met(page, samples, edges) == met) return page;
    }
}

static umb_rect page_between(size_t i, const double *samples, size_t edges) {
    (void)i;
    return page_within(false, samples, edges);
}

static umb_rect page_met(size_t i, const double *samples, size_t edges) {
    (void)i;
    return page_within(true, samples, edges);
}

/* The last of fifty is met, the others are beyond and between in turn. */
static umb_rect page_mixed(size_t i, const double *samples, size_t edges) {
    if (i % 50 == 49) return page_met(i, samples, edges);
    return i % 2 == 0 ? page_beyond(i / 2, samples, edges) : page_between(i, samples, edges);
}

/* ---- lines */

/* Normals in a face's u, v, w; with w up to twice the others, half of the lines meet the face. */
static void normals(umb_vector *lines, size_t count) {
    for (size_t i = 0; i < count; i++) {
        lines[i].x = between(-1.0, 1.0);
        lines[i].y = between(-1.0, 1.0);
        lines[i].z = between(-2.0, 2.0);
    }
}

static double magnitude(double x) {
    return x < 0.0 ? -x : x;
}

static bool meets(umb_vector n, uint8_t face) {
    double along[3] = {magnitude(n.x), magnitude(n.y), magnitude(n.z)};
    return along[(face + 1) % 3] + along[(face + 2) % 3] >= along[face % 3];
}

static uint8_t any_face(void) {
    return next_number() % 6;
}

static uint8_t face_met(umb_vector n) {
    for (;;) {
        uint8_t face = any_face();
        if (meets(n, face)) return face;
    }
}

/* The face after this one, against the clock around n. With the face's axis called i, and j and k after it in turn, it
 * is left over j where the point at that edge lies between the corners, else over k. A face of the negative side is
 * left as its opposite is, to the opposite of that one's next. */
static uint8_t face_after(uint8_t face, umb_vector n) {
    double along[3] = {n.x, n.y, n.z};
    uint8_t i = face % 3, j = (i + 1) % 3, k = (i + 2) % 3;
    bool to_high_j = along[k] > 0.0, to_high_k = along[j] < 0.0;
    double at_edge = along[i] + (to_high_j ? along[j] : -along[j]);
    bool over_j = magnitude(at_edge) <= magnitude(along[k]);
    bool high = (face < 3) == (over_j ? to_high_j : to_high_k);
    return (over_j ? j : k) + (high ? 0 : 3);
}

static size_t segments_between(uint8_t face, uint8_t target, umb_vector n) {
    size_t segments = 1;
    for (; face != target; face = face_after(face, n)) segments++;
    return segments;
}

/* From a face that the line meets to another, or the same. The ends may stand anywhere on theirs. */
static walk_input any_walk(void) {
    umb_point xy = point_between(-1.0, 1.0), a = point_between(-1.0, 1.0), b = point_between(-1.0, 1.0);
    umb_vector n = {xy.x, xy.y, between(-1.0, 1.0)};
    uint8_t face = face_met(n), target = face_met(n);
    umb_walk_answer due = {UMB_DONE, segments_between(face, target, n)};
    return (walk_input){face, target, {a.x, a.y}, {b.x, b.y}, n, WALK_BYTES, due};
}

/* Of so many segments, here and below; 0 is any number of them. */
static walk_input walk_of(size_t segments) {
    for (;;) {
        walk_input w = any_walk();
        if (segments == 0 || segments == w.due.count) return w;
    }
}

/* Into as many bytes as are written. */
static walk_input tight_walk(size_t segments) {
    walk_input w = walk_of(segments);
    w.room = w.due.count * RECORD_BYTES;
    return w;
}

/* A byte is missing. */
static walk_input short_walk(size_t segments) {
    walk_input w = tight_walk(segments);
    w.room--;
    w.due = (umb_walk_answer){UMB_SHORT_BUFFER, 0};
    return w;
}

/* From a face that the line misses. */
static walk_input walk_off_face(size_t segments) {
    for (;;) {
        walk_input w = walk_of(segments);
        w.face = any_face();
        w.due = (umb_walk_answer){UMB_OFF_FACE, 0};
        if (!meets(w.normal, w.face)) return w;
    }
}

/* To a face that the line misses. */
static walk_input unfinished_walk(size_t segments) {
    for (;;) {
        walk_input w = walk_of(segments);
        w.target = any_face();
        w.due = (umb_walk_answer){UMB_UNFINISHED, 0};
        if (!meets(w.normal, w.target)) return w;
    }
}

#endif
