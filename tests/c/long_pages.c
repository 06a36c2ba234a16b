/* The boxes of traces up to the limit of 4,096 samples, each beside what a scan of its edges gives; and the search,
 * its edge beside the records of umb_cut_trace_with_touches, its count beside a walk over the boxes in their order. */
#include "floats.h"
#include "lent.h"
#include "pages.h"
#include "record.h"
#include "samples.h"

#include <string.h>

enum { LIMIT = 4096, BOX = 5, MOST_BOXES = 2 * (LIMIT - 1) - 1, SHORT = 40, WINDOWS = 5 };

/* One sample more than a call takes. */
static double samples[2 * (LIMIT + 1)];
static const umb_rect square = {{0, 1}, {0, 1}}, turned = {{0, 1}, {1, 0}};

/* A trace of so many samples, and so many floats lent beyond its boxes. */
typedef struct asked {
    size_t count, spare;
    double fills;
} asked;

static size_t edges_of(const asked *t)
{
    return t->count > 1 ? t->count - 1 : 0;
}

/* ---- what is due, with no call of itself */

/* The edges below each box, in the order of the boxes. */
static struct range {
    size_t first, edges;
} ranges[MOST_BOXES];

static size_t list_ranges(size_t edges)
{
    struct range waiting[16] = {{0, edges}};
    size_t waits = edges > 0, count = 0;
    while (waits > 0) {
        const struct range r = waiting[--waits];
        const size_t longer = (r.edges + 1) / 2;
        ranges[count++] = r;
        if (r.edges == 1)
            continue;
        waiting[waits++] = (struct range){r.first + longer, r.edges - longer};
        waiting[waits++] = (struct range){r.first, longer};
    }
    return count;
}

static bool is_live(const double *edge)
{
    for (size_t i = 0; i < 4; i++)
        if (!(-0x1p500 <= edge[i] && edge[i] <= 0x1p500))
            return false;
    return true;
}

static void take_in(double box[BOX], const double sample[2])
{
    for (size_t axis = 0; axis < 2; axis++) {
        if (box[4] == 0 || sample[axis] < box[axis])
            box[axis] = sample[axis];
        if (box[4] == 0 || sample[axis] > box[axis + 2])
            box[axis + 2] = sample[axis];
    }
    box[4] = 1;
}

static bool is_due(const double *box, struct range r)
{
    double due[BOX] = {1, 1, 0, 0, 0};
    for (const double *edge = samples + 2 * r.first; edge < samples + 2 * (r.first + r.edges); edge += 2) {
        if (!is_live(edge))
            continue;
        take_in(due, edge);
        take_in(due, edge + 2);
    }
    return same_floats(box, due, BOX);
}

static bool share(umb_interval w, double lo, double hi)
{
    return lo <= hi && w.lo <= hi && lo <= w.hi;
}

static bool is_open(const double *box, umb_rect to)
{
    return box[4] == 1 && share(to.x, box[0], box[2]) && share(to.y, box[1], box[3]);
}

/* From box to box: past all that are below one that is passed over, else to the next. */
static umb_kept_answer search_due(const double *boxes, size_t count, umb_rect to, const uint8_t *records)
{
    umb_kept_answer due = {.number = UMB_MISSED};
    for (size_t place = 0; place < count;) {
        const struct range r = ranges[place];
        due.opened++;
        if (!is_open(boxes + BOX * place, to))
            place += 2 * r.edges - 1;
        else if (r.edges == 1 && records[RECORD * r.first] == UMB_DONE)
            return (umb_kept_answer){UMB_DONE, r.first, due.opened};
        else
            place++;
    }
    return due;
}

/* ---- a search */

static bool same_kept(umb_kept_answer one, umb_kept_answer other)
{
    const answer a = of_kept(one), b = of_kept(other);
    return same_answer(&a, &b);
}

static const uint8_t *records_of(const asked *t, umb_rect to)
{
    uint8_t *const records = lend(RECORD * edges_of(t));
    umb_cut_trace_with_touches(samples, 2 * t->count, to, 0, records, RECORD * edges_of(t));
    return records;
}

static bool scan_finds(const uint8_t *records, size_t edges, umb_kept_answer found)
{
    size_t first = 0;
    while (first < edges && records[RECORD * first] != UMB_DONE)
        first++;
    return first < edges ? found.number == UMB_DONE && found.edge == first : found.number == UMB_MISSED;
}

/* In boxes that were built for the trace, or in others. */
static const char *wrong_with_search(const asked *t, const double *boxes, umb_rect to, bool built)
{
    static double before[MOST_FLOATS];
    const size_t count = list_ranges(edges_of(t)), length = BOX * count;
    const uint8_t *const records = records_of(t, to);
    memcpy(before, boxes, length * sizeof *boxes);
    const umb_kept_answer found = umb_first_kept(samples, 2 * t->count, to, boxes, length);
    if (!same_floats(before, boxes, length))
        return "a search only reads the boxes";
    if (built && !scan_finds(records, edges_of(t), found))
        return "the edge is the first that umb_cut_trace_with_touches keeps";
    if (!same_kept(found, search_due(boxes, count, to, records)))
        return "the boxes are opened in their order, and those below one that is passed over are not";
    return NULL;
}

/* Near a sample of the trace, or beside it; of no width or no height now and then. */
static umb_rect random_window(const asked *t)
{
    static const double widths[] = {0, 0.25, 0.015625, 1, 16};
    const uint64_t word = random_word();
    const double *near = samples + 2 * (t->count > 0 ? word % t->count : 0);
    near = is_live(near) ? near : samples;
    const double x = near[0] + (double)(word >> 16 & 7) / 4 - 0.75, y = near[1] + (double)(word >> 20 & 15) / 4 - 1.75;
    const umb_rect to = {{x, x + widths[(word >> 32) % 5]}, {y, y + widths[(word >> 40) % 5]}};
    return is_live((const double *)&to) ? to : square;
}

static const char *wrong_with_windows(const asked *t, const double *boxes, bool built)
{
    const char *wrong = wrong_with_search(t, boxes, square, built);
    for (size_t i = 0; i < WINDOWS && wrong == NULL; i++)
        wrong = wrong_with_search(t, boxes, random_window(t), built);
    return wrong;
}

/* ---- boxes that no call built */

/* A box of all that is admitted. */
static const double widest[BOX] = {-0x1p500, -0x1p500, 0x1p500, 0x1p500, 1};

/* One with a NaN in one of its places, with another mark or none, with its ends exchanged on an axis, or the widest. */
static void spoil(double *box, uint64_t word)
{
    static const double marks[] = {0, -1, 2, 0x1.fffffffffffffp-1};
    const uint64_t nan = 0x7ff8000000000000, which = word / 4;
    const double low = box[which % 2];
    switch (word % 4) {
    case 0:
        memcpy(box + which % BOX, &nan, sizeof nan);
        break;
    case 1:
        box[4] = marks[which % 4];
        break;
    case 2:
        box[which % 2] = box[which % 2 + 2];
        box[which % 2 + 2] = low;
        break;
    default:
        memcpy(box, widest, sizeof widest);
    }
}

static const char *wrong_with_other_boxes(const asked *t, const double *built)
{
    static double boxes[MOST_FLOATS];
    const size_t count = list_ranges(edges_of(t));
    for (size_t i = 0; i < count; i++)
        memcpy(boxes + BOX * i, widest, sizeof widest);
    const char *wrong = wrong_with_windows(t, boxes, false);
    memcpy(boxes, built, BOX * count * sizeof *boxes);
    for (size_t i = 0; i < count; i += 1 + random_word() % 8)
        spoil(boxes + BOX * i, random_word());
    return wrong != NULL ? wrong : wrong_with_windows(t, boxes, false);
}

/* ---- a trace */

static const char *wrong_with_boxes(const asked *t, const double *boxes, umb_pages_answer given)
{
    const size_t count = list_ranges(edges_of(t)), length = BOX * count;
    if (given.number != UMB_DONE || given.floats != length)
        return "five floats for each of 2m - 1 boxes";
    if (!all_are(boxes + length, t->spare, t->fills) || !float_guards_stand(boxes, length + t->spare))
        return "no float but the boxes' is written";
    for (size_t i = 0; i < count; i++)
        if (!is_due(boxes + BOX * i, ranges[i]))
            return "each box is that of the live edges below it";
    return NULL;
}

static const char *wrong_with_trace(asked t)
{
    static double before[2 * (LIMIT + 1)];
    memcpy(before, samples, sizeof before);
    const size_t length = BOX * list_ranges(edges_of(&t)) + t.spare;
    double *const boxes = lend_floats(length, t.fills);
    const char *wrong = wrong_with_boxes(&t, boxes, umb_build_pages(samples, 2 * t.count, boxes, length));
    if (wrong == NULL)
        wrong = wrong_with_windows(&t, boxes, true);
    if (wrong == NULL)
        wrong = wrong_with_other_boxes(&t, boxes);
    return wrong == NULL && memcmp(before, samples, sizeof before) != 0 ? "the samples are only read" : wrong;
}

/* A chart: each sample farther on, and none as far out as is admitted. */
static void make_chart(void)
{
    make_samples(samples, LIMIT + 1);
    for (size_t i = 0; i <= LIMIT; i++)
        for (size_t axis = 0; axis < 2; axis++) {
            double *const at = samples + 2 * i + axis;
            *at = (*at == -0x1p500 ? 0.5 : *at) + (axis == 0 ? (double)i / 4 : 0);
        }
}

/* All dead at first; then some short ones, the longest, and charts up to the longest. */
static const char *wrong_with_traces(void)
{
    memset(samples, 0xff, sizeof samples);
    const char *wrong = wrong_with_trace((asked){SHORT, 1, 1});
    make_samples(samples, LIMIT + 1);
    for (size_t count = 0; count <= SHORT && wrong == NULL; count++)
        wrong = wrong_with_trace((asked){count, count % 3, 1});
    if (wrong == NULL)
        wrong = wrong_with_trace((asked){LIMIT, 0, -0.0});
    make_chart();
    for (size_t count = SHORT; count < LIMIT && wrong == NULL; count = 5 * count + 3)
        wrong = wrong_with_trace((asked){count, 1, 0.5});
    return wrong != NULL ? wrong : wrong_with_trace((asked){LIMIT, 7, 0x1p-1074});
}

/* ---- refusals: nothing is written, and zeros stand beside the number */

static bool build_refused(uint8_t number, size_t floats, size_t length)
{
    double *const boxes = lend_floats(length, 0.25);
    const umb_pages_answer given = umb_build_pages(samples, floats, boxes, length);
    return given.number == number && given.floats == 0 && all_are(boxes, length, 0.25) &&
           float_guards_stand(boxes, length);
}

static bool search_refused(uint8_t number, size_t floats, umb_rect to, size_t length)
{
    double *const boxes = lend_floats(length, 1);
    const umb_kept_answer given = umb_first_kept(samples, floats, to, boxes, length);
    return same_kept(given, (umb_kept_answer){.number = number}) && all_are(boxes, length, 1);
}

static bool both_refused(uint8_t number, size_t floats, umb_rect to, size_t length)
{
    return build_refused(number, floats, length) && search_refused(number, floats, to, length);
}

static const char *wrong_with_refusals(void)
{
    const size_t room = BOX * MOST_BOXES;
    if (!both_refused(UMB_SHORT_BUFFER, 2 * LIMIT, square, room - 1) || !both_refused(UMB_SHORT_BUFFER, 4, square, 4) ||
        !both_refused(UMB_SHORT_BUFFER, 4, square, 0))
        return "8 where the boxes lack a float, and none is written";
    if (!both_refused(UMB_BAD_TRACE, 2 * LIMIT + 2, square, MOST_FLOATS))
        return "10 for a sample more than 4,096";
    if (!both_refused(UMB_BAD_TRACE, 2 * LIMIT - 1, square, room) || !both_refused(UMB_BAD_TRACE, 1, square, room))
        return "10 for an odd count of floats";
    if (!search_refused(UMB_BAD_WINDOW, 2 * LIMIT, turned, room) || !search_refused(UMB_BAD_WINDOW, 0, turned, 0))
        return "3 for a bad window";
    if (!both_refused(UMB_BAD_TRACE, 3, turned, 0) || !search_refused(UMB_BAD_WINDOW, 2 * LIMIT, turned, room - 1))
        return "10 comes before 3, and 3 before 8";
    return NULL;
}

const char *wrong_with_long_pages(void)
{
    const char *wrong = wrong_with_traces();
    return wrong != NULL ? wrong : wrong_with_refusals();
}
