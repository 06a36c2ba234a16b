#include "pages.h"

#include "floats.h"

#include <string.h>

/* The float that fills the buffer stands after the places of all floats, however many are asked. */
enum { WINDOW = 3, SAMPLES = 7, FILLS = SAMPLES + FLOATS };

size_t pages_length(const request *r)
{
    return length_at(r, 2, BOX_FLOATS);
}

/* What is not a box stays as it was lent: all floats beside a number that is not 0. */
static bool build(paged *p, const double *samples, size_t count, double *boxes, double fills)
{
    const umb_pages_answer built = umb_build_pages(samples, count, boxes, p->length);
    const size_t written = built.number == UMB_DONE && built.floats <= p->length ? built.floats : 0;
    p->built = of_pages(built);
    return all_are(boxes + written, p->length - written, fills);
}

paged pages(const request *r, size_t length)
{
    const size_t count = length_at(r, 1, FLOATS);
    const double fills = float_at(r, FILLS);
    double *const boxes = lend_floats(length, fills);
    double samples[FLOATS];
    paged p = {.length = length, .intact = true};

    memcpy(samples, r->words + SAMPLES, sizeof samples);
    if (r->words[0] == PAGES)
        p.intact = build(&p, samples, count, boxes, fills);
    memcpy(p.boxes, boxes, length * sizeof *boxes);
    p.found = of_kept(umb_first_kept(samples, count, rect_at(r, WINDOW), boxes, length));
    p.only_read = same_floats(p.boxes, boxes, length);
    p.intact = p.intact && float_guards_stand(boxes, length) &&
               memcmp(samples, r->words + SAMPLES, sizeof samples) == 0;
    return p;
}

bool same_paged(const paged *one, const paged *other)
{
    return same_answer(&one->built, &other->built) && same_answer(&one->found, &other->found) &&
           same_floats(one->boxes, other->boxes, BOX_FLOATS);
}
