#include "stretch.h"

#include <string.h>

lent stretch(const request *r)
{
    const size_t count = length_at(r, 1, FLOATS);
    double samples[FLOATS];
    lent s = {.length = 0};

    memcpy(samples, r->words + 6, sizeof samples);
    s.answer = of_stretch(umb_longest_clean(samples, count, rect_at(r, 2)));
    s.intact = memcmp(samples, r->words + 6, sizeof samples) == 0;
    return s;
}

bool same_stretch(umb_stretch_answer one, umb_stretch_answer other)
{
    const answer a = of_stretch(one), b = of_stretch(other);
    return same_answer(&a, &b);
}
