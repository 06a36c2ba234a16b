#include "walk.h"

#include <string.h>

size_t walk_length(const request *r)
{
    return length_at(r, 10, LONGEST);
}

lent walk(const request *r, size_t length)
{
    uint8_t *const out = lend(length);
    lent w = {.length = length};

    w.answer = of_walk(umb_walk(number_at(r, 1), uv_at(r, 2), number_at(r, 4), uv_at(r, 5), vector_at(r, 7),
                                u32_at(r, 11), out, length));
    w.intact = guards_stand(out, length);
    memcpy(w.bytes, out, length);
    return w;
}
