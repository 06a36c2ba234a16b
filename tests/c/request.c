/* Requests, decoded. */
#include "request.h"

#include <string.h>

uint64_t word_of(const uint8_t *bytes)
{
    uint64_t word = 0;
    for (size_t i = 8; i > 0; i--)
        word = word << 8 | bytes[i - 1];
    return word;
}

request request_of(const uint8_t bytes[REQUEST_BYTES])
{
    request r;
    for (size_t i = 0; i < REQUEST_WORDS; i++)
        r.words[i] = word_of(bytes + 8 * i);
    return r;
}

double float_at(const request *r, size_t place)
{
    double value;
    memcpy(&value, &r->words[place], sizeof value);
    return value;
}

umb_point point_at(const request *r, size_t place)
{
    return (umb_point){float_at(r, place), float_at(r, place + 1)};
}

umb_interval interval_at(const request *r, size_t place)
{
    return (umb_interval){float_at(r, place), float_at(r, place + 1)};
}

/* The low corner, then the high one. */
umb_rect rect_at(const request *r, size_t place)
{
    const umb_point lo = point_at(r, place), hi = point_at(r, place + 2);
    return (umb_rect){{lo.x, hi.x}, {lo.y, hi.y}};
}

umb_vector vector_at(const request *r, size_t place)
{
    return (umb_vector){float_at(r, place), float_at(r, place + 1), float_at(r, place + 2)};
}

umb_uv uv_at(const request *r, size_t place)
{
    return (umb_uv){float_at(r, place), float_at(r, place + 1)};
}

bool yes_at(const request *r, size_t place)
{
    return r->words[place] != 0;
}

size_t length_at(const request *r, size_t place, size_t limit)
{
    return r->words[place] < limit ? (size_t)r->words[place] : limit;
}

uint8_t number_at(const request *r, size_t place)
{
    return r->words[place] <= UINT8_MAX ? (uint8_t)r->words[place] : UINT8_MAX;
}

uint32_t u32_at(const request *r, size_t place)
{
    return (uint32_t)r->words[place];
}
