#include "record.h"

#include "request.h"

#include <string.h>

static bool is_float(const uint8_t *bytes, double value)
{
    uint64_t bits;
    memcpy(&bits, &value, sizeof bits);
    return word_of(bytes) == bits;
}

static bool is_point(const uint8_t *bytes, umb_point p)
{
    return is_float(bytes, p.x) && is_float(bytes + 8, p.y);
}

/* The first eight bytes are read as a word, of which the number is the high half. */
bool is_record(const uint8_t *bytes, uint8_t first, uint32_t whose, umb_point a, umb_point b)
{
    return word_of(bytes) == ((uint64_t)whose << 32 | first) && is_point(bytes + 8, a) && is_point(bytes + 24, b);
}
