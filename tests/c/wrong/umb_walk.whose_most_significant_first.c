/* Writes the number's most significant byte first. */
#include "wrapped.h"

static uint32_t turned(uint32_t whose)
{
    return whose << 24 | (whose << 8 & 0xff0000) | (whose >> 8 & 0xff00) | whose >> 24;
}

umb_walk_answer __wrap_umb_walk(uint8_t face, umb_uv a, uint8_t target, umb_uv b, umb_vector normal, uint32_t whose,
                                uint8_t *out, size_t out_length)
{
    return __real_umb_walk(face, a, target, b, normal, turned(whose), out, out_length);
}
