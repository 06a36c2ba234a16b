/* Keeps one byte of the number. */
#include "wrapped.h"

umb_walk_answer __wrap_umb_walk(uint8_t face, umb_uv a, uint8_t target, umb_uv b, umb_vector normal, uint32_t whose,
                                uint8_t *out, size_t out_length)
{
    return __real_umb_walk(face, a, target, b, normal, whose & 0xff, out, out_length);
}
