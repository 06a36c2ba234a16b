/* Keeps something between calls: the number of the call before. */
#include "wrapped.h"

umb_walk_answer __wrap_umb_walk(uint8_t face, umb_uv a, uint8_t target, umb_uv b, umb_vector normal, uint32_t whose,
                                uint8_t *out, size_t out_length)
{
    static uint32_t kept;
    const uint32_t before = kept;
    kept = whose;
    return __real_umb_walk(face, a, target, b, normal, before, out, out_length);
}
