/* Writes other bytes the second time. */
#include "wrapped.h"

umb_walk_answer __wrap_umb_walk(uint8_t face, umb_uv a, uint8_t target, umb_uv b, umb_vector normal, uint32_t whose,
                                uint8_t *out, size_t out_length)
{
    static unsigned calls;
    const umb_walk_answer walked = __real_umb_walk(face, a, target, b, normal, whose, out, out_length);
    if (calls++ % 3 == 1 && out_length > 0)
        out[out_length - 1]++;
    return walked;
}
