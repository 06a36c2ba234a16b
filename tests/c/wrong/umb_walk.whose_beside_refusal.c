/* Says whose the first record would be before it finds that the walk is refused. */
#include "wrapped.h"

umb_walk_answer __wrap_umb_walk(uint8_t face, umb_uv a, uint8_t target, umb_uv b, umb_vector normal, uint32_t whose,
                                uint8_t *out, size_t out_length)
{
    const umb_walk_answer walked = __real_umb_walk(face, a, target, b, normal, whose, out, out_length);
    for (size_t i = 4; i < 8 && walked.number != UMB_DONE && out_length >= 40; i++)
        out[i] = (uint8_t)(whose >> 8 * (i - 4));
    return walked;
}
