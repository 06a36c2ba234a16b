/* Clears all that it is lent, and writes its records then. */
#include "wrapped.h"

umb_walk_answer __wrap_umb_walk(uint8_t face, umb_uv a, uint8_t target, umb_uv b, umb_vector normal, uint32_t whose,
                                uint8_t *out, size_t out_length)
{
    const umb_walk_answer walked = __real_umb_walk(face, a, target, b, normal, whose, out, out_length);
    for (size_t i = 40 * walked.count; i < out_length && walked.count > 0; i++)
        out[i] = 0;
    return walked;
}
