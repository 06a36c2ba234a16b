/* Has the number in bytes 4 to 7, and what it can of it in bytes 1 to 3 too. */
#include "wrapped.h"

umb_walk_answer __wrap_umb_walk(uint8_t face, umb_uv a, uint8_t target, umb_uv b, umb_vector normal, uint32_t whose,
                                uint8_t *out, size_t out_length)
{
    const umb_walk_answer walked = __real_umb_walk(face, a, target, b, normal, whose, out, out_length);
    for (size_t i = 0; i < 40 * walked.count; i++)
        if (1 <= i % 40 && i % 40 < 4)
            out[i] = out[i + 3];
    return walked;
}
