/* Clears the eight bytes after its last record where it has filled what it is lent. */
#include "wrapped.h"

umb_walk_answer __wrap_umb_walk(uint8_t face, umb_uv a, uint8_t target, umb_uv b, umb_vector normal, uint32_t whose,
                                uint8_t *out, size_t out_length)
{
    const umb_walk_answer walked = __real_umb_walk(face, a, target, b, normal, whose, out, out_length);
    for (size_t i = 0; i < 8 && walked.count > 0 && out_length == 40 * walked.count; i++)
        out[out_length + i] = 0;
    return walked;
}
