/* Says whose a record is in the first one only. */
#include "wrapped.h"

static void clear(uint8_t *bytes, size_t count)
{
    for (size_t i = 0; i < count; i++)
        bytes[i] = 0;
}

umb_walk_answer __wrap_umb_walk(uint8_t face, umb_uv a, uint8_t target, umb_uv b, umb_vector normal, uint32_t whose,
                                uint8_t *out, size_t out_length)
{
    const umb_walk_answer walked = __real_umb_walk(face, a, target, b, normal, whose, out, out_length);
    for (size_t i = 1; i < walked.count; i++)
        clear(out + 40 * i + 4, 4);
    return walked;
}
