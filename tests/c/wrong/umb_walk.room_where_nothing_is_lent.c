/* Says that a walk is done where nothing is lent for it. */
#include "wrapped.h"

umb_walk_answer __wrap_umb_walk(uint8_t face, umb_uv a, uint8_t target, umb_uv b, umb_vector normal, uint32_t whose,
                                uint8_t *out, size_t out_length)
{
    const umb_walk_answer walked = __real_umb_walk(face, a, target, b, normal, whose, out, out_length);
    return out_length == 0 && walked.number == UMB_SHORT_BUFFER ? (umb_walk_answer){UMB_DONE, 0} : walked;
}
