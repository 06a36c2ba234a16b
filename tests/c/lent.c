#include "lent.h"

#include <string.h>

enum { GUARDS = 64, SHIFTS = 16, GUARD = 0x5a, UNTOUCHED = 0xa5 };

static bool all(uint8_t byte, const uint8_t *from, size_t length)
{
    for (size_t i = 0; i < length; i++)
        if (from[i] != byte)
            return false;
    return true;
}

uint8_t *lend(size_t length)
{
    static uint8_t memory[GUARDS + SHIFTS + MOST_LENT + GUARDS];
    static size_t shift;
    uint8_t *const out = memory + GUARDS + shift;

    shift = (shift + 1) % SHIFTS;
    memset(out - GUARDS, GUARD, GUARDS + length + GUARDS);
    memset(out, UNTOUCHED, length);
    return out;
}

bool guards_stand(const uint8_t *out, size_t length)
{
    return all(GUARD, out - GUARDS, GUARDS) && all(GUARD, out + length, GUARDS);
}

bool untouched(const uint8_t *bytes, size_t length)
{
    return all(UNTOUCHED, bytes, length);
}

bool same_lent(const lent *one, const lent *other)
{
    return same_answer(&one->answer, &other->answer) && memcmp(one->bytes, other->bytes, sizeof one->bytes) == 0;
}
