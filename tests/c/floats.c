#include "floats.h"

#include <string.h>

enum { GUARDS = 16, SHIFTS = 2 };

static const double guard = 0x1.a5a5a5a5a5a5ap-7;

bool same_floats(const double *one, const double *other, size_t length)
{
    return memcmp(one, other, length * sizeof *one) == 0;
}

bool all_are(const double *floats, size_t length, double each)
{
    for (size_t i = 0; i < length; i++)
        if (!same_floats(floats + i, &each, 1))
            return false;
    return true;
}

static void fill(double *floats, size_t length, double each)
{
    for (size_t i = 0; i < length; i++)
        memcpy(floats + i, &each, sizeof each);
}

double *lend_floats(size_t length, double each)
{
    static double memory[GUARDS + SHIFTS + MOST_FLOATS + GUARDS];
    static size_t shift;
    double *const floats = memory + GUARDS + shift;

    shift = (shift + 1) % SHIFTS;
    fill(floats - GUARDS, GUARDS, guard);
    fill(floats, length, each);
    fill(floats + length, GUARDS, guard);
    return floats;
}

bool float_guards_stand(const double *floats, size_t length)
{
    return all_are(floats - GUARDS, GUARDS, guard) && all_are(floats + length, GUARDS, guard);
}
