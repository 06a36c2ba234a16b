#include "samples.h"

#include <string.h>

/* splitmix64 (Steele, Lea and Flood, 2014) */
uint64_t random_word(void)
{
    static uint64_t state;
    state += 0x9e3779b97f4a7c15;
    uint64_t mixed = state;
    mixed = (mixed ^ mixed >> 30) * 0xbf58476d1ce4e5b9;
    mixed = (mixed ^ mixed >> 27) * 0x94d049bb133111eb;
    return mixed ^ mixed >> 31;
}

static double not_a_number(void)
{
    const uint64_t bits = 0x7ff8000000000000;
    double value;
    memcpy(&value, &bits, sizeof value);
    return value;
}

/* A quarter from -0.5 to 1.5, so that edges end on the window's sides and corners, run along them and pass through
 * them; both zeros are among them. */
static double quarter(void)
{
    const uint64_t word = random_word() % 10;
    return word == 9 ? -0.0 : (double)word / 4 - 0.5;
}

/* Any float from -0.5 to 1.5; now and then that of the sample before, one as great as is admitted, or that of a dead
 * one. */
static double coordinate(double before)
{
    const uint64_t word = random_word();
    if (word % 128 == 0)
        return not_a_number();
    if (word % 128 == 64)
        return 0x1.0000000000001p500;
    if (word % 128 == 2)
        return -0x1p500;
    if (word % 16 == 1)
        return before;
    return (double)(word >> 11) / 4503599627370496 - 0.5;
}

static void make_sample(const double before[2], double sample[2])
{
    const uint64_t kind = random_word() % 16;
    for (size_t i = 0; i < 2; i++)
        sample[i] = kind == 0 ? before[i] : kind < 8 ? quarter() : coordinate(before[i]);
}

void make_samples(double *samples, size_t count)
{
    static const double none[2];
    for (size_t i = 0; i < count; i++)
        make_sample(i == 0 ? none : samples + 2 * (i - 1), samples + 2 * i);
}
