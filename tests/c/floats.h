/* Floats lent to a call: they lie between guard floats, at an address that changes from call to call. */
#ifndef FLOATS_H
#define FLOATS_H

#include <stdbool.h>
#include <stddef.h>

/* The boxes of a trace of 4,096 samples, and some more. */
enum { MOST_FLOATS = 5 * (2 * 4095 - 1) + 16 };

/* So many floats, MOST_FLOATS at the most, each of them this one. They are taken back by the next call. */
double *lend_floats(size_t length, double each);
/* Whether the guards before and after them are as they were. */
bool float_guards_stand(const double *floats, size_t length);
/* Whether each of these floats is this one, bit for bit. */
bool all_are(const double *floats, size_t length, double each);
/* Whether they are the same, bit for bit. */
bool same_floats(const double *one, const double *other, size_t length);

#endif
