#ifndef SAMPLES_H
#define SAMPLES_H

#include <stddef.h>
#include <stdint.h>

/* Makes so many samples, x and y in turn, for the window from 0 to 1 on both axes: in it and all around it, many on its
 * very sides and corners; now and then the one before once more, or a dead one. */
void make_samples(double *samples, size_t count);

/* The next word of those that the samples are made from. */
uint64_t random_word(void);

#endif
