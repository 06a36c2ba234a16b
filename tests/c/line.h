#ifndef LINE_H
#define LINE_H

#include "answer.h"

/* The number and, beside 0, the words. */
void write_answer(const answer *a);
/* The number and the words whatever the number, then the buffer's bytes. */
void write_lent(const answer *a, const uint8_t *bytes, size_t length);
/* The same of both, then the buffer's floats. */
void write_both(const answer *one, const answer *other, const double *floats, size_t length);
void write_number(uint8_t number);

#endif
