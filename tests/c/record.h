/* A record, as a walk and a trace write it. */
#ifndef RECORD_H
#define RECORD_H

#include "umblacet.h"

enum { RECORD = 40 };

/* Whether these bytes are one: the first byte, three zeros, whose it is, and the floats of a and b. */
bool is_record(const uint8_t *bytes, uint8_t first, uint32_t whose, umb_point a, umb_point b);

#endif
