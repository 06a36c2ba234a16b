#ifndef STRETCH_H
#define STRETCH_H

#include "lent.h"
#include "request.h"

enum { STRETCH = 63 };

/* The longest clean stretch that the request asks for: no bytes are lent, and all is intact where the samples are as
 * they were. */
lent stretch(const request *r);

bool same_stretch(umb_stretch_answer one, umb_stretch_answer other);

/* What does not hold of long traces, which no request has; null where all does. */
const char *wrong_with_long_stretches(void);

#endif
