#ifndef WALK_H
#define WALK_H

#include "lent.h"
#include "request.h"

/* The length of the buffer that the request asks for. */
size_t walk_length(const request *r);
/* The walk that it asks for, with a buffer of another length. */
lent walk(const request *r, size_t length);

#endif
