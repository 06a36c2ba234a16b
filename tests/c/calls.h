#ifndef CALLS_H
#define CALLS_H

#include "answer.h"
#include "request.h"

/* Calls the library's function for the request's operation; no where the operation is not listed. Those that take a
 * trace or are lent a buffer are apart. */
bool call(const request *r, answer *a);

#endif
