#ifndef PAGES_H
#define PAGES_H

#include "answer.h"
#include "request.h"

/* The boxes built and then searched, or only searched. No request asks for more floats of boxes. */
enum { PAGES = 64, SEARCH = 65, BOX_FLOATS = 75 };

/* What a request's calls answered and left. */
typedef struct paged {
    answer built; /* as of no call where the boxes are only searched */
    answer found;
    size_t length;
    double boxes[BOX_FLOATS]; /* the lent floats after the calls */
    bool intact;              /* whether all else is as it was */
    bool only_read;           /* whether the search left the boxes as they were */
} paged;

/* How many floats the request asks to lend. */
size_t pages_length(const request *r);
/* What it asks for, with another number of floats lent. */
paged pages(const request *r, size_t length);
bool same_paged(const paged *one, const paged *other);

/* What does not hold of long traces, which no request has; null where all does. */
const char *wrong_with_long_pages(void);
/* What does not hold of the stack that the two functions take; null where all does. */
const char *wrong_with_stack(void);

#endif
