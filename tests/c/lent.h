/* Memory lent to a call: it lies between guard bytes, at an address that changes from call to call. */
#ifndef LENT_H
#define LENT_H

#include "answer.h"

/* No request asks for a longer buffer; a trace of 4,097 samples has records of MOST_LENT bytes. */
enum { LONGEST = 400, MOST_LENT = 4096 * 40 };

/* A buffer of this length, MOST_LENT at the most, that no call has touched yet. It is taken back by the next one. */
uint8_t *lend(size_t length);
/* Whether the guard bytes before and after it are as they were. */
bool guards_stand(const uint8_t *out, size_t length);
/* Whether these bytes of it are as they were lent. */
bool untouched(const uint8_t *bytes, size_t length);

/* What a request's call answered and left. */
typedef struct lent {
    answer answer;
    size_t length;
    uint8_t bytes[LONGEST]; /* the buffer after the call */
    bool intact;            /* whether all else is as it was */
} lent;

bool same_lent(const lent *one, const lent *other);

#endif
