#ifndef LONG_TRACE_H
#define LONG_TRACE_H

/* What does not hold of traces about the limit of 4,096 samples, which no request has; null where all does. */
const char *wrong_with_long_traces(void);

#endif
