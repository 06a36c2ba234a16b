#ifndef TOUCHES_H
#define TOUCHES_H

/* What does not hold of single edges that touch their windows, or nearly do; null where all does. */
const char *wrong_with_touches(void);

#endif
