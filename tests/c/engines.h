#ifndef ENGINES_H
#define ENGINES_H

/* What does not hold of two engines whose records stand in neighbouring parts of one buffer; null where all does. */
const char *wrong_with_two_engines(void);

#endif
