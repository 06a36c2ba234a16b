#ifndef LIMIT_H
#define LIMIT_H

/* What does not hold of floats about 2^500, the greatest that cutting admits; null where all does. */
const char *wrong_about_the_limit(void);

#endif
