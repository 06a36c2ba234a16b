/* The kit's compiler comes with no headers of a C library. Those in this folder declare what tests/c uses, no more. */
#ifndef STDBOOL_H
#define STDBOOL_H

#ifndef __cplusplus
#define bool _Bool
#define true 1
#define false 0
#endif

#endif
