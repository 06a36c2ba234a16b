/* A request of the answering program: the operation, then its arguments, each taken by the place of its first word. */
#ifndef REQUEST_H
#define REQUEST_H

#include "umblacet.h"

enum { REQUEST_WORDS = 24, REQUEST_BYTES = 8 * REQUEST_WORDS };

typedef struct request {
    uint64_t words[REQUEST_WORDS];
} request;

/* The word that begins at this byte. */
uint64_t word_of(const uint8_t *bytes);
request request_of(const uint8_t bytes[REQUEST_BYTES]);

double float_at(const request *r, size_t place);
umb_point point_at(const request *r, size_t place);
umb_interval interval_at(const request *r, size_t place);
umb_rect rect_at(const request *r, size_t place);
umb_vector vector_at(const request *r, size_t place);
umb_uv uv_at(const request *r, size_t place);
bool yes_at(const request *r, size_t place);
/* A face, axis or direction: 255 for a word above it. */
uint8_t number_at(const request *r, size_t place);
/* A trace number: the word modulo 2^32. */
uint32_t u32_at(const request *r, size_t place);
/* A length: the limit for a word above it. */
size_t length_at(const request *r, size_t place, size_t limit);

/* No request has more floats of a trace. */
enum { FLOATS = 16 };

#endif
