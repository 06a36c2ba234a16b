/* What a function answered: its number, and every other member of its struct as a word, in the order of a line. */
#ifndef ANSWER_H
#define ANSWER_H

#include "umblacet.h"

enum { ANSWER_WORDS = 8 };

typedef struct answer {
    uint8_t number;
    size_t count;
    uint64_t words[ANSWER_WORDS];
} answer;

answer of_real(umb_real a);
answer of_yes_no(umb_yes_no a);
answer of_point(umb_point_answer a);
answer of_interval(umb_interval_answer a);
answer of_rect(umb_rect_answer a);
/* The empty rectangle, which comes with no number. */
answer of_bare_rect(umb_rect rect);
answer of_corners(umb_corners a);
answer of_axes(umb_axes a);
answer of_cut(umb_cut a);
answer of_face(umb_face_answer a);
answer of_face_uv(umb_face_uv a);
answer of_uv(umb_uv_answer a);
answer of_vector(umb_vector_answer a);
answer of_axis(umb_axis_answer a);
answer of_walk(umb_walk_answer a);
answer of_trace(umb_trace_answer a);
answer of_stretch(umb_stretch_answer a);
answer of_pages(umb_pages_answer a);
answer of_kept(umb_kept_answer a);

/* A float as a line has it: its bits, one NaN for all. */
uint64_t shown_bits(double value);

/* The words of one, then of the other. Their numbers ought to be the same; a number of its own where they are not. */
answer both(answer one, answer other);

bool same_answer(const answer *one, const answer *other);
/* Whether zeros stand beside any number but 0. */
bool zeros_beside_number(const answer *a);
/* The same of a search: beside 1 the count of opened boxes, its last word, may be any. */
bool zeros_beside_kept(const answer *a);

#endif
