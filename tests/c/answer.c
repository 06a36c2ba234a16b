/* Answers as words. Padding is not looked at. */
#include "answer.h"

#include <string.h>

/* What stands for every NaN: its bits are not the library's to promise. */
static const uint64_t nan_bits = 0x7ff8000000000000;

static answer beside(uint8_t number)
{
    return (answer){.number = number};
}

static void put_word(answer *a, uint64_t word)
{
    a->words[a->count++] = word;
}

uint64_t shown_bits(double value)
{
    uint64_t bits;
    memcpy(&bits, &value, sizeof bits);
    return value == value ? bits : nan_bits;
}

static void put_float(answer *a, double value)
{
    put_word(a, shown_bits(value));
}

static void put_point(answer *a, umb_point p)
{
    put_float(a, p.x);
    put_float(a, p.y);
}

static void put_interval(answer *a, umb_interval i)
{
    put_float(a, i.lo);
    put_float(a, i.hi);
}

static void put_rect(answer *a, umb_rect r)
{
    put_point(a, (umb_point){r.x.lo, r.y.lo});
    put_point(a, (umb_point){r.x.hi, r.y.hi});
}

answer of_real(umb_real a)
{
    answer w = beside(a.number);
    put_float(&w, a.value);
    return w;
}

/* The byte itself, so that a bool that holds neither 0 nor 1 shows. */
answer of_yes_no(umb_yes_no a)
{
    answer w = beside(a.number);
    uint8_t byte;
    memcpy(&byte, &a.yes, sizeof byte);
    put_word(&w, byte);
    return w;
}

answer of_point(umb_point_answer a)
{
    answer w = beside(a.number);
    put_point(&w, a.point);
    return w;
}

answer of_interval(umb_interval_answer a)
{
    answer w = beside(a.number);
    put_interval(&w, a.interval);
    return w;
}

answer of_rect(umb_rect_answer a)
{
    answer w = beside(a.number);
    put_rect(&w, a.rect);
    return w;
}

answer of_bare_rect(umb_rect rect)
{
    return of_rect((umb_rect_answer){UMB_DONE, rect});
}

answer of_corners(umb_corners a)
{
    answer w = beside(a.number);
    for (size_t i = 0; i < 4; i++)
        put_point(&w, a.vertices[i]);
    return w;
}

answer of_axes(umb_axes a)
{
    answer w = beside(a.number);
    put_interval(&w, a.bound0);
    put_interval(&w, a.bound1);
    return w;
}

answer of_cut(umb_cut a)
{
    answer w = beside(a.number);
    put_point(&w, a.a);
    put_point(&w, a.b);
    return w;
}

answer of_face(umb_face_answer a)
{
    answer w = beside(a.number);
    put_word(&w, a.face);
    return w;
}

answer of_face_uv(umb_face_uv a)
{
    answer w = beside(a.number);
    put_word(&w, a.face);
    put_float(&w, a.u);
    put_float(&w, a.v);
    return w;
}

answer of_uv(umb_uv_answer a)
{
    answer w = beside(a.number);
    put_float(&w, a.u);
    put_float(&w, a.v);
    return w;
}

answer of_vector(umb_vector_answer a)
{
    answer w = beside(a.number);
    put_float(&w, a.vector.x);
    put_float(&w, a.vector.y);
    put_float(&w, a.vector.z);
    return w;
}

answer of_axis(umb_axis_answer a)
{
    answer w = beside(a.number);
    put_word(&w, a.axis);
    return w;
}

answer of_walk(umb_walk_answer a)
{
    answer w = beside(a.number);
    put_word(&w, a.count);
    return w;
}

answer of_trace(umb_trace_answer a)
{
    answer w = beside(a.number);
    put_word(&w, a.kept);
    put_word(&w, a.missed);
    put_word(&w, a.refused);
    put_word(&w, a.edges);
    return w;
}

answer of_stretch(umb_stretch_answer a)
{
    answer w = beside(a.number);
    put_word(&w, a.first);
    put_word(&w, a.count);
    return w;
}

answer of_pages(umb_pages_answer a)
{
    answer w = beside(a.number);
    put_word(&w, a.floats);
    return w;
}

answer of_kept(umb_kept_answer a)
{
    answer w = beside(a.number);
    put_word(&w, a.edge);
    put_word(&w, a.opened);
    return w;
}

answer both(answer one, answer other)
{
    for (size_t i = 0; i < other.count; i++)
        put_word(&one, other.words[i]);
    one.number = one.number == other.number ? one.number : UINT8_MAX;
    return one;
}

bool same_answer(const answer *one, const answer *other)
{
    return one->number == other->number && one->count == other->count &&
           memcmp(one->words, other->words, one->count * sizeof one->words[0]) == 0;
}

bool zeros_beside_number(const answer *a)
{
    for (size_t i = 0; i < a->count; i++)
        if (a->number != UMB_DONE && a->words[i] != 0)
            return false;
    return true;
}

bool zeros_beside_kept(const answer *a)
{
    answer asked = *a;
    asked.count -= a->number == UMB_MISSED;
    return zeros_beside_number(&asked);
}
