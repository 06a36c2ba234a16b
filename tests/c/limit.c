/* Floats about 2^500 in each argument of the operations that cut. */
#include "limit.h"

#include "calls.h"
#include "pages.h"
#include "record.h"
#include "stretch.h"
#include "trace.h"

#include <string.h>

/* The words of an operation: c a coordinate, l a window's low side, h a high one; a digit is that number, r the bytes
 * of a record. Of a search alone, which is lent a box with no mark, the coordinates are not looked at. */
static const struct operation {
    uint64_t number;
    const char *words;
} operations[] = {
    {30, "ccccc"},    {31, "cc0c"},     {32, "cccccccc0lh"}, {33, "ccccllhhcccc"},
    {34, "ccccllhh"}, {35, "ccccllhh"}, {61, "4rllhhcccc"},  {62, "4rllhhcccc"}, {63, "4llhhcccc"},
    {64, "45llhhcccc"}, {65, "45llhh"},
};

static const double limit = 0x1p500;
static const double admitted[] = {0x1p500, 0x1.fffffffffffffp499};
static const double refused[] = {0x1.0000000000001p500, 0x1p501, 0x1.fffffffffffffp1023};

static uint64_t bits_of(double value)
{
    uint64_t bits;
    memcpy(&bits, &value, sizeof bits);
    return bits;
}

static uint64_t plain_word(char kind)
{
    switch (kind) {
    case 'c':
        return 0;
    case 'l':
        return bits_of(-limit);
    case 'h':
        return bits_of(limit);
    case 'r':
        return RECORD;
    default:
        return (uint64_t)(kind - '0');
    }
}

/* All coordinates are 0, and the window is as wide as is admitted. */
static request plain_request(const struct operation *asked)
{
    request r = {.words = {asked->number}};
    for (size_t i = 0; asked->words[i] != '\0'; i++)
        r.words[i + 1] = plain_word(asked->words[i]);
    return r;
}

/* Of two samples, neither refused: whether both are in their longest clean stretch, or none is, or one is dead. */
static unsigned number_for_stretch(const answer *a)
{
    static const unsigned numbers[] = {UMB_MISSED, UMB_NOT_FINITE, UMB_DONE};
    return a->number == UMB_DONE && a->words[1] <= 2 ? numbers[a->words[1]] : a->number;
}

/* Of one edge: that of the search, but where the box that was built has no mark, it is dead. */
static unsigned number_for_pages(const request *r)
{
    const paged p = pages(r, pages_length(r));
    const bool dead = r->words[0] == PAGES && p.boxes[4] != 1;
    return p.found.number == UMB_MISSED && dead ? UMB_NOT_FINITE : p.found.number;
}

/* The number of an answer; of a trace that is not refused, its edge's. */
static unsigned number_for(const request *r)
{
    answer a = {0};
    if (entry_for(r) != NULL) {
        const lent t = trace(r, RECORD);
        return t.answer.number == UMB_DONE ? t.bytes[0] : t.answer.number;
    }
    if (r->words[0] == STRETCH) {
        const lent s = stretch(r);
        return number_for_stretch(&s.answer);
    }
    if (r->words[0] == PAGES || r->words[0] == SEARCH)
        return number_for_pages(r);
    return call(r, &a) ? a.number : UINT8_MAX;
}

/* Whether the number is one of these where the word at this place is the float, and where it is its opposite. */
static bool gives(const struct operation *asked, size_t place, double value, unsigned least, unsigned most)
{
    for (int sign = 0; sign < 2; sign++, value = -value) {
        request r = plain_request(asked);
        r.words[place + 1] = bits_of(value);
        const unsigned number = number_for(&r);
        if (number < least || number > most)
            return false;
    }
    return true;
}

static const char *wrong_at(const struct operation *asked, size_t place)
{
    const unsigned number = asked->words[place] == 'c' ? UMB_NOT_FINITE : UMB_BAD_WINDOW;
    for (size_t i = 0; i < sizeof admitted / sizeof admitted[0]; i++)
        if (!gives(asked, place, admitted[i], UMB_DONE, UMB_MISSED))
            return "2^500 and the float below it are admitted";
    for (size_t i = 0; i < sizeof refused / sizeof refused[0]; i++)
        if (!gives(asked, place, refused[i], number, number))
            return "what is beyond 2^500 is refused, with 2 or as a side of the window with 3";
    return NULL;
}

static bool is_float(char kind)
{
    return kind == 'c' || kind == 'l' || kind == 'h';
}

const char *wrong_about_the_limit(void)
{
    const char *wrong = NULL;
    for (size_t i = 0; i < sizeof operations / sizeof operations[0]; i++)
        for (size_t place = 0; operations[i].words[place] != '\0'; place++)
            if (wrong == NULL && is_float(operations[i].words[place]))
                wrong = wrong_at(&operations[i], place);
    return wrong;
}
