/* Lines, as the answering program writes them. */
#include "line.h"

#include <stdio.h>

/* The low digits of the value. */
static void write_hex(uint64_t value, unsigned digits)
{
    while (digits > 0)
        putchar("0123456789abcdef"[value >> 4 * --digits & 15]);
}

static void write_word(uint64_t word)
{
    putchar(' ');
    write_hex(word, 16);
}

static void write_words(const answer *a)
{
    printf("%u", a->number);
    for (size_t i = 0; i < a->count; i++)
        write_word(a->words[i]);
}

void write_number(uint8_t number)
{
    printf("%u\n", number);
}

void write_answer(const answer *a)
{
    if (a->number != UMB_DONE) {
        write_number(a->number);
        return;
    }
    write_words(a);
    putchar('\n');
}

void write_lent(const answer *a, const uint8_t *bytes, size_t length)
{
    write_words(a);
    if (length > 0)
        putchar(' ');
    for (size_t i = 0; i < length; i++)
        write_hex(bytes[i], 2);
    putchar('\n');
}

void write_both(const answer *one, const answer *other, const double *floats, size_t length)
{
    write_words(one);
    putchar(' ');
    write_words(other);
    for (size_t i = 0; i < length; i++)
        write_word(shown_bits(floats[i]));
    putchar('\n');
}
