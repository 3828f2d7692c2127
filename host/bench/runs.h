/* Racks and words that look random and are the same in every run of a program. */
#ifndef RUNS_H
#define RUNS_H

#include <stddef.h>
#include <stdint.h>

enum { MOST_WORDS = 16 * 25, MODULUS = 1000 };

/* n, f, c, and the words of a record and of all n of them. */
typedef struct {
    uint32_t n, f, c;
    size_t words, table;
} Rack;

uint32_t random_number(void);

Rack rack_of(uint32_t n, uint32_t f, uint32_t c);

/* Any rack that is not refused; c is small half of the time. */
Rack random_rack(void);

/* Words that are mostly small, so that they are often in range and alike. */
void random_words(uint16_t *words, size_t count);

/*
 * What the cards hear on each of some beats, of which the first f are broken: the
 * sound cards' records as held, any words of the broken ones. NULL where there
 * is no room.
 */
uint16_t *random_run(Rack rack, long beats);

#endif
