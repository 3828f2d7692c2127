/*
 * Four cards of which one may be broken, and one is: it is silent, so that the
 * others hear nothing but the word for none from it. They start from different
 * counts and step until they have shown the same count for some beats. A line
 * is printed for each beat on which a count changes.
 */
#include <stdio.h>
#include <string.h>

#include "tsendurkho.h"

enum {
    CARDS = 4,
    BROKEN = 1,
    MODULUS = 1000,
    SILENT = 3,
    ALIKE = 5,                                 /* beats to see before the example ends */
    SETTLED = TSENDURKHO_SETTLE_BEATS(BROKEN), /* from this beat on they show the same count */
    COUNT = 2 * TSENDURKHO_COUNT_WORD(BROKEN)  /* the count's low byte in a record */
};

typedef uint8_t Record[TSENDURKHO_RECORD_BYTES(BROKEN)];

static unsigned count_of(const uint8_t *record)
{
    return TSENDURKHO_COUNT_OF(BROKEN, record);
}

static void start(Record held[CARDS])
{
    static const uint8_t counts[CARDS] = {250, 17, 93, 0};

    memset(held, 0, CARDS * sizeof(Record));
    for (int card = 0; card < CARDS; card++) {
        held[card][COUNT] = counts[card];
    }
    memset(held[SILENT], 0xff, sizeof(Record));
}

/* One beat of every card but the silent one; 0, or why a step was refused. */
static uint32_t beat(Record held[CARDS])
{
    Record next[CARDS];

    memcpy(next, held, sizeof next);
    for (uint32_t card = 0; card < CARDS; card++) {
        if (card != SILENT) {
            uint32_t refusal = tsendurkho_step(CARDS, BROKEN, MODULUS, card, held[0],
                                               CARDS * sizeof(Record), next[card], sizeof(Record));
            if (refusal != 0) {
                return refusal;
            }
        }
    }
    memcpy(held, next, sizeof next);
    return 0;
}

/* Prints the counts shown, a dash for none. */
static void print_counts(int beats, Record held[CARDS])
{
    printf("%4d:", beats);
    for (int card = 0; card < CARDS; card++) {
        unsigned count = count_of(held[card]);
        if (count < MODULUS) {
            printf(" %5u", count);
        } else {
            printf("     -");
        }
    }
    printf("\n");
}

static int same_counts(Record one[CARDS], Record other[CARDS])
{
    for (int card = 0; card < CARDS; card++) {
        if (count_of(one[card]) != count_of(other[card])) {
            return 0;
        }
    }
    return 1;
}

/* Do all cards but the silent one show the same count? */
static int agree(Record held[CARDS])
{
    unsigned count = count_of(held[0]);

    for (int card = 1; card < CARDS; card++) {
        if (card != SILENT && count_of(held[card]) != count) {
            return 0;
        }
    }
    return count < MODULUS;
}

int main(void)
{
    Record held[CARDS], before[CARDS];
    int alike = 0;

    start(held);
    print_counts(0, held);
    for (int beats = 1; alike < ALIKE; beats++) {
        memcpy(before, held, sizeof before);
        uint32_t refusal = beat(held);
        if (refusal != 0) {
            fprintf(stderr, "refused by %u\n", (unsigned)refusal);
            return 1;
        }
        if (!same_counts(before, held)) {
            print_counts(beats, held);
        }
        alike = agree(held) ? alike + 1 : 0;
        if (alike == 0 && beats >= SETTLED) {
            fprintf(stderr, "no common count on beat %d\n", beats);
            return 1;
        }
    }
    return 0;
}
