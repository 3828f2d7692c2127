/*
 * Tsendurkho: the block counter of digitiser cards.
 *
 * Up to sixteen cards share a beat that carries no number. On every beat each
 * card hears a record from every card, its own included, and makes its next
 * record from them. Whatever the cards hold at the start, and even if up to f
 * of the n cards are broken, from beat T(f) on all sound cards show the same
 * count modulo c, and one more on each later beat:
 *
 *     f    |  0    1    2    3    4    5
 *     T(f) |  1  192  446  509  826  889      beats
 *
 * Link libtsendurkho.a; of the C library it needs memcpy and memset. No call
 * keeps anything between calls, allocates or calls back, so calls from several
 * threads do not disturb one another. A step needs at most 2,144 bytes of
 * stack (docs/PERFORMANCE.md). docs/FIRMWARE.md is for those who write a
 * card's firmware; docs/RULES.md ("RULES" below) has the rules.
 *
 *
 * A record (RULES 4)
 *
 * A record is W words of 16 bits, and a word is two bytes, the low byte first:
 *
 *     f |  0   1   2   3   4   5
 *     W |  1   9  17  17  25  25      words
 *       |  2  18  34  34  50  50      bytes
 *
 * It holds, outermost group first, eight words for a split group (f above 0)
 * and one word for a group with f = 0, which is the last:
 *
 *     m0 m1 M0 M1 w0 w1 a b  ..  a
 *
 * mi is the most frequent output of half i, Mi the vote on the mi, wi the
 * cooldown of Mi, a the count, and b whether the count had enough support.
 * After the eight words come those of the half that the card is in, as a group
 * of its own. Words beyond the last are written 0 and never read. The count
 * that a card shows is the a of the outermost group: word 0 of its record if
 * f = 0, else word 6; 65,535 (and any a at or above c) is none.
 *
 * Any words may be given: those out of range are read as the rules say (RULES
 * 4.2). A card may start from any record at all.
 */
#ifndef TSENDURKHO_H
#define TSENDURKHO_H

#include <stddef.h>
#include <stdint.h>

#ifdef __cplusplus
extern "C" {
#endif

/*
 * Why a call is refused (RULES 9.1). A call returns the first of its numbers
 * that applies, in this order, and 0 when it succeeds.
 */
#define TSENDURKHO_BAD_CARDS 1u   /* n is 0 or above 16 */
#define TSENDURKHO_BAD_BROKEN 2u  /* f is above 5, or 3f >= n */
#define TSENDURKHO_BAD_MODULUS 3u /* c is below 2 or above 65,535 */
#define TSENDURKHO_BAD_CARD 4u    /* the card number is n or above */
#define TSENDURKHO_BAD_RECORDS 5u /* the records are not n*W words */
#define TSENDURKHO_BAD_OUTPUT 6u  /* the output buffer is not W words */
#define TSENDURKHO_BAD_LAG 9u     /* an input of a lag is c or above */

/* The word for none. */
#define TSENDURKHO_NONE 65535u

/* The largest n and the largest f (RULES 2.1). */
#define TSENDURKHO_MOST_CARDS 16u
#define TSENDURKHO_MOST_BROKEN 5u

/*
 * Sizes and times, for f from 0 to 5 (RULES 2.2). If f is a constant, so are
 * they: fit for array sizes, enumeration constants and #if. They may evaluate
 * f, and record, more than once. Like this header, they are not proved.
 */

/* How many split groups a card is in: the binary digits of f (RULES 3). */
#define TSENDURKHO_SPLIT_GROUPS(f)                                             \
    ((f) > 3 ? 3u : (f) > 1 ? 2u : (f) > 0 ? 1u : 0u)

/* W, the words of a record, and their bytes. */
#define TSENDURKHO_RECORD_WORDS(f) (8u * TSENDURKHO_SPLIT_GROUPS(f) + 1u)
#define TSENDURKHO_RECORD_BYTES(f) (2u * TSENDURKHO_RECORD_WORDS(f))

/* The word of a record that is the count shown, the first being word 0. */
#define TSENDURKHO_COUNT_WORD(f) ((f) == 0 ? 0u : 6u)

/* That word of the record that begins at record, a pointer to uint8_t. It is a
   count if it is below c, else none (RULES 7). */
#define TSENDURKHO_COUNT_OF(f, record)                                         \
    ((record)[2 * TSENDURKHO_COUNT_WORD(f)] +                                  \
     256u * (record)[2 * TSENDURKHO_COUNT_WORD(f) + 1])

/* T(f), in beats: T(0) = 1, and T(f) = T(f/2 rounded down) + 2 + 63(f+2). So it
   is 1 plus 128 + 63g for each g of f, f/2, f/4 (rounded down) that is not 0. */
#define TSENDURKHO_SETTLE_BEATS(f)                                             \
    (1u + 128u * TSENDURKHO_SPLIT_GROUPS(f) + 63u * ((f) + (f) / 2 + (f) / 4))

/*
 * One card's step: writes the card's next record to out, from the n records
 * that it hears, card 0 first. Its own slot holds its own record.
 *
 *   n, f, c      the cards, how many of them may be broken, the modulus
 *   card         the card that steps, 0 to n-1
 *   records      n*W words: records_len bytes, 2*n*W of them
 *   out          W words: out_len bytes, 2*W of them
 *
 * Returns 0, or the refusal: 1, 2, 3, 4, 5 or 6. An odd number of bytes is a
 * wrong length. A refused call leaves out as it was.
 *
 * out and records must not overlap. A pointer may be null if its length is
 * 0; no record is 0 bytes long, so such a call is refused.
 */
uint32_t tsendurkho_step(uint32_t n, uint32_t f, uint32_t c, uint32_t card,
                         const uint8_t *records, size_t records_len,
                         uint8_t *out, size_t out_len);

/*
 * Whether the lag of x against y, counts modulo c, is refused: 0, 3 or 9.
 */
uint32_t tsendurkho_lag_refusal(uint32_t c, uint32_t x, uint32_t y);

/*
 * The lag of x against y: the number congruent to x - y modulo c that is above
 * -c/2 and at most c/2. A refused lag is 0, and so is the lag of equal counts:
 * tsendurkho_lag_refusal tells them apart.
 */
int32_t tsendurkho_lag(uint32_t c, uint32_t x, uint32_t y);

#ifdef __cplusplus
}
#endif

#endif
