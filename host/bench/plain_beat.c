/*
 * The whole beat in plain C, straight from RULES 6, for the proved beat to
 * be measured against. Its words have the low byte first, as x86-64 has them.
 */
#include "plain.h"

#include <string.h>

enum { MOST_WORDS = 16 * 25 };

static int is_broken(uint32_t set, uint32_t card)
{
    return set >> card & 1;
}

static size_t count_broken(uint32_t set)
{
    size_t cards = 0;
    for (; set > 0; set &= set - 1) {
        cards++;
    }
    return cards;
}

/* Puts what the broken cards send to one receiver in their records' places. */
static void hear(uint32_t n, uint32_t broken, size_t words, const uint16_t *sent, uint16_t *heard)
{
    for (uint32_t card = 0; card < n; card++) {
        if (is_broken(broken, card)) {
            memcpy(heard + card * words, sent, 2 * words);
            sent += words;
        }
    }
}

uint32_t plain_beat(uint32_t n, uint32_t f, uint32_t c, uint32_t broken, const uint16_t *held, size_t held_len,
                    const uint16_t *sent, size_t sent_len, uint16_t *out, size_t out_len)
{
    uint16_t heard[MOST_WORDS];
    uint32_t refusal = plain_refusal(n, f, c);
    if (refusal != 0) {
        return refusal;
    }
    if (broken >> n != 0 || count_broken(broken) > f) {
        return 7;
    }
    size_t words = plain_words(f), sent_to_one = count_broken(broken) * words;
    if (held_len != n * words) {
        return 5;
    }
    if (sent_len != n * sent_to_one) {
        return 8;
    }
    if (out_len != n * words) {
        return 6;
    }
    memcpy(out, held, 2 * held_len);
    memcpy(heard, held, 2 * held_len);
    for (uint32_t card = 0; card < n; card++) {
        if (!is_broken(broken, card)) {
            hear(n, broken, words, sent + card * sent_to_one, heard);
            plain_step(n, f, c, card, (const uint8_t *)heard, 2 * held_len, (uint8_t *)(out + card * words), 2 * words);
        }
    }
    return 0;
}
