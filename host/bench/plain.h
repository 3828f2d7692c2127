/* One card's step and the whole beat in plain C, called as the proved ones are. */
#ifndef PLAIN_H
#define PLAIN_H

#include <stddef.h>
#include <stdint.h>

/* Refusals 1, 2 and 3. */
static inline uint32_t plain_refusal(uint32_t n, uint32_t f, uint32_t c)
{
    if (n == 0 || n > 16) {
        return 1;
    }
    if (f > 5 || 3 * f >= n) {
        return 2;
    }
    return c < 2 || c > 65535 ? 3 : 0;
}

/* W */
static inline unsigned plain_words(unsigned f)
{
    unsigned digits = 0;
    for (; f > 0; f /= 2) {
        digits++;
    }
    return 8 * digits + 1;
}

uint32_t plain_step(uint32_t n, uint32_t f, uint32_t c, uint32_t card, const uint8_t *records, size_t records_len,
                    uint8_t *out, size_t out_len);

uint32_t plain_beat(uint32_t n, uint32_t f, uint32_t c, uint32_t broken, const uint16_t *held, size_t held_len,
                    const uint16_t *sent, size_t sent_len, uint16_t *out, size_t out_len);

#endif
