#include "runs.h"

#include <stdlib.h>

#include "plain.h"

/* splitmix64 */
uint32_t random_number(void)
{
    static uint64_t state = 1;
    uint64_t mixed = state += 0x9e3779b97f4a7c15u;
    mixed = (mixed ^ mixed >> 30) * 0xbf58476d1ce4e5b9u;
    mixed = (mixed ^ mixed >> 27) * 0x94d049bb133111ebu;
    return (uint32_t)(mixed ^ mixed >> 31);
}

Rack rack_of(uint32_t n, uint32_t f, uint32_t c)
{
    size_t words = plain_words(f);
    return (Rack){n, f, c, words, n * words};
}

Rack random_rack(void)
{
    uint32_t f = random_number() % 6;
    uint32_t n = 3 * f + 1 + random_number() % (16 - 3 * f);
    uint32_t most = random_number() % 2 ? 65534 : 40;
    return rack_of(n, f, 2 + random_number() % most);
}

void random_words(uint16_t *words, size_t count)
{
    for (size_t i = 0; i < count; i++) {
        uint32_t bits = 1 + random_number() % 8;
        words[i] = (uint16_t)(bits < 8 ? random_number() % (1u << bits) : random_number());
    }
}

uint16_t *random_run(Rack rack, long beats)
{
    uint16_t *run = malloc(sizeof *run * rack.table * (size_t)beats);
    if (run == NULL) {
        return NULL;
    }
    random_words(run, rack.table);
    uint16_t *heard = run;
    for (long beat = 1; beat < beats; beat++, heard += rack.table) {
        uint16_t *next = heard + rack.table;
        random_words(next, rack.f * rack.words);
        for (uint32_t card = rack.f; card < rack.n; card++) {
            plain_step(rack.n, rack.f, rack.c, card, (uint8_t *)heard, 2 * rack.table,
                       (uint8_t *)(next + card * rack.words), 2 * rack.words);
        }
    }
    return run;
}
