/*
 * step HOW N F BEATS: takes N cards through BEATS beats from any words, F of
 * them broken, and then makes every sound card's step of that run again as HOW
 * says: `plain`, `proved`, or `none`, which makes no step and so costs what the
 * others cost beside their steps. step check: do plain and proved agree?
 */
#include <stdio.h>
#include <stdlib.h>
#include <string.h>

#include "plain.h"
#include "runs.h"
#include "tsendurkho.h"

enum { CHECKED = 200000 };

typedef uint32_t (*Step)(uint32_t, uint32_t, uint32_t, uint32_t, const uint8_t *, size_t, uint8_t *, size_t);

static uint32_t put_step(Step step, Rack rack, uint32_t card, const uint16_t *heard, uint16_t *out)
{
    return step(rack.n, rack.f, rack.c, card, (const uint8_t *)heard, 2 * rack.table, (uint8_t *)out, 2 * rack.words);
}

static int check(void)
{
    uint16_t heard[MOST_WORDS];
    for (int i = 0; i < CHECKED; i++) {
        uint16_t plain[MOST_WORDS] = {0}, proved[MOST_WORDS] = {0};
        Rack rack = random_rack();
        uint32_t card = random_number() % rack.n;
        random_words(heard, rack.table);
        uint32_t one = put_step(plain_step, rack, card, heard, plain);
        uint32_t other = put_step(tsendurkho_step, rack, card, heard, proved);
        if (one != other || memcmp(plain, proved, sizeof plain) != 0) {
            fprintf(stderr, "the plain and the proved step differ: n=%u f=%u c=%u\n", rack.n, rack.f, rack.c);
            return 1;
        }
    }
    return 0;
}

static void make_steps(Step step, Rack rack, long beats, const uint16_t *heard)
{
    uint16_t out[MOST_WORDS];
    for (long beat = 0; beat < beats; beat++, heard += rack.table) {
        for (uint32_t card = rack.f; card < rack.n; card++) {
            put_step(step, rack, card, heard, out);
        }
    }
}

int main(int count, char **words)
{
    if (count == 2 && strcmp(words[1], "check") == 0) {
        return check();
    }
    if (count != 5) {
        fprintf(stderr, "usage: step check | step plain|proved|none N F BEATS\n");
        return 2;
    }
    Rack rack = rack_of((uint32_t)atol(words[2]), (uint32_t)atol(words[3]), MODULUS);
    long beats = atol(words[4]);
    uint16_t *run = random_run(rack, beats);
    if (run == NULL) {
        return 1;
    }
    if (strcmp(words[1], "plain") == 0) {
        make_steps(plain_step, rack, beats, run);
    } else if (strcmp(words[1], "proved") == 0) {
        make_steps(tsendurkho_step, rack, beats, run);
    }
    free(run);
    return 0;
}
