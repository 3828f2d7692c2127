/*
 * beat HOW N F BEATS: takes N cards through BEATS beats from any words, F of
 * them broken, and then makes every beat of that run again as HOW says:
 * `plain`, `proved`, or `none`, which makes no beat and so costs what the others
 * cost beside their beats. beat check: do plain and proved agree?
 */
#include <stdio.h>
#include <stdlib.h>
#include <string.h>

#include "plain.h"
#include "runs.h"

enum { CHECKED = 20000, MOST_SENT = 5 * MOST_WORDS };

typedef uint32_t (*Beat)(uint32_t, uint32_t, uint32_t, uint32_t, const uint16_t *, size_t, const uint16_t *, size_t,
                         uint16_t *, size_t);

/* `Rack::beat`. */
uint32_t proved_beat(uint32_t n, uint32_t f, uint32_t c, uint32_t broken, const uint16_t *held, size_t held_len,
                     const uint16_t *sent, size_t sent_len, uint16_t *out, size_t out_len);

/* Up to f broken cards, any of them. */
static uint32_t random_set(Rack rack)
{
    uint32_t set = 0;
    for (uint32_t i = 0; i < rack.f; i++) {
        set |= 1u << random_number() % rack.n;
    }
    return set;
}

static size_t count_broken(uint32_t set)
{
    size_t cards = 0;
    for (; set > 0; set &= set - 1) {
        cards++;
    }
    return cards;
}

static uint32_t put_beat(Beat beat, Rack rack, uint32_t set, const uint16_t *held, const uint16_t *sent, size_t sent_len,
                         uint16_t *out)
{
    return beat(rack.n, rack.f, rack.c, set, held, rack.table, sent, sent_len, out, rack.table);
}

static int check(void)
{
    uint16_t held[MOST_WORDS], sent[MOST_SENT];
    for (int i = 0; i < CHECKED; i++) {
        uint16_t plain[MOST_WORDS] = {0}, proved[MOST_WORDS] = {0};
        Rack rack = random_rack();
        uint32_t set = random_set(rack);
        size_t sent_len = count_broken(set) * rack.table;
        random_words(held, rack.table);
        random_words(sent, sent_len);
        uint32_t one = put_beat(plain_beat, rack, set, held, sent, sent_len, plain);
        uint32_t other = put_beat(proved_beat, rack, set, held, sent, sent_len, proved);
        if (one != other || memcmp(plain, proved, sizeof plain) != 0) {
            fprintf(stderr, "the plain and the proved beat differ: n=%u f=%u c=%u\n", rack.n, rack.f, rack.c);
            return 1;
        }
    }
    return 0;
}

/* The broken cards' words come one after the other, and those of each beat begin one word later. */
static void make_beats(Beat beat, Rack rack, long beats, const uint16_t *held, const uint16_t *sent)
{
    uint16_t out[MOST_WORDS];
    for (long i = 0; i < beats; i++, held += rack.table) {
        put_beat(beat, rack, (1u << rack.f) - 1, held, sent + i, rack.f * rack.table, out);
    }
}

int main(int count, char **words)
{
    if (count == 2 && strcmp(words[1], "check") == 0) {
        return check();
    }
    if (count != 5) {
        fprintf(stderr, "usage: beat check | beat plain|proved|none N F BEATS\n");
        return 2;
    }
    Rack rack = rack_of((uint32_t)atol(words[2]), (uint32_t)atol(words[3]), MODULUS);
    long beats = atol(words[4]);
    size_t sent_len = rack.f * rack.table + (size_t)beats;
    uint16_t *run = random_run(rack, beats), *sent = malloc(sizeof *sent * sent_len);
    if (run == NULL || sent == NULL) {
        return 1;
    }
    random_words(sent, sent_len);
    if (strcmp(words[1], "plain") == 0) {
        make_beats(plain_beat, rack, beats, run, sent);
    } else if (strcmp(words[1], "proved") == 0) {
        make_beats(proved_beat, rack, beats, run, sent);
    }
    free(sent);
    free(run);
    return 0;
}
