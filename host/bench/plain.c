/*
 * One card's step in plain C, straight from RULES 5, for the proved step to
 * be measured against. None is 65,535, which no count is.
 */
#include "plain.h"

#include <string.h>

enum { NONE = 65535, TALLY = 128 };

/* Where the words of a split group stand. */
enum { SENT = 0, VOTE = 2, WAIT = 4, A = 6, B = 7, LEVEL = 8 };

/* The cards of a group, from `first` on, and their words, from `base` on. */
typedef struct {
    const uint8_t *records;
    unsigned words, first, base, n, f, c;
} Group;

typedef struct {
    unsigned a, b;
} Standing;

static unsigned word(const Group *g, unsigned card, unsigned j)
{
    const uint8_t *at = g->records + 2 * ((g->first + card) * g->words + g->base + j);
    return at[0] | (unsigned)at[1] << 8;
}

static void put_word(uint8_t *out, unsigned j, unsigned word)
{
    out[2 * j] = (uint8_t)word;
    out[2 * j + 1] = (uint8_t)(word / 256);
}

static unsigned read_count(unsigned word, unsigned modulus)
{
    return word < modulus ? word : NONE;
}

static unsigned turn(unsigned f)
{
    return 3 * (f + 2);
}

static unsigned half_modulus(unsigned i, unsigned f)
{
    return i == 0 ? 2 * turn(f) : 6 * turn(f);
}

static Group half_of(const Group *g, unsigned i)
{
    Group half = *g;
    half.base += LEVEL;
    half.c = half_modulus(i, g->f);
    half.f = i == 0 ? (g->f - 1) / 2 : g->f / 2;
    half.n = i == 0 ? g->n / 2 : g->n - g->n / 2;
    half.first += i == 0 ? 0 : g->n / 2;
    return half;
}

/* mi */
static unsigned most_frequent(const Group *half)
{
    uint8_t tally[TALLY] = {0};
    unsigned output = half->f == 0 ? 0 : A;
    unsigned best = 0;
    for (unsigned u = 0; u < half->n; u++) {
        unsigned x = word(half, u, output);
        if (x < half->c) {
            unsigned times = ++tally[x];
            if (times > tally[best] || (times == tally[best] && x < best)) {
                best = x;
            }
        }
    }
    return best;
}

/* Mi */
static unsigned vote(const Group *g, unsigned i)
{
    uint8_t tally[TALLY] = {0};
    unsigned modulus = half_modulus(i, g->f);
    for (unsigned u = 0; u < g->n; u++) {
        unsigned x = word(g, u, SENT + i);
        if (x < modulus && ++tally[x] + g->f >= g->n) {
            return x;
        }
    }
    return NONE;
}

static unsigned kept_wait(const Group *g, unsigned card, unsigned i)
{
    unsigned wait = word(g, card, WAIT + i), most = 2 * half_modulus(1, g->f);
    return wait < most ? wait : most;
}

/* wi */
static unsigned cooldown(const Group *g, unsigned card, unsigned i, unsigned new)
{
    unsigned modulus = half_modulus(i, g->f);
    unsigned old = read_count(word(g, card, VOTE + i), modulus);
    unsigned wait = kept_wait(g, card, i);
    if (old == NONE || new != (old + 1) % modulus) {
        return 2 * half_modulus(1, g->f);
    }
    return wait == 0 ? 0 : wait - 1;
}

/* di */
static unsigned trusted(const Group *g, unsigned card, unsigned i)
{
    if (kept_wait(g, card, i) != 0) {
        return NONE;
    }
    return read_count(word(g, card, VOTE + i), half_modulus(i, g->f));
}

/* d */
static unsigned phase(const Group *g, unsigned card)
{
    unsigned t = turn(g->f);
    unsigned d[2] = {trusted(g, card, 0), trusted(g, card, 1)};
    unsigned p[2] = {d[0] == NONE ? NONE : d[0] / t, d[1] == NONE ? NONE : d[1] / (3 * t)};
    unsigned own = card < g->n / 2 ? 0 : 1;
    unsigned followed = p[own] == NONE ? p[1 - own] : p[own];
    return followed == NONE || d[followed] == NONE ? 0 : d[followed] % t;
}

static unsigned sent_by(const Group *g, unsigned a)
{
    unsigned cards = 0;
    for (unsigned u = 0; u < g->n; u++) {
        cards += read_count(word(g, u, A), g->c) == a;
    }
    return cards;
}

static unsigned smallest_supported(const Group *g)
{
    unsigned best = g->c;
    for (unsigned u = 0; u < g->n; u++) {
        unsigned x = word(g, u, A);
        if (x < best && sent_by(g, x) > g->f) {
            best = x;
        }
    }
    return best < g->c ? best : NONE;
}

static Standing three_steps(const Group *g, unsigned card)
{
    unsigned d = phase(g, card);
    Standing s = {read_count(word(g, card, A), g->c), word(g, card, B) == 1};
    if (d % 3 == 0) {
        s.a = sent_by(g, s.a) + g->f >= g->n ? s.a : NONE;
    } else if (d % 3 == 1) {
        s.b = sent_by(g, s.a) + g->f >= g->n;
        s.a = smallest_supported(g);
    } else {
        if (s.a == NONE || s.b == 0) {
            unsigned king = read_count(word(g, d / 3, A), g->c);
            s.a = king == NONE ? 0 : king;
        }
        s.b = 1;
    }
    return s;
}

static void step_level(const Group *g, unsigned card, uint8_t *out)
{
    Standing s = three_steps(g, card);
    for (unsigned i = 0; i < 2; i++) {
        Group half = half_of(g, i);
        unsigned new = vote(g, i);
        put_word(out, SENT + i, most_frequent(&half));
        put_word(out, VOTE + i, new);
        put_word(out, WAIT + i, cooldown(g, card, i, new));
    }
    put_word(out, A, s.a == NONE ? NONE : (s.a + 1) % g->c);
    put_word(out, B, s.b);
}

static void step_group(Group g, unsigned card, uint8_t *out)
{
    while (g.f > 0) {
        step_level(&g, card, out + 2 * g.base);
        unsigned own = card < g.n / 2 ? 0 : 1;
        card -= own == 0 ? 0 : g.n / 2;
        g = half_of(&g, own);
    }
    unsigned first = read_count(word(&g, 0, 0), g.c);
    put_word(out + 2 * g.base, 0, first == NONE ? 1 % g.c : (first + 1) % g.c);
}

uint32_t plain_step(uint32_t n, uint32_t f, uint32_t c, uint32_t card, const uint8_t *records, size_t records_len,
                    uint8_t *out, size_t out_len)
{
    uint32_t refusal = plain_refusal(n, f, c);
    if (refusal != 0) {
        return refusal;
    }
    if (card >= n) {
        return 4;
    }
    unsigned words = plain_words(f);
    if (records_len != 2 * n * words) {
        return 5;
    }
    if (out_len != 2 * words) {
        return 6;
    }
    Group all = {records, words, 0, 0, n, f, c};
    memset(out, 0, out_len);
    step_group(all, card, out);
    return 0;
}
