/*
 * most HOW N F TRIES: prints the most instructions that one step was seen to
 * take, `plain` or `proved`, without those of memcpy and memset. It starts from
 * the longest of some steps that are made to be long, and changes what the card
 * hears TRIES times, keeping what does not make the step shorter. The processor
 * counts: it traps after each instruction. Link with --wrap=memcpy,--wrap=memset.
 */
#define _DEFAULT_SOURCE
#include <signal.h>
#include <stdio.h>
#include <stdlib.h>
#include <string.h>

#include "plain.h"
#include "runs.h"
#include "tsendurkho.h"

typedef uint32_t (*Step)(uint32_t, uint32_t, uint32_t, uint32_t, const uint8_t *, size_t, uint8_t *, size_t);

/* A rack, one of its cards, and what that one hears. */
typedef struct {
    Rack rack;
    uint32_t card;
    uint16_t heard[MOST_WORDS];
} Case;

/* A group that a card is in: its first card, and where its words are in a record. */
typedef struct {
    uint32_t first, n, f;
    size_t base;
} Group;

volatile sig_atomic_t taken;   /* instructions */
volatile sig_atomic_t outside; /* is memcpy or memset at work? */

/* A step that is only its return. */
uint32_t no_step(uint32_t n, uint32_t f, uint32_t c, uint32_t card, const uint8_t *records, size_t records_len, uint8_t *out,
                 size_t out_len);

/* The last three instructions after memcpy and memset are counted, and subtracted again. */
#define UNCOUNTED(name)                                                                        \
    "__wrap_" name ": incl outside(%rip)\n subq $8, %rsp\n call __real_" name "@PLT\n"         \
    "addq $8, %rsp\n decl outside(%rip)\n subl $3, taken(%rip)\n ret\n"

__asm__(".text\n .globl no_step, __wrap_memcpy, __wrap_memset\n no_step: ret\n" UNCOUNTED("memcpy") UNCOUNTED("memset"));

static void count_one(int signal)
{
    (void)signal;
    taken += !outside;
}

/* Sets or clears the trap flag. What a function may keep below the stack pointer is left alone. */
#define TRAP(change) \
    __asm__ volatile("leaq -128(%%rsp), %%rsp; pushfq; " change "; popfq; leaq 128(%%rsp), %%rsp" ::: "memory", "cc")

static long counted(Step step, const Case *tried)
{
    uint16_t out[MOST_WORDS];
    const Rack *rack = &tried->rack;
    taken = 0;
    TRAP("orq $0x100, (%%rsp)");
    step(rack->n, rack->f, rack->c, tried->card, (const uint8_t *)tried->heard, 2 * rack->table, (uint8_t *)out,
         2 * rack->words);
    TRAP("andq $~0x100, (%%rsp)");
    return taken;
}

/* Through a pointer that may change: so the code around the step is the same for each of them. */
static long (*volatile count)(Step, const Case *) = counted;

static long cost_of(Step step, const Case *tried)
{
    return count(step, tried) - count(no_step, tried) + 1;
}

static uint16_t *word(Case *of, uint32_t card, size_t j)
{
    return &of->heard[card * of->rack.words + j];
}

/*
 * Both votes are open until the last card is heard, and then count on; M1 makes
 * it the turn of step 1, where w1 is 0; no count is heard more than f times, the
 * card's own by the first f but one; in each half every output ties.
 */
static void fill_group(Case *to, Group g, uint16_t wait)
{
    uint32_t own = to->card - g.first, half = g.n / 2;
    uint16_t d = (uint16_t)(9 * (g.f + 2) + 1);
    for (uint32_t u = 0; u < g.n; u++) {
        uint16_t tied = (uint16_t)(u < half ? u : u - half);
        uint16_t a = (uint16_t)((u == own ? 0 : u == g.f - 1 ? own : u) / g.f);
        uint16_t told[] = {u < g.f ? 0 : 1, u < g.f ? 0 : d + 1, 0, d, wait, 0, a, 0, tied};
        memcpy(word(to, g.first + u, g.base), told, sizeof told);
        if (g.f > 1) {
            *word(to, g.first + u, g.base + 14) = tied;
        }
    }
}

static Group own_half(Group g, uint32_t card)
{
    uint32_t second = g.first + g.n / 2;
    if (card < second) {
        return (Group){g.first, g.n / 2, (g.f - 1) / 2, g.base + 8};
    }
    return (Group){second, g.n - g.n / 2, g.f / 2, g.base + 8};
}

static Case long_case(Rack rack, uint32_t card, uint16_t wait)
{
    Case made = {rack, card, {0}};
    for (Group g = {0, rack.n, rack.f, 0}; g.f > 0; g = own_half(g, card)) {
        fill_group(&made, g, wait);
    }
    return made;
}

/* Another word, or the words of two cards exchanged. */
static void change(Case *tried)
{
    size_t j = random_number() % tried->rack.words;
    uint16_t *one = word(tried, random_number() % tried->rack.n, j);
    uint16_t *other = word(tried, random_number() % tried->rack.n, j), was = *one;
    if (random_number() % 2) {
        random_words(one, 1);
    } else {
        *one = *other;
        *other = was;
    }
}

static void consider(Step step, const Case *tried, Case *best, long *most)
{
    long cost = cost_of(step, tried);
    if (cost >= *most) {
        *most = cost;
        *best = *tried;
    }
}

static long most_seen(Step step, Rack rack, long tries)
{
    Case tried, best = {rack, 0, {0}};
    long most = 0;
    for (uint32_t card = 0; card < rack.n; card++) {
        for (uint16_t wait = 0; wait < 2; wait++) {
            tried = long_case(rack, card, wait);
            consider(step, &tried, &best, &most);
        }
    }
    for (long i = 0; i < tries; i++) {
        tried = best;
        for (uint32_t changes = 1 + random_number() % 3; changes > 0; changes--) {
            change(&tried);
        }
        consider(step, &tried, &best, &most);
    }
    return most;
}

int main(int given, char **words)
{
    if (given != 5) {
        fprintf(stderr, "usage: most plain|proved N F TRIES\n");
        return 2;
    }
    Step step = strcmp(words[1], "plain") == 0 ? plain_step : tsendurkho_step;
    Rack rack = rack_of((uint32_t)atol(words[2]), (uint32_t)atol(words[3]), MODULUS);
    signal(SIGTRAP, count_one);
    printf("%ld\n", most_seen(step, rack, atol(words[4])));
    return 0;
}
