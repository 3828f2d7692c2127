/*
 * The exported calls at the edges of memory, and the header's sizes and times.
 * Reads calls with their answers, as src/main.rs writes them, and makes each with
 * its buffers in several places: a byte read or written outside them ends the
 * program, or is seen afterwards. Holds the header's macros against what
 * src/main.rs writes of records.
 */
#define _DEFAULT_SOURCE
#include <stdio.h>
#include <stdlib.h>
#include <string.h>
#include <sys/mman.h>

#include "tsendurkho.h"

enum { PAGE = 4096, MOST_BYTES = 2 * 16 * 25 + 2, MOST_DIGITS = 2 * MOST_BYTES };

/* The macros of a constant f are constants: of the size of an array, of an enumeration and of the preprocessor. */
typedef struct {
    uint8_t of_0[TSENDURKHO_RECORD_BYTES(0)], of_1[TSENDURKHO_RECORD_BYTES(1)], of_2[TSENDURKHO_RECORD_BYTES(2)],
        of_3[TSENDURKHO_RECORD_BYTES(3)], of_4[TSENDURKHO_RECORD_BYTES(4)], of_5[TSENDURKHO_RECORD_BYTES(5)];
} RecordOfEach;

enum { COUNT_OF_NONE_BROKEN = TSENDURKHO_COUNT_WORD(0), COUNT_OF_ANY_BROKEN = TSENDURKHO_COUNT_WORD(1u) };

#if TSENDURKHO_SETTLE_BEATS(5) != 889 || TSENDURKHO_RECORD_WORDS(TSENDURKHO_MOST_BROKEN) != 25
#error "the preprocessor has other sizes or times"
#endif

typedef struct {
    uint8_t bytes[MOST_BYTES];
    size_t count;
} Bytes;

typedef struct {
    uint32_t n, f, c, card;
    Bytes records, out;
    uint32_t refusal;
    Bytes after;
} Call;

/* A page that may be used, between two that may not be touched. */
typedef struct {
    uint8_t *page;
    uint8_t was[PAGE];
} Room;

typedef uint8_t *(*Place)(Room *room, size_t count);

/* All possible results, a bit each. */
enum {
    STEP_ANSWERS = 1 | 1 << TSENDURKHO_BAD_CARDS | 1 << TSENDURKHO_BAD_BROKEN | 1 << TSENDURKHO_BAD_MODULUS |
                   1 << TSENDURKHO_BAD_CARD | 1 << TSENDURKHO_BAD_RECORDS | 1 << TSENDURKHO_BAD_OUTPUT,
    LAG_ANSWERS = 1 | 1 << TSENDURKHO_BAD_MODULUS | 1 << TSENDURKHO_BAD_LAG
};

/* Each f from 0 to 5, a bit each. */
enum { EACH_F = 0x3f };

static Room records_room, out_room;
static uint8_t *nowhere;
static long lines, calls;
static int step_answers, lag_answers; /* those that were looked for */
static int nones_of, counts_of; /* each f of which a record showed none, and a count of two bytes, a bit each */

static void fail(const char *what)
{
    fprintf(stderr, "line %ld: %s\n", lines, what);
    exit(1);
}

static void open_room(Room *room)
{
    uint8_t *pages = mmap(NULL, 3 * PAGE, PROT_NONE, MAP_PRIVATE | MAP_ANONYMOUS, -1, 0);
    if (pages == MAP_FAILED || mprotect(pages + PAGE, PAGE, PROT_READ | PROT_WRITE) != 0) {
        fail("out of memory");
    }
    room->page = pages + PAGE;
    nowhere = pages;
}

static uint8_t *behind_guard(Room *room, size_t count)
{
    (void)count;
    return room->page;
}

static uint8_t *before_guard(Room *room, size_t count)
{
    return room->page + PAGE - count;
}

static uint8_t *at_odd_address(Room *room, size_t count)
{
    (void)count;
    return room->page + 1;
}

static uint32_t step(const Call *call, const uint8_t *records, size_t records_len, uint8_t *out, size_t out_len)
{
    calls++;
    return tsendurkho_step(call->n, call->f, call->c, call->card, records, records_len, out, out_len);
}

/* Fills a room's page, with these bytes at their place, and remembers it. */
static uint8_t *put(Room *room, Place place, const Bytes *bytes)
{
    uint8_t *at = place(room, bytes->count);
    memset(room->page, 0x5a, PAGE);
    memcpy(at, bytes->bytes, bytes->count);
    memcpy(room->was, room->page, PAGE);
    return at;
}

/* The call changes its output buffer as it should, and nothing about it. */
static void in_rooms(const Call *call, Place place)
{
    uint8_t *records = put(&records_room, place, &call->records);
    uint8_t *out = put(&out_room, place, &call->out);
    if (step(call, records, call->records.count, out, call->out.count) != call->refusal) {
        fail("another refusal");
    }
    memcpy(out_room.was + (out - out_room.page), call->after.bytes, call->after.count);
    if (memcmp(out_room.page, out_room.was, PAGE) != 0) {
        fail("another output, or a byte beside it was changed");
    }
    if (memcmp(records_room.page, records_room.was, PAGE) != 0) {
        fail("the records were changed");
    }
}

/* In blocks of just that size, whose surroundings an address checker watches. */
static void on_heap(const Call *call)
{
    uint8_t *records = malloc(call->records.count), *out = malloc(call->out.count);
    memcpy(records, call->records.bytes, call->records.count);
    memcpy(out, call->out.bytes, call->out.count);
    if (step(call, records, call->records.count, out, call->out.count) != call->refusal ||
        memcmp(out, call->after.bytes, call->after.count) != 0) {
        fail("another answer on the heap");
    }
    free(records);
    free(out);
}

/* "A pointer may be null where its length is 0". */
static void with_null(const Call *call)
{
    uint8_t *records = call->records.count == 0 ? NULL : put(&records_room, behind_guard, &call->records);
    uint8_t *out = call->out.count == 0 ? NULL : put(&out_room, behind_guard, &call->out);
    if (step(call, records, call->records.count, out, call->out.count) != call->refusal) {
        fail("another refusal with null");
    }
}

/* A refused call touches neither buffer, whatever their lengths are said to be. */
static void refused_from_nowhere(const Call *call)
{
    size_t records = call->records.count, out = call->out.count;
    const size_t records_lies[] = {SIZE_MAX, SIZE_MAX - 1, SIZE_MAX / 2 + 1, records + ((size_t)1 << 32)};
    const size_t out_lies[] = {SIZE_MAX, SIZE_MAX - 1, SIZE_MAX / 2 + 1, out + ((size_t)1 << 32)};
    int by_number = call->refusal >= TSENDURKHO_BAD_CARDS && call->refusal <= TSENDURKHO_BAD_CARD;
    uint32_t wanted = by_number ? call->refusal : TSENDURKHO_BAD_RECORDS;

    if (call->refusal != 0 && step(call, nowhere, records, nowhere, out) != call->refusal) {
        fail("another refusal from nowhere");
    }
    for (int lie = 0; lie < 4; lie++) {
        if (step(call, nowhere, records_lies[lie], nowhere, out) != wanted ||
            step(call, nowhere, records_lies[lie], nowhere, out_lies[lie]) != wanted) {
            fail("records of a wrong length were taken");
        }
        if (call->refusal == 0 && step(call, nowhere, records, nowhere, out_lies[lie]) != TSENDURKHO_BAD_OUTPUT) {
            fail("an output of a wrong length was taken");
        }
    }
}

static void try_step(const Call *call)
{
    in_rooms(call, behind_guard);
    in_rooms(call, before_guard);
    in_rooms(call, at_odd_address);
    on_heap(call);
    if (call->records.count == 0 || call->out.count == 0) {
        with_null(call);
    }
    refused_from_nowhere(call);
}

/* Bytes in hexadecimal, a dash for none. */
static void read_bytes(Bytes *bytes)
{
    char digits[MOST_DIGITS + 1];
    unsigned byte;
    bytes->count = 0;
    if (scanf("%1604s", digits) != 1) { /* MOST_DIGITS */
        fail("bytes are missing");
    }
    for (const char *at = digits; sscanf(at, "%2x", &byte) == 1; at += 2) {
        bytes->bytes[bytes->count++] = (uint8_t)byte;
    }
}

static void read_step(Call *call)
{
    int numbers = scanf("%u %u %u %u", &call->n, &call->f, &call->c, &call->card);
    read_bytes(&call->records);
    read_bytes(&call->out);
    numbers += scanf("%u", &call->refusal);
    read_bytes(&call->after);
    if (numbers != 5 || call->after.count != call->out.count) {
        fail("this is not a step");
    }
    step_answers |= 1 << call->refusal;
}

static void try_lag(void)
{
    uint32_t c, x, y, refusal;
    int32_t value;
    if (scanf("%u %u %u %u %d", &c, &x, &y, &refusal, &value) != 5) {
        fail("this is not a lag");
    }
    lag_answers |= 1 << refusal;
    calls += 2;
    if (tsendurkho_lag_refusal(c, x, y) != refusal || tsendurkho_lag(c, x, y) != value) {
        fail("another lag");
    }
}

/* "The count that a card shows is the a of the outermost group". */
static void try_count(uint32_t f, uint32_t c, const uint8_t *record, uint32_t shown)
{
    uint32_t word = TSENDURKHO_COUNT_OF(f, record);
    if ((word < c ? word : TSENDURKHO_NONE) != shown) {
        fail("another count");
    }
    nones_of |= (shown == TSENDURKHO_NONE) << f;
    counts_of |= (shown > 255 && shown < c) << f;
}

static void try_record(void)
{
    uint32_t f, c, words, beats, shown;
    Bytes record;
    int numbers = scanf("%u %u %u %u", &f, &c, &words, &beats);
    read_bytes(&record);
    numbers += scanf("%u", &shown);
    if (numbers != 5 || f > TSENDURKHO_MOST_BROKEN) {
        fail("this is not a record");
    }
    if (TSENDURKHO_RECORD_WORDS(f) != words || TSENDURKHO_RECORD_BYTES(f) != record.count) {
        fail("another size of a record");
    }
    if (TSENDURKHO_SETTLE_BEATS(f) != beats) {
        fail("another T(f)");
    }
    try_count(f, c, record.bytes, shown);
}

/* What the compiler took for sizes and constants. */
static void try_constants(void)
{
    static const size_t bytes[6] = {2, 18, 34, 34, 50, 50};
    static const RecordOfEach any;
    const size_t sizes[6] = {sizeof any.of_0, sizeof any.of_1, sizeof any.of_2,
                             sizeof any.of_3, sizeof any.of_4, sizeof any.of_5};
    if (memcmp(sizes, bytes, sizeof sizes) != 0 || COUNT_OF_NONE_BROKEN != 0 || COUNT_OF_ANY_BROKEN != 6) {
        fail("another constant");
    }
}

/* An f or an n is refused from the one after the largest on. */
static void try_limits(void)
{
    uint32_t n = TSENDURKHO_MOST_CARDS, f = TSENDURKHO_MOST_BROKEN;
    if (tsendurkho_step(n, f, 2, 0, NULL, 0, NULL, 0) != TSENDURKHO_BAD_RECORDS ||
        tsendurkho_step(n, f + 1, 2, 0, NULL, 0, NULL, 0) != TSENDURKHO_BAD_BROKEN ||
        tsendurkho_step(n + 1, f, 2, 0, NULL, 0, NULL, 0) != TSENDURKHO_BAD_CARDS) {
        fail("another largest n or f");
    }
}

int main(void)
{
    char kind[7];
    Call call;

    open_room(&records_room);
    open_room(&out_room);
    try_constants();
    try_limits();
    while (scanf("%6s", kind) == 1) {
        lines++;
        if (strcmp(kind, "lag") == 0) {
            try_lag();
        } else if (strcmp(kind, "record") == 0) {
            try_record();
        } else {
            read_step(&call);
            try_step(&call);
        }
    }
    if (step_answers != STEP_ANSWERS || lag_answers != LAG_ANSWERS) {
        fail("an answer was never looked for");
    }
    if (nones_of != EACH_F || counts_of != EACH_F) {
        fail("a kind of record was never looked at");
    }
    printf("boundary: %ld calls\n", calls);
    return 0;
}
