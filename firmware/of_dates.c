/* Dates: tables of bridges, and lookups in them, in tables of any numbers, and in what is no table. */
#include "calls.h"
#include "cases.h"
#include "inputs.h"

uint32_t pairs, exchanged;

enum { ROOM = NZ_TABLE_ROOM(NZ_MAX_LEVEL) + 6, TIMES = 12 };

static float bridge[6];
static uint32_t table[ROOM], times[TIMES];

/* A forward bridge in most cases; the others fall, are out of range, or have numbers of any kind. */
static void some_bridge(void) {
    uint32_t kind = below(8);
    for (int k = 0; k < 6; k++) bridge[k] = kind == 0 ? number() : millisecond();
    for (int axis = 0; kind > 1 && axis < 2; axis++)
        for (int turn = 0; turn < 3; turn++) {
            float *a = bridge + (turn == 1 ? 2 : 0) + axis, *b = a + 2, held = *a;
            if (key(*a) > key(*b)) *a = *b, *b = held;
        }
}

void case_nz_date_table(uint32_t i) {
    uint32_t answer, level = below(NZ_MAX_LEVEL + 2);
    some_bridge();
    float weight = i % 3 == 0 ? number() : of_bits(0x3f000000u + below(0x01000000u));
    nz_len have = length_for(6), room = length_for(NZ_TABLE_ROOM(level > NZ_MAX_LEVEL ? 0 : level));
    fill_words(table, ROOM);
    CALLED(answer = nz_date_table(bridge, have, weight, level, table, room));
    add_word(answer);
    add_words(table, ROOM);
}

/* A table by whole numbers alone, so that lookups do not hang on how it was made: it rises but in few cases, ties included.
 * Gives its length, which is odd now and then. */
static nz_len some_table(void) {
    uint32_t entries = below(ROOM / 2 + 1), x = below(1000), y = below(1000), step = one_in(2) ? 100 : 260000;
    for (uint32_t k = 0; k < entries; k++) {
        table[2 * k] = x;
        table[2 * k + 1] = y;
        x += one_in(5) ? 0 : below(step);
        y += one_in(5) ? 0 : below(step);
        if (one_in(300)) y -= y / 2;
        if (one_in(300)) x = draw();
    }
    return 2 * entries - (entries > 0 && one_in(20));
}

/* A time from the first x to the last. */
static uint32_t inside(nz_len length) {
    uint32_t first = length < 2 ? 0 : table[0], last = length < 2 ? 0 : table[(length / 2 - 1) * 2];
    return first + (last < first ? 0 : below(last - first + 1));
}

static uint32_t some_time(nz_len length) { return one_in(20) ? draw() : inside(length); }

void case_nz_date_at(uint32_t i) {
    uint32_t answer, again, date = 0xabcdu, later_date = 0xabcdu;
    nz_len length = some_table();
    uint32_t time = some_time(length), later = some_time(length);
    CALLED(answer = nz_date_at(table, length, time, &date));
    CALLED(again = nz_date_at(table, length, later, &later_date));
    add_word(answer);
    add_word(date);
    add_word(again);
    add_word(later_date);
    add_words(table, (int)length);
    (void)i;
    if (answer != NZ_OK || again != NZ_OK) return;
    pairs++;
    exchanged += time <= later ? date > later_date : date < later_date;
}

void case_nz_date_all(uint32_t i) {
    uint32_t answer, count = below(TIMES);
    nz_len first_bad = 7777777777u, length = some_table();
    for (uint32_t k = 0; k < TIMES; k++) times[k] = i % 4 == 0 ? some_time(length) : inside(length);
    CALLED(answer = nz_date_all(table, length, times, count, &first_bad));
    add_word(answer);
    add_length(first_bad);
    add_words(times, TIMES);
}
