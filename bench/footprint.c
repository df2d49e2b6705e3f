// How deep a cut, a date table, lookups and the calls for a journal go into the stack: each is called on a stack of its own,
// painted before, and what lost its paint is counted.
#include <math.h>
#include <pthread.h>
#include <stdio.h>
#include <stdlib.h>
#include <string.h>

#include "../include/nyerdzumak.h"

enum { ROOM = 1 << 18, PAINT = 0xa5 };

static const float bridge[6] = {1000, 1000, 1500, 1100, 2000, 2400};
// by the second chops are corrected, by the last computed again through f64 too, and both take further calls
static const float weights[3] = {0.75f, -0.5f, NAN};
static float out[NZ_CUT_ROOM(NZ_MAX_LEVEL)];
static float places[128];
static nz_len quads;
static uint32_t table[NZ_TABLE_ROOM(NZ_MAX_LEVEL)];
static uint8_t journal[3 * NZ_MAX_RECORD];
static nz_len written; // how much of it
static uint32_t words[7];
static unsigned char *frame; // of the function that calls

static void *in_order(void *level) {
    frame = __builtin_frame_address(0);
    uint32_t n = *(uint32_t *)level;
    for (int k = 0; k < 3; k++)
        if (nz_cut_in_order_both(bridge, 6, weights[k], n, out, NZ_CUT_ROOM(NZ_MAX_LEVEL)) != NZ_OK) exit(1);
    return level;
}

static void *automatic(void *p) {
    frame = __builtin_frame_address(0);
    for (int k = 0; k < 3; k++)
        if (nz_auto_conic_to_quads(bridge, 6, weights[k], places, &quads) != NZ_OK) exit(1);
    return p;
}

static void *date_table(void *p) {
    frame = __builtin_frame_address(0);
    for (int k = 0; k < 3; k++)
        if (nz_date_table(bridge, 6, weights[k], NZ_MAX_LEVEL, table, NZ_TABLE_ROOM(NZ_MAX_LEVEL)) != NZ_OK) exit(1);
    return p;
}

static void *lookups(void *p) {
    uint32_t time = 1750, date;
    nz_len bad;
    frame = __builtin_frame_address(0);
    if (nz_date_at(table, NZ_TABLE_ROOM(NZ_MAX_LEVEL), time, &date) != NZ_OK) exit(1);
    if (nz_date_all(table, NZ_TABLE_ROOM(NZ_MAX_LEVEL), &time, 1, &bad) != NZ_OK) exit(1);
    return p;
}

// a record of each kind, and one that does not fit
static void *writes(void *p) {
    frame = __builtin_frame_address(0);
    written = 0;
    for (uint32_t kind = NZ_KIND_CONIC; kind <= NZ_KIND_CORRECTION; kind++)
        if (nz_journal_write(journal, sizeof journal, written, kind, words, &written) != NZ_OK) exit(1);
    if (nz_journal_write(journal, sizeof journal, sizeof journal, NZ_KIND_CONIC, words, &written) != NZ_BUFFER_TOO_SHORT) exit(1);
    return p;
}

// what was written, then its end, and what is behind it, which is no record
static void *reads(void *p) {
    uint32_t what = NZ_JOURNAL_RECORD, kind;
    nz_len at = 0;
    frame = __builtin_frame_address(0);
    while (what == NZ_JOURNAL_RECORD)
        if (nz_journal_read(journal, written, at, &what, &kind, words, &at) != NZ_OK) exit(1);
    if (nz_journal_read(journal, sizeof journal, at, &what, &kind, words, &at) != NZ_BAD_LENGTH) exit(1);
    return p;
}

static void *ends(void *p) {
    nz_len end;
    frame = __builtin_frame_address(0);
    if (nz_journal_end(journal, written, &end) != NZ_OK || end != written) exit(1);
    if (nz_journal_end(journal, sizeof journal, &end) != NZ_BAD_LENGTH) exit(1);
    return p;
}

static size_t deep(void *(*call)(void *), void *with) {
    unsigned char *stack = aligned_alloc(4096, ROOM);
    memset(stack, PAINT, ROOM);
    pthread_attr_t attr;
    pthread_t thread;
    pthread_attr_init(&attr);
    if (pthread_attr_setstack(&attr, stack, ROOM) || pthread_create(&thread, &attr, call, with)) exit(1);
    pthread_join(thread, NULL);
    size_t k = 0;
    while (k < ROOM && stack[k] == PAINT) k++;
    size_t used = frame - (stack + k);
    free(stack);
    return used;
}

int main(void) {
    uint32_t levels[2] = {4, NZ_MAX_LEVEL};
    for (int k = 0; k < 2; k++) printf("stack of nz_cut_in_order_both at level %u: %zu bytes\n", (unsigned)levels[k], deep(in_order, &levels[k]));
    printf("stack of nz_auto_conic_to_quads: %zu bytes\n", deep(automatic, NULL));
    printf("stack of nz_date_table at level %u: %zu bytes\n", NZ_MAX_LEVEL, deep(date_table, NULL));
    printf("stack of nz_date_at and nz_date_all: %zu bytes\n", deep(lookups, NULL));
    printf("stack of nz_journal_write: %zu bytes\n", deep(writes, NULL));
    printf("stack of nz_journal_read: %zu bytes\n", deep(reads, NULL));
    printf("stack of nz_journal_end: %zu bytes\n", deep(ends, NULL));
    return 0;
}
