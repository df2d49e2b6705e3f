// The square roots beside the processor's: every pattern of binary32, and patterns of binary64 in classes, bit for bit.
// Arguments: how many patterns of binary64, and the seed; or `spoiled` and the seed, see roots_spoils.c. The last line is 'N
// inputs, M differences'; the exit status is 1 if M is not 0, or a class or an entry of the table was not met.
#include <pthread.h>
#include <stdatomic.h>
#include <stdio.h>
#include <stdlib.h>

#include "roots.h"

// Of fewer patterns nothing is asked.
enum { FEW = 2000000 };

// So many inputs are made from one state, so that they are the same however the threads take turns.
enum { BLOCK = 1 << 18, BLOCK32 = 1 << 24 };

typedef struct {
    uint64_t inputs[CLASSES], differences[CLASSES];
    uint8_t marks[CLASSES][MARKS];
    // how often each entry of the table was met, where the root is rounded down or exact and where it is rounded up
    uint64_t entries[ENTRIES][2];
} Tally;

typedef struct {
    uint64_t count, seed;
    int left_out; // a class in whose place 4 is given, or -1
    int told;
    atomic_ullong block;
    Tally tallies[2];
} Run;

static atomic_ullong shown;

static void differ(const char *call, uint64_t input, uint64_t ours, uint64_t theirs) {
    if (atomic_fetch_add(&shown, 1) >= 20) return;
    printf("%s %016llx: %016llx, the processor has %016llx\n", call, (unsigned long long)input, (unsigned long long)ours,
           (unsigned long long)theirs);
}

static void count_entry(Tally *t, const Place *p) {
    if (p->above) t->entries[p->k - FIRST][p->rest < 0]++;
}

static void progress(uint64_t done, uint64_t count, int width) {
    fprintf(stderr, "%llu of %llu patterns of binary%d\n", (unsigned long long)done, (unsigned long long)count, width);
}

static void every32(void *with, int thread) {
    Run *run = with;
    Tally *t = &run->tallies[thread];
    uint64_t block;
    while ((block = atomic_fetch_add(&run->block, 1)) < (1ull << 32) / BLOCK32) {
        for (uint64_t i = block * BLOCK32; i < (block + 1) * BLOCK32; i++) {
            uint32_t b = (uint32_t)i, ours = bits32(nz_sqrt_f32(f32(b))), theirs = bits32(sqrtf(f32(b)));
            if (!same32(ours, theirs)) {
                t->differences[0]++;
                differ("sqrt_f32", b, ours, theirs);
            }
            Place p = place32(b, theirs);
            count_entry(t, &p);
        }
        t->inputs[0] += BLOCK32;
        if ((block + 1) % 64 == 0) progress((block + 1) * BLOCK32, 1ull << 32, 32);
    }
}

static void judge64(Tally *t, int class, uint64_t b) {
    uint64_t ours = bits64(nz_sqrt_f64(f64(b))), theirs = bits64(sqrt(f64(b)));
    t->inputs[class]++;
    if (!same64(ours, theirs)) {
        t->differences[class]++;
        differ("sqrt_f64", b, ours, theirs);
    }
    Place p = place64(b, theirs);
    count_entry(t, &p);
    int mark = classes[class].mark(&p);
    if (mark >= 0) t->marks[class][mark] = 1;
}

static void some64(void *with, int thread) {
    Run *run = with;
    uint64_t block;
    while ((block = atomic_fetch_add(&run->block, 1)) * BLOCK < run->count) {
        uint64_t state = block_state(run->seed, block), end = (block + 1) * BLOCK;
        for (uint64_t i = block * BLOCK; i < (end < run->count ? end : run->count); i++) {
            int class = (int)(i % CLASSES);
            judge64(&run->tallies[thread], class, class == run->left_out ? bits64(4) : classes[class].make(&state));
        }
        if (run->told && (block + 1) % 512 == 0) progress(end, run->count, 64);
    }
}

// What both threads counted, in the first one's tally.
static Tally *joined(Run *run) {
    Tally *a = &run->tallies[0], *b = &run->tallies[1];
    for (int c = 0; c < CLASSES; c++) {
        a->inputs[c] += b->inputs[c];
        a->differences[c] += b->differences[c];
        for (int m = 0; m < MARKS; m++) a->marks[c][m] |= b->marks[c][m];
    }
    for (int k = 0; k < ENTRIES; k++) {
        for (int up = 0; up < 2; up++) a->entries[k][up] += b->entries[k][up];
    }
    return a;
}

static int marks_met(const Tally *t, int class) {
    int met = 0;
    for (int m = 0; m < MARKS; m++) met += t->marks[class][m];
    return met;
}

// How many answers of entries were never met. The entries below 512 are those of even exponents, the others those of odd.
static int entries_told(const Tally *t, const char *width, int told) {
    uint64_t least[2] = {-1ull, -1ull}, parity[2] = {0, 0};
    int never = 0;
    for (int k = 0; k < ENTRIES; k++) {
        for (int up = 0; up < 2; up++) {
            uint64_t n = t->entries[k][up];
            never += n == 0;
            if (n < least[up]) least[up] = n;
            parity[k >= 512 - FIRST] += n;
        }
    }
    if (told) {
        printf("%s: each of %d entries by %llu inputs or more", width, ENTRIES, (unsigned long long)least[0]);
        printf(" whose root is rounded down or exact, and by %llu or more where it is rounded up; ", (unsigned long long)least[1]);
        printf("%llu of even exponents, %llu of odd\n", (unsigned long long)parity[0], (unsigned long long)parity[1]);
        if (never) printf("%s: %d answers of entries were never met\n", width, never);
    }
    return never;
}

// How many classes missed what they are made for.
static int classes_told(const Tally *t, int told) {
    int missed = 0;
    for (int c = 0; c < CLASSES; c++) {
        int met = marks_met(t, c);
        missed += met != classes[c].marks;
        if (!told) continue;
        printf("f64: %10llu inputs, %llu differences, ", (unsigned long long)t->inputs[c], (unsigned long long)t->differences[c]);
        printf("%4d of %4d met: %s%s\n", met, classes[c].marks, classes[c].name, met == classes[c].marks ? "" : ": NOT all");
    }
    return missed;
}

static uint64_t all_differences(const Tally *t) {
    uint64_t n = 0;
    for (int c = 0; c < CLASSES; c++) n += t->differences[c];
    return n;
}

static Run *new_run(uint64_t count, uint64_t seed, int left_out) {
    Run *run = calloc(1, sizeof *run);
    if (!run) exit(2);
    run->count = count;
    run->seed = seed;
    run->left_out = left_out;
    run->told = left_out < 0;
    return run;
}

int missed_untold(uint64_t seed) {
    int untold = 0;
    for (int c = 0; c < CLASSES; c++) {
        Run *run = new_run(FEW, seed, c);
        both(some64, run);
        int missed = classes_told(joined(run), 0);
        printf("a class that is never made: told %s: %s\n", missed == 1 ? "once" : "NOT as it must be", classes[c].name);
        untold += missed != 1;
        free(run);
    }
    return untold;
}

typedef struct { void (*work)(void *, int); void *with; } Half;

static void *second(void *half) {
    ((Half *)half)->work(((Half *)half)->with, 1);
    return 0;
}

void both(void (*work)(void *, int), void *with) {
    Half half = {work, with};
    pthread_t thread;
    if (pthread_create(&thread, 0, second, &half)) exit(2);
    work(with, 0);
    pthread_join(thread, 0);
}

int main(int argc, char **argv) {
    if (argc > 1 && !strcmp(argv[1], "spoiled")) {
        uint64_t seed = argc > 2 ? strtoull(argv[2], 0, 10) : 1;
        int unseen = spoiled(seed);
        return (missed_untold(seed) | unseen) != 0;
    }
    uint64_t count = argc > 1 ? strtoull(argv[1], 0, 10) : 1000000000, seed = argc > 2 ? strtoull(argv[2], 0, 10) : 1;
    Run *run32 = new_run(1ull << 32, seed, -1), *run64 = new_run(count, seed, -1);
    both(every32, run32);
    both(some64, run64);
    Tally *t32 = joined(run32), *t64 = joined(run64);
    printf("f32: %10llu inputs, ", (unsigned long long)t32->inputs[0]);
    printf("%llu differences: every pattern\n", (unsigned long long)t32->differences[0]);
    int missed = entries_told(t32, "f32", 1), missed64 = classes_told(t64, 1) + entries_told(t64, "f64", 1);
    if (count >= FEW) missed += missed64;
    else printf("fewer than %d inputs of f64: what each class met is not judged\n", FEW);
    uint64_t differences = all_differences(t32) + all_differences(t64);
    printf("%llu inputs, %llu differences\n", (unsigned long long)(t32->inputs[0] + count), (unsigned long long)differences);
    return differences != 0 || missed != 0;
}
