/* Calls every exported call on seeded inputs, and prints one sum for each, over its answers and all that was lent to it. The
 * same source on every platform: the sums have to be the same. */
#include "calls.h"
#include "cases.h"
#include "inputs.h"

static char line[128];
static int at;

static void text(const char *t) {
    while (*t && at < 120) line[at++] = *t++;
}
static void hexadecimal(uint64_t value) {
    for (int shift = 60; shift >= 0; shift -= 4) line[at++] = "0123456789abcdef"[value >> shift & 15];
}
static void decimal(uint32_t value) {
    char digits[10];
    int n = 0;
    do digits[n++] = (char)('0' + value % 10);
    while (value /= 10);
    while (n) line[at++] = digits[--n];
}
static void end_line(void) {
    line[at++] = '\n';
    line[at] = 0;
    put(line);
    at = 0;
}

static void one_call(const char *name, void (*one)(uint32_t i), uint32_t cases) {
    start_sum();
    deepest = 0;
    for (uint32_t i = 0; i < cases; i++) {
        begin(name, i);
        one(i);
    }
    text(name);
    while (at < 34) text(" ");
    hexadecimal(summed());
    if (deepest > 0) {
        text(" stack ");
        decimal(deepest);
    }
    end_line();
}

static void counted(const char *of, uint32_t all, const char *wrong, uint32_t bad) {
    text(of);
    decimal(all);
    text(wrong);
    decimal(bad);
    end_line();
}

int check(uint32_t cases) {
    text(nz_float_environment_ok() ? "the float environment is ok" : "the float environment is NOT ok");
    end_line();
#define RUN(name) one_call(#name, case_##name, cases);
    EVERY_CALL(RUN)
#undef RUN
    counted("cuts of which order is promised: ", promised, ", turned back: ", turned_back);
    counted("pairs of times by one table: ", pairs, ", dated the wrong way round: ", exchanged);
    return 0;
}
