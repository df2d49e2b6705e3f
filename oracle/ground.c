// The float ground beside the processor: every call on random patterns, bit for bit, a zero's sign too, but for a NaN's bits.
// Arguments: how many patterns for each call, and the seed. The last line is 'N inputs, M differences'; the exit status is 1 if M
// is not 0, or of many patterns none was exact, rounded or gone to infinity.
#include <math.h>
#include <stdio.h>
#include <stdlib.h>
#include <string.h>

#include "../include/nyerdzumak.h"

// of fewer patterns nothing is asked
enum { FEW = 100000 };

static uint64_t state;

static uint64_t next(void) {
    state ^= state << 13;
    state ^= state >> 7;
    state ^= state << 17;
    return state * 0x2545f4914f6cdd1d;
}

static float f32(uint32_t b) { float x; memcpy(&x, &b, 4); return x; }
static double f64(uint64_t b) { double x; memcpy(&x, &b, 8); return x; }
static uint32_t bits32(float x) { uint32_t b; memcpy(&b, &x, 4); return b; }
static uint64_t bits64(double x) { uint64_t b; memcpy(&b, &x, 8); return b; }

// A pattern of an f32: any bits, or near the ends of a binade, below the normal range, near the largest, or a zero of either
// sign and what is next to it.
static uint32_t pattern32(void) {
    uint64_t r = next();
    uint32_t b = (uint32_t)(r >> 32), sign = b & 0x80000000u, few = (uint32_t)r % 9;
    switch (r >> 8 & 7) {
    case 0: return sign | (b & 0x7fffff) >> (r >> 16 & 15);
    case 1: return sign | ((b & 0x7f800000) + few - 4) % 0x80000000u;
    case 2: return sign | (0x7f7fffff + few - 4);
    case 3: return sign | (0x00800000 + few - 4);
    case 4: return sign | few / 3;
    default: return b;
    }
}

// A pattern of an f64, besides: halfway between two neighbours of binary32, and one away from that.
static uint64_t pattern64(void) {
    uint64_t r = next(), b = next(), sign = b & (1ull << 63), few = r % 9;
    switch (r >> 8 & 15) {
    case 0: return sign | (b & 0xfffffffffffff) >> (r >> 16 & 31);
    case 1: return sign | ((b & 0x7ff0000000000000) + few - 4) % (1ull << 63);
    case 2: return sign | (0x7fefffffffffffff + few - 4);
    case 3: return sign | (0x0010000000000000 + few - 4);
    // the range of binary32, and what lies around it: 2^-152 to 2^129
    case 4: case 5: return sign | ((871 + (b >> 8) % 282) << 52 | (b & 0xfffffffffffff));
    // ties: the digits that go are 1000.., or one away from it
    case 6: case 7: return sign | ((871 + (b >> 8) % 282) << 52 | (b & 0xfffffe0000000)) + 0x10000000 + few - 4;
    // ties of a subnormal result: fewer digits stay
    case 8: case 9: {
        uint64_t e = 872 + (b >> 8) % 26, drop = 926 - e, keep = drop < 53 ? (b & 0xfffffffffffff) >> drop << drop : 0;
        return sign | ((e << 52 | (keep & 0xfffffffffffff)) + (drop <= 52 ? 1ull << (drop - 1) : 0) + few - 4);
    }
    // about the overflow: halfway above the largest f32
    case 10: return sign | (0x47efffffe0000000 + (b >> 12) % 0x40000000);
    // about the smallest f32, and half of it
    case 11: return sign | (0x3680000000000000 + (b >> 12) % 0x40000000000000);
    // a zero of either sign and what is next to it, and what is narrowed to a zero
    case 12: return sign | few / 3;
    case 13: return sign | ((b >> 8) % 872 << 52 | (b & 0xfffffffffffff));
    default: return b;
    }
}

static uint64_t differences;

static void differ(const char *call, uint64_t input, uint64_t ours, uint64_t theirs) {
    if (differences++ < 20) printf("%s %016llx: %016llx, the processor has %016llx\n", call, (unsigned long long)input, (unsigned long long)ours, (unsigned long long)theirs);
}

static void same32(const char *call, uint64_t input, float ours, float theirs) {
    if (bits32(ours) != bits32(theirs) && !(isnan(ours) && isnan(theirs))) differ(call, input, bits32(ours), bits32(theirs));
}

static void same64(const char *call, uint64_t input, double ours, double theirs) {
    if (bits64(ours) != bits64(theirs) && !(isnan(ours) && isnan(theirs))) differ(call, input, bits64(ours), bits64(theirs));
}

// What narrowing loses: nothing where the value comes back, or is NaN; else it is rounded, or a finite value becomes infinite.
static uint32_t loss_of(double y) {
    if (isnan(y) || (double)(float)y == y) return NZ_NARROW_EXACT;
    return isinf((float)y) ? NZ_NARROW_TO_INFINITY : NZ_NARROW_ROUNDED;
}

static uint64_t losses[3]; // how often each was met

static void told(uint64_t input) {
    volatile double y = f64(input);
    uint32_t loss = 77, theirs = loss_of(y);
    same32("narrow_told", input, nz_narrow_told(y, &loss), (float)y);
    if (loss != theirs) differ("narrow_told, loss", input, loss, theirs);
    losses[theirs]++;
}

int main(int argc, char **argv) {
    uint64_t count = argc > 1 ? strtoull(argv[1], 0, 10) : 50000000;
    state = (argc > 2 ? strtoull(argv[2], 0, 10) : 1) * 0x9e3779b97f4a7c15 + 1;
    for (uint64_t i = 0; i < count; i++) {
        uint32_t b = pattern32();
        volatile float x = f32(b);
        same32("sqrt_f32", b, nz_sqrt_f32(x), sqrtf(x));
        same64("widen", b, nz_widen(x), (double)x);
        same32("abs_f32", b, nz_abs_f32(x), fabsf(x));
        if (nz_is_finite_f32(x) != (isfinite(x) != 0)) differ("is_finite_f32", b, nz_is_finite_f32(x), isfinite(x) != 0);
        uint64_t c = pattern64();
        volatile double y = f64(c);
        same64("sqrt_f64", c, nz_sqrt_f64(y), sqrt(y));
        same32("narrow", c, nz_narrow(y), (float)y);
        told(c);
        // a float, which is kept, and the patterns next to it, most of which are not
        uint64_t wide = bits64(x);
        told(wide);
        told(wide - 1);
        told(wide + 1);
        if (nz_is_finite_f64(y) != (isfinite(y) != 0)) differ("is_finite_f64", c, nz_is_finite_f64(y), isfinite(y) != 0);
        if ((i + 1) % 10000000 == 0) fprintf(stderr, "%llu of %llu\n", (unsigned long long)(i + 1), (unsigned long long)count);
    }
    const char *names[3] = {"exact", "rounded", "gone to infinity"};
    for (int k = 0; k < 3; k++) printf("narrow_told: %llu %s\n", (unsigned long long)losses[k], names[k]);
    printf("%llu inputs, %llu differences\n", (unsigned long long)count * 11, (unsigned long long)differences);
    return differences != 0 || (count > FEW && !(losses[0] && losses[1] && losses[2]));
}
