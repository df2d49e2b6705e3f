#include "inputs.h"

static uint64_t state;
static uint32_t last;

/* xorshift64 */
uint32_t draw(void) {
    state ^= state << 13;
    state ^= state >> 7;
    state ^= state << 17;
    return (uint32_t)(state >> 16);
}

uint32_t below(uint32_t bound) { return draw() % bound; }
bool one_in(uint32_t n) { return below(n) == 0; }

void begin(const char *name, uint32_t i) {
    uint64_t of_name = 14695981039346656037u;
    for (; *name; name++) of_name = (of_name ^ (uint8_t)*name) * 1099511628211u;
    state = of_name ^ (0x9e3779b97f4a7c15u * (i + 1u));
    if (state == 0) state = 1;
    last = 0x3f800000u;
    draw();
    draw();
}

float of_bits(uint32_t bits) {
    union { uint32_t bits; float x; } both = {bits};
    return both.x;
}
uint32_t bits_of(float x) {
    union { float x; uint32_t bits; } both = {x};
    return both.bits;
}
double of_bits64(uint64_t bits) {
    union { uint64_t bits; double x; } both = {bits};
    return both.x;
}
uint64_t bits_of64(double x) {
    union { double x; uint64_t bits; } both = {x};
    return both.bits;
}

static const uint32_t special[] = {
    0, 0x80000000u, 0x3f800000u, 0xbf800000u, 0x3f000000u, 0x7f800000u, 0xff800000u, 0x7fc00000u, 0x7f7fffffu, 0xff7fffffu,
    1, 0x80000001u, 0x00800000u, 0x80800000u, 0x007fffffu, 0x3f7fffffu, 0x3f800001u, 0x1f800000u, 0x5f000000u, 0x4b800000u,
};

static uint32_t pattern(void) {
    /* each is drawn on a line of its own: C does not say in which order operands are */
    uint32_t kind = below(10), r = draw(), q = draw();
    switch (kind) {
    case 0: return r;                                                   /* any bits */
    case 1: return r & 0x807fffffu;                                     /* subnormal */
    case 2: return special[r % (sizeof special / sizeof special[0])];
    case 3: return last + r % 9 - 4;                                    /* some places from the last one */
    case 4: return (r & 0x80ffffffu) | ((0x1eu + q % 3) << 24);         /* products underflow */
    case 5: return (r & 0x80ffffffu) | ((0x5eu + q % 3) << 24);         /* products overflow */
    case 6: return r & 0x81ffffffu;                                     /* tiny */
    default: return (r & 0x807fffffu) | ((118 + q % 24) << 23);         /* ordinary */
    }
}

float number(void) { return of_bits(last = pattern()); }

float finite_number(void) {
    do last = pattern();
    while ((last & 0x7f800000u) == 0x7f800000u);
    return of_bits(last);
}

void numbers(float *out, int count) {
    for (int k = 0; k < count; k++) out[k] = number();
}

float part(void) {
    uint32_t r = draw(), q = draw();
    return one_in(4) ? number() : of_bits((r & 0x007fffffu) | ((100 + q % 27) << 23));
}

double wide(void) {
    uint64_t high = draw(), low = draw(), m = high << 32 | low;
    uint32_t kind = below(5), r = draw(), q = draw();
    uint64_t digits = m & 0x800fffffffffffffu;
    switch (kind) {
    case 0: return of_bits64(m);
    case 1: return of_bits64(digits);
    case 2: return of_bits64(digits | (uint64_t)(1023 - 152 + r % 284) << 52);
    case 3: return of_bits64((m & 0x800fffffe0000000u) | (r % 3 ? 0x10000000u : r & 3) | (uint64_t)(1023 - 150 + q % 30) << 52);
    default: return of_bits64(digits | (uint64_t)(1000 + r % 46) << 52);
    }
}

/* without a conversion, which would be one of the platform's: the digits of a whole number, shifted up to the first of them */
static float whole(uint32_t n) {
    uint32_t exponent = 127 + 23;
    if (n == 0) return of_bits(0);
    while (n >= 1u << 24) n >>= 1, exponent++;
    while (n < 1u << 23) n <<= 1, exponent--;
    return of_bits((exponent << 23) | (n & 0x007fffffu));
}

float millisecond(void) {
    uint32_t r = draw();
    return whole(one_in(40) ? r % 40000000 : r % (one_in(3) ? 16777217 : 5000));
}

nz_len length_for(uint32_t need) {
    uint32_t r = draw();
    return one_in(8) ? r % (need + 1) : need + r % 5;
}

void fill(float *out, int count) {
    for (int k = 0; k < count; k++) out[k] = of_bits(0x4b000000u + (uint32_t)k);
}
void fill_words(uint32_t *out, int count) {
    for (int k = 0; k < count; k++) out[k] = 0xabcd0000u + (uint32_t)k;
}

int32_t key(float x) {
    uint32_t bits = bits_of(x), size = bits & 0x7fffffffu;
    return bits & 0x80000000u ? -(int32_t)size : (int32_t)size;
}

static uint64_t sum;

void start_sum(void) { sum = 14695981039346656037u; }
uint64_t summed(void) { return sum; }

void add_word(uint32_t word) {
    for (int k = 0; k < 4; k++) sum = (sum ^ (word >> 8 * k & 255)) * 1099511628211u;
}
void add_length(nz_len length) {
    add_word((uint32_t)length);
    add_word((uint32_t)(length >> 32));
}
void add_float(float x) {
    uint32_t bits = bits_of(x);
    add_word((bits & 0x7fffffffu) > 0x7f800000u ? 0x7fc00000u : bits);
}
void add_double(double x) {
    uint64_t bits = bits_of64(x);
    add_length(bits << 1 > 0xffe0000000000000u ? 0x7ff8000000000000u : bits);
}
void add_floats(const float *x, int count) {
    for (int k = 0; k < count; k++) add_float(x[k]);
}
void add_words(const uint32_t *x, int count) {
    for (int k = 0; k < count; k++) add_word(x[k]);
}

uint32_t deepest;

void note_depth(void) {
    uint32_t deep = depth();
    if (deep > deepest) deepest = deep;
}
