// Dates strokes across a clock correction: a bridge between two readings, its date table, the dates, and what refusals look
// like; then the points of a cut, a matrix, and what two pads' matrices are undone by.
#include <inttypes.h>
#include <stdio.h>

#include "../include/nyerdzumak.h"

// The session's start. Both clocks are counted from it, in whole numbers and before they become floats, since a float has
// every millisecond up to NZ_MAX_ENTRY only; it is added back to the dates.
static const uint64_t start = 1900000000000;

// Milliseconds since then. What is before it, or does not fit, becomes a number outside of every table, and is refused.
static uint32_t since(uint64_t reading) {
    return reading < start || reading - start > UINT32_MAX ? UINT32_MAX : (uint32_t)(reading - start);
}

// Dates one stroke by the table of a bridge at a level. Whether all went well.
static bool date_one(const float *bridge, float weight, uint32_t level, uint64_t recorded) {
    uint32_t table[NZ_TABLE_ROOM(NZ_MAX_LEVEL)], date;
    if (nz_date_table(bridge, 6, weight, level, table, NZ_TABLE_ROOM(NZ_MAX_LEVEL)) != NZ_OK) return false;
    // lent as long as the table is, and not as its buffer
    if (nz_date_at(table, NZ_TABLE_ROOM(level), since(recorded), &date) != NZ_OK) return false;
    printf("stroke recorded at %" PRIu64 ", level %u: %" PRIu64 "\n", recorded, level, start + date);
    return true;
}

// Dates many strokes by one call, and tries one that was recorded before the session.
static bool date_all(const uint32_t *table, nz_len length) {
    const uint64_t recorded[5] = {start + 1000, start + 1250, start + 1500, start + 1750, start + 2000};
    uint32_t times[5];
    nz_len first_bad = 0;
    for (int k = 0; k < 5; k++) times[k] = since(recorded[k]);
    if (nz_date_all(table, length, times, 5, &first_bad) != NZ_OK) return false;
    for (int k = 0; k < 5; k++) printf("stroke recorded at %" PRIu64 ": %" PRIu64 "\n", recorded[k], start + times[k]);

    uint32_t two[2] = {since(start + 1000), since(start - 1)};
    uint32_t answer = nz_date_all(table, length, two, 2, &first_bad);
    printf("a stroke from before the session: answer %u, at place %u; the other is as it was, %u\n", answer, (unsigned)first_bad, two[0]);
    return true;
}

// What makes no table, and what is none.
static void refusals(const float *bridge) {
    const float back[6] = {1000, 2400, 1500, 1100, 2000, 1000}, long_after[6] = {0, 0, 1000, 1000, 16777218, 2000};
    uint32_t table[NZ_TABLE_ROOM(NZ_MAX_LEVEL)] = {0}, date;
    const nz_len room = NZ_TABLE_ROOM(NZ_MAX_LEVEL);
    printf("a clock set back: answer %u\n", nz_date_table(back, 6, 0.75f, 2, table, room));
    printf("past 16,777,216 milliseconds: answer %u\n", nz_date_table(long_after, 6, 0.75f, 2, table, room));
    printf("nine numbers of room at level 2: answer %u\n", nz_date_table(bridge, 6, 0.75f, 2, table, 9));
    printf("level %u: answer %u\n", NZ_MAX_LEVEL + 1, nz_date_table(bridge, 6, 0.75f, NZ_MAX_LEVEL + 1, table, room));
    if (nz_date_table(bridge, 6, 0.75f, 2, table, room) != NZ_OK) return;
    printf("a lookup that is lent the zeros behind a table: answer %u\n", nz_date_at(table, room, 1750, &date));
}

// Whether the cut of a bridge is promised to run forward along x and to keep one direction along y. A table needs no test.
static bool promised(const float *bridge) {
    for (int k = 0; k < 6; k++)
        if (!nz_is_finite_f32(bridge[k])) return false;
    return bridge[0] <= bridge[4] && nz_between_exact(bridge[0], bridge[2], bridge[4]) && nz_between_exact(bridge[1], bridge[3], bridge[5]);
}

// What undoes a pad's matrix, and whether it was rounded, for the log that support reads. Where it was, a number lost digits as
// it became a float, and a stroke that is mapped back can miss its place a little: rounding, and no fault of the pad.
static bool undo(const char *pad, const float m[6]) {
    float u[6];
    bool rounded;
    if (nz_transform_invert(m, u, &rounded) != NZ_OK) return false; // then neither has a value
    printf("%s is undone by %.3f, %.3f, %.3f, %.3f, %.3f, %.3f, rounded %d\n", pad, u[0], u[1], u[2], u[3], u[4], u[5], rounded);
    return true;
}

int main(void) {
    // three readings, each as it was recorded and as it is corrected: the start of the gap, a point on the way, and its end
    const uint64_t readings[6] = {start + 1000, start + 1000, start + 1500, start + 1100, start + 2000, start + 2400};
    float bridge[6];
    for (int k = 0; k < 6; k++) bridge[k] = (float)since(readings[k]);

    uint32_t table[NZ_TABLE_ROOM(2)];
    uint32_t answer = nz_date_table(bridge, 6, 0.75f, 2, table, NZ_TABLE_ROOM(2));
    printf("date table at level 2: answer %u\n", answer);
    if (answer != NZ_OK) return 1;
    for (int k = 0; k < 5; k++) printf("  %u %u\n", table[2 * k], table[2 * k + 1]);
    if (!date_all(table, NZ_TABLE_ROOM(2))) return 1;

    // the level for a twentieth of a millisecond, up to the highest that there is, and by the ceiling of the Rust
    uint32_t level = 0;
    answer = nz_conic_compute_quad_pow2(bridge, 6, 0.75f, 0.05f, NZ_MAX_LEVEL, &level);
    printf("level for a twentieth of a millisecond: %u, answer %u\n", level, answer);
    if (answer != NZ_OK || !date_one(bridge, 0.75f, level, start + 1750)) return 1;
    answer = nz_conic_compute_quad_pow2(bridge, 6, 0.75f, 0.05f, NZ_MAX_CONIC_TO_QUAD_POW2, &level);
    printf("level by the ceiling of the Rust: %u, answer %u\n", level, answer);
    printf("by the ceiling 5: answer %u\n", nz_conic_compute_quad_pow2(bridge, 6, 0.75f, 0.05f, 5, &level));
    refusals(bridge);

    float points[NZ_CUT_ROOM(1)];
    if (!promised(bridge) || nz_cut_in_order_both(bridge, 6, 0.75f, 1, points, NZ_CUT_ROOM(1)) != NZ_OK) return 1;
    printf("cut at level 1:\n");
    for (int k = 0; k < 5; k++) printf("  %.3f %.3f\n", points[2 * k], points[2 * k + 1]);

    float m[6] = {2, 0, 0, 4, 6, 8}, p[2] = {1, 1};
    nz_transform_map_point(m, p);
    printf("(1, 1) maps to (%g, %g)\n", p[0], p[1]);
    bool rounded = true;
    answer = nz_transform_invert(m, m, &rounded); // in place
    printf("which is undone by %g, %g, %g, %g, %g, %g, answer %u, rounded %d\n", m[0], m[1], m[2], m[3], m[4], m[5], answer, rounded);
    // halves fit a float, and thirds do not
    const float halves[6] = {2, 1, 2, 2, 10, 30}, thirds[6] = {2, 1, 1, 2, 10, 30};
    return undo("a skewed pad", halves) && undo("another", thirds) ? 0 : 1;
}
