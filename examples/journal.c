// Keeps the journal of a session: bridges, matrices and corrections are written into a buffer, record by record, and the bytes
// to the file that is named; then the power is cut in the last record, the journal is written on, and all of it is read back.
#include <stdio.h>
#include <string.h>

#include "../include/nyerdzumak.h"

enum { ROOM = 8 * NZ_MAX_RECORD };

// The length counts the bytes of whole records, and is kept beside them: the buffer cannot tell it.
static uint8_t journal[ROOM];
static nz_len length;

static void show_bytes(nz_len from, nz_len to) {
    printf("at %3u:", (unsigned)from);
    for (nz_len k = from; k < to; k++) printf(" %02X", journal[k]);
    printf("\n");
}

// Writes a record behind the others, and shows its bytes. Whether there was room.
static bool add(uint32_t kind, const uint32_t words[7]) {
    nz_len at = length;
    if (nz_journal_write(journal, ROOM, at, kind, words, &length) != NZ_OK) return false;
    show_bytes(at, length);
    return true;
}

// Seven floats of a conic, or six of a matrix. By memcpy every bit of them is kept.
static bool add_floats(uint32_t kind, const float *numbers, size_t count) {
    uint32_t words[7] = {0};
    memcpy(words, numbers, count * sizeof *numbers);
    return add(kind, words);
}

static bool add_correction(int32_t milliseconds) {
    uint32_t words[7] = {0};
    memcpy(words, &milliseconds, sizeof milliseconds);
    return add(NZ_KIND_CORRECTION, words);
}

// By 62000 the clock was 250 milliseconds ahead, and by 91000 it had lost 40 of them; between these the pad was turned.
static bool session(void) {
    const float first[7] = {61000, 61000, 61500, 61500, 62000, 61750, 0.75f}, second[7] = {90000, 89750, 90500, 90250, 91000, 90790, 0.75f};
    const float upright[6] = {0.5f, 0, 0, 0.25f, 10, 20}, turned[6] = {0, 0.5f, -0.25f, 0, 600, 20};
    return add_floats(NZ_KIND_CONIC, first, 7) && add_floats(NZ_KIND_TRANSFORM, upright, 6) && add_correction(-250)
        && add_floats(NZ_KIND_TRANSFORM, turned, 6) && add_correction(40) && add_floats(NZ_KIND_CONIC, second, 7);
}

// A conic that was read, and its date table.
static bool show_bridge(const uint32_t words[7]) {
    float numbers[7];
    uint32_t table[NZ_TABLE_ROOM(2)];
    memcpy(numbers, words, sizeof numbers);
    if (nz_date_table(numbers, 6, numbers[6], 2, table, NZ_TABLE_ROOM(2)) != NZ_OK) return false;
    printf("conic from %g %g to %g %g, weight %g; its date table:", numbers[0], numbers[1], numbers[4], numbers[5], numbers[6]);
    for (int k = 0; k < 5; k++) printf(" %u %u%s", table[2 * k], table[2 * k + 1], k < 4 ? "," : "\n");
    return true;
}

static bool show(uint32_t kind, const uint32_t words[7]) {
    float m[6];
    int32_t milliseconds;
    if (kind == NZ_KIND_CONIC) return show_bridge(words);
    if (kind == NZ_KIND_TRANSFORM) {
        memcpy(m, words, sizeof m);
        printf("transform %g %g %g %g %g %g\n", m[0], m[1], m[2], m[3], m[4], m[5]);
    } else {
        memcpy(&milliseconds, words, sizeof milliseconds);
        printf("correction %d\n", (int)milliseconds);
    }
    return true;
}

// Reads the journal record by record, up to its end. Whether all went well.
static bool read_all(void) {
    uint32_t what, kind, words[7];
    nz_len at = 0;
    for (;;) {
        if (nz_journal_read(journal, length, at, &what, &kind, words, &at) != NZ_OK) return false;
        if (what != NZ_JOURNAL_RECORD) return what == NZ_JOURNAL_END;
        if (!show(kind, words)) return false;
    }
}

// What comes of bytes that no record was written to, where they are lent with the journal.
static void lend_more(const char *what, nz_len bytes) {
    nz_len end;
    uint32_t answer = nz_journal_end(journal, bytes, &end);
    printf("lent with %s: answer %u at %u\n", what, answer, (unsigned)end);
}

int main(int count, char **arguments) {
    memset(journal, 0xFF, ROOM); // as flash is that was never written
    if (!session()) return 1;
    FILE *file = count > 1 ? fopen(arguments[1], "wb") : NULL;
    if (!file || fwrite(journal, 1, length, file) != length || fclose(file)) return 1;
    lend_more("the flash behind it", ROOM);

    // the power is cut when 20 bytes of the last record are there
    nz_len cut = length - 14;
    memset(journal + cut, 0xFF, ROOM - cut);
    if (nz_journal_end(journal, cut, &length) != NZ_OK) return 1;
    printf("a power cut leaves %u bytes, the last of them torn:\n", (unsigned)cut);
    show_bytes(length, cut);
    printf("written on there:\n");
    if (!add_correction(-210)) return 1;
    lend_more("what is left of the torn tail", cut);
    printf("lent as long as it is, %u bytes:\n", (unsigned)length);
    return read_all() ? 0 : 1;
}
