/* The journal: records of each kind, torn tails, damage, and offsets anywhere. */
#include "calls.h"
#include "inputs.h"

enum { ROOM = 6 * NZ_MAX_RECORD };

static uint8_t journal[ROOM];
static uint32_t words[7];

static void add_bytes(const uint8_t *bytes, int count) {
    for (int k = 0; k < count; k++) add_word(bytes[k]);
}

/* Little-endian bytes of a number at an offset, which must have room. */
static uint32_t put_bytes(uint32_t at, uint32_t value, uint32_t count) {
    for (uint32_t k = 0; k < count; k++) journal[at + k] = (uint8_t)(value >> 8 * k);
    return at + count;
}

/* Some records, written by hand, and behind them erased bytes. Gives where the last record ends. */
static uint32_t some_records(void) {
    static const uint32_t payload[4] = {0, 7, 6, 1};
    uint32_t at = 0, records = below(6);
    for (int k = 0; k < ROOM; k++) journal[k] = 0xff;
    for (uint32_t r = 0; r < records; r++) {
        uint32_t kind = 1 + below(3);
        if (at + NZ_MAX_RECORD > ROOM) break;
        at = put_bytes(at, 2 + 4 * payload[kind], 4);
        at = put_bytes(at, kind, 2);
        for (uint32_t k = 0; k < payload[kind]; k++) at = put_bytes(at, draw(), 4);
    }
    return at;
}

/* A journal: whole, cut anywhere, with the erased bytes behind it, or with a byte changed. Gives its length. */
static nz_len some_journal(void) {
    uint32_t end = some_records(), r = draw(), kind = below(4);
    if (kind == 1) journal[r % ROOM] ^= (uint8_t)(1u << (r >> 16) % 8);
    if (kind == 2) return end == 0 ? 0 : r % end;
    return kind == 3 ? end + r % (ROOM - end + 1) : end;
}

void case_nz_journal_read(uint32_t i) {
    uint32_t answer, what = 77, kind = 77;
    nz_len next = 7777777777u, length = some_journal(), at = i % 2 == 0 ? 0 : below(ROOM + 20);
    fill_words(words, 7);
    if (one_in(50)) at = 0xffffffffffffffffu - below(40);
    for (int k = 0; k < 8; k++) {
        CALLED(answer = nz_journal_read(journal, length, at, &what, &kind, words, &next));
        add_word(answer);
        add_word(what);
        add_word(kind);
        add_words(words, 7);
        add_length(next);
        if (answer != NZ_OK || what != NZ_JOURNAL_RECORD) return;
        at = next;
    }
}

void case_nz_journal_write(uint32_t i) {
    uint32_t answer, kind = one_in(10) ? below(70000) : 1 + below(3);
    nz_len next = 7777777777u, room = below(ROOM + 1), at = one_in(3) ? below(ROOM + 20) : some_records();
    if (i % 50 == 0) at = 0xffffffffffffffffu - below(40);
    for (int k = 0; k < 7; k++) words[k] = draw();
    CALLED(answer = nz_journal_write(journal, room, at, kind, words, &next));
    add_word(answer);
    add_length(next);
    add_bytes(journal, ROOM);
    add_words(words, 7);
}

void case_nz_journal_end(uint32_t i) {
    uint32_t answer;
    nz_len end = 7777777777u, length = some_journal();
    CALLED(answer = nz_journal_end(journal, length, &end));
    add_word(answer);
    add_length(end);
    (void)i;
}
