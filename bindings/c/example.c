/* Two rows of a catalogue of glyphs: plate (u32), glyph name (variable bytes), contour (u16), position (f64), exposure
 * (months, days, nanoseconds). Encodes them, prints each row in hex, compares the two, decodes them again, compares their
 * values, looks their plate up, and cuts them apart again where they come joined, in pieces. Then the same with the list
 * read once, as one would for many sheets.
 *
 *   cc -I include bindings/c/example.c crates/station_c/out/libstation_c.a -o example && ./example
 */
#include <inttypes.h>
#include <stdio.h>
#include <string.h>

#include "station.h"

/* Kinds 8, 16, 7, 12 and 14: ascending, nulls first. */
static const uint8_t LIST[] = {8, 2, 16, 2, 7, 2, 12, 2, 14, 2};

/* Row 0: plate 7, "ae", contour 1, 1.5, 0 months, 0 days, 250 ns.
 * Row 1: plate 7, no name, contour 0, -2.0, 0 months, 1 day, 0 ns. */
static const uint8_t SHEET[] = {
    0x03, 7, 0, 0, 0, 7, 0, 0, 0,
    0x01, 0, 0, 0, 0, 2, 0, 0, 0, 2, 0, 0, 0, 'a', 'e',
    0x03, 1, 0, 0, 0,
    0x03, 0, 0, 0, 0, 0, 0, 0xF8, 0x3F, 0, 0, 0, 0, 0, 0, 0, 0xC0,
    0x03, 0, 0, 0, 0, 0, 0, 0, 0, 250, 0, 0, 0, 0, 0, 0, 0,
          0, 0, 0, 0, 1, 0, 0, 0, 0, 0, 0, 0, 0, 0, 0, 0,
};

/* Number i of bytes that hold eight a number, low byte first. */
static uint64_t number(const uint8_t *bytes, size_t i) {
    uint64_t value = 0;
    for (size_t k = 8; k > 0; k--) value = value << 8 | bytes[8 * i + k - 1];
    return value;
}

/* Whether the call was done; says what was refused if not. */
static int done(const char *call, const uint8_t *answer) {
    if (number(answer, 0) == 0) return 1;
    printf("%s: refused %" PRIu64 " %" PRIu64 " %" PRIu64 " %" PRIu64 "\n", call, number(answer, 0), number(answer, 1),
           number(answer, 2), number(answer, 3));
    return 0;
}

/* Compares the two rows of the sheet by their values: 0, 1 or 2, of one pair and of two. */
static int compare_values(void) {
    uint8_t pairs[2 * 16] = {0, 0, 0, 0, 0, 0, 0, 0, 1, 0, 0, 0, 0, 0, 0, 0, 1}, answers[2], answer[STATION_ANSWER_BYTES];

    station_compare_sheets(LIST, sizeof LIST, 2, SHEET, sizeof SHEET, 0, 2, SHEET, sizeof SHEET, 1, answer, sizeof answer);
    if (!done("compare_sheets", answer)) return 0;
    printf("by values: %" PRIu64, number(answer, 1));
    station_compare_pairs(LIST, sizeof LIST, 2, SHEET, sizeof SHEET, 2, SHEET, sizeof SHEET, pairs, sizeof pairs, answers,
                          sizeof answers, answer, sizeof answer);
    if (!done("compare_pairs", answer)) return 0;
    printf(", and of two pairs: %u %u\n", answers[0], answers[1]);
    return 1;
}

/* Looks plate 7 up, whose key is the five bytes that row 0 begins with, in the two rows put in order: row 1, which has no
 * name, comes first. */
static int look_up(const uint8_t *rows, uint64_t middle, uint64_t end) {
    uint8_t sorted[128], offsets[3 * 8] = {0}, answer[STATION_ANSWER_BYTES];
    uint64_t first = end - middle;

    memcpy(sorted, rows + middle, first);
    memcpy(sorted + first, rows, middle);
    for (size_t k = 0; k < 8; k++) {
        offsets[8 + k] = (uint8_t)(first >> 8 * k);
        offsets[16 + k] = (uint8_t)(end >> 8 * k);
    }
    station_look_up(LIST, sizeof LIST, 1, rows, 5, 2, sorted, end, offsets, sizeof offsets, answer, sizeof answer);
    if (!done("look_up", answer)) return 0;
    printf("plate 7: from row %" PRIu64 " up to row %" PRIu64 "\n", number(answer, 1), number(answer, 2));
    return 1;
}

/* The two rows as a stream without offsets, in pieces of seven bytes: prints where each row ends. */
static int cut(const uint8_t *rows, uint64_t end) {
    uint8_t state[STATION_CUTTER_BYTES], ends[7 * 8], answer[STATION_ANSWER_BYTES];

    station_cutter_start(LIST, sizeof LIST, state, sizeof state, answer, sizeof answer);
    if (!done("cutter_start", answer)) return 0;
    printf("cut at:");
    for (uint64_t at = 0; at < end; at += 7) {
        size_t piece = end - at < 7 ? end - at : 7;
        station_cut(state, sizeof state, rows + at, piece, ends, sizeof ends, answer, sizeof answer);
        if (!done("cut", answer)) return 0;
        for (uint64_t i = 0; i < number(answer, 1); i++) printf(" %" PRIu64, number(ends, i));
    }
    station_cutter_finish(state, sizeof state, answer, sizeof answer);
    if (!done("cutter_finish", answer)) return 0;
    printf(", %" PRIu64 " rows in all\n", number(answer, 1));
    return 1;
}

/* The list is read once; its descriptions stand for it in every call that follows. Answers whether rows and sheet are those
 * that came without. */
static int read_once(const uint8_t *rows, uint64_t end) {
    uint8_t descriptions[5 * 4], again[128], offsets[3 * 8], sheet[sizeof SHEET], answer[STATION_ANSWER_BYTES];

    station_read_list(LIST, sizeof LIST, descriptions, sizeof descriptions, answer, sizeof answer);
    if (!done("read_list", answer)) return 0;
    size_t read = 4 * number(answer, 1);
    printf("read: %" PRIu64 " columns\n", number(answer, 1));

    station_measure_read(descriptions, read, 2, SHEET, sizeof SHEET, answer, sizeof answer);
    if (!done("measure_read", answer)) return 0;
    station_encode_read(descriptions, read, 2, SHEET, sizeof SHEET, again, sizeof again, offsets, sizeof offsets, answer,
                        sizeof answer);
    if (!done("encode_read", answer)) return 0;
    station_decode_read(descriptions, read, 2, again, end, offsets, sizeof offsets, sheet, sizeof sheet, answer,
                        sizeof answer);
    if (!done("decode_read", answer)) return 0;
    return memcmp(again, rows, end) == 0 && memcmp(sheet, SHEET, sizeof SHEET) == 0;
}

int main(void) {
    uint8_t rows[128], offsets[3 * 8], sheet[sizeof SHEET], answer[STATION_ANSWER_BYTES];

    station_encode(LIST, sizeof LIST, 2, SHEET, sizeof SHEET, rows, sizeof rows, offsets, sizeof offsets, answer,
                   sizeof answer);
    if (!done("encode", answer)) return 1;

    for (size_t row = 0; row < 2; row++) {
        for (uint64_t i = number(offsets, row); i < number(offsets, row + 1); i++) printf("%02x", rows[i]);
        printf("\n");
    }
    uint64_t middle = number(offsets, 1), end = number(offsets, 2);
    printf("compare: %d\n", station_compare(rows, middle, rows + middle, end - middle));

    station_decode(LIST, sizeof LIST, 2, rows, end, offsets, sizeof offsets, sheet, sizeof sheet, answer,
                   sizeof answer);
    if (!done("decode", answer)) return 1;
    int same = number(answer, 1) == sizeof SHEET && memcmp(sheet, SHEET, sizeof SHEET) == 0;
    printf("decoded: %s\n", same ? "the same sheet" : "another sheet");
    if (!compare_values() || !look_up(rows, middle, end) || !cut(rows, end)) return 1;
    int alike = read_once(rows, end);
    printf("with the list read once: %s\n", alike ? "the same rows and sheet" : "other bytes");
    return same && alike ? 0 : 1;
}
