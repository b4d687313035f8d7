/* Each C entry with slices of length 0 whose pointers are null, against what document 01 says. Says what is wrong, if
 * anything is; the exit status is then 1.
 *
 *   cc -I include bindings/c/nulls.c crates/station_c/out/libstation_c.a -o nulls && ./nulls
 */
#include <stdio.h>
#include <string.h>

#include "station.h"

/* One bool column. */
static const uint8_t LIST[] = {1, 0}, DESCRIPTION[] = {1, 0, 0, 0};

static uint8_t answer[STATION_ANSWER_BYTES];
static int wrong;

/* Number i of the answer. */
static uint64_t number(size_t i) {
    uint64_t value = 0;
    for (size_t k = 8; k > 0; k--) value = value << 8 | answer[8 * i + k - 1];
    return value;
}

/* Holds the answer to three numbers and a fourth that is 0, and forgets it. */
static void hold(const char *call, uint64_t first, uint64_t second, uint64_t third) {
    if (number(0) != first || number(1) != second || number(2) != third || number(3) != 0) {
        printf("%s: %llu %llu %llu %llu\n", call, (unsigned long long)number(0), (unsigned long long)number(1),
               (unsigned long long)number(2), (unsigned long long)number(3));
        wrong = 1;
    }
    memset(answer, 0xA5, sizeof answer);
}

int main(void) {
    uint8_t offsets[8] = {1, 2, 3, 4, 5, 6, 7, 8}, state[STATION_CUTTER_BYTES];
    static const uint8_t zero[8];

    memset(answer, 0xA5, sizeof answer);
    station_check_list(NULL, 0, answer, sizeof answer);
    hold("check_list of nothing", 1, 0, 0);
    station_check_list(NULL, 0, NULL, 0);

    station_read_list(NULL, 0, NULL, 0, answer, sizeof answer);
    hold("read_list of nothing", 1, 0, 0);
    station_read_list(LIST, sizeof LIST, NULL, 0, answer, sizeof answer);
    hold("read_list into nothing", 29, 1, 0);
    station_read_list(NULL, 0, NULL, 0, NULL, 0);

    station_measure(NULL, 0, 0, NULL, 0, answer, sizeof answer);
    hold("measure of nothing", 1, 0, 0);
    station_measure(LIST, sizeof LIST, 0, NULL, 0, answer, sizeof answer);
    hold("measure of no rows", 0, 0, 0);
    station_measure(LIST, sizeof LIST, 1, NULL, 0, answer, sizeof answer);
    hold("measure of a row that is not there", 7, 0, 0);
    station_measure(NULL, 0, 0, NULL, 0, NULL, 0);

    station_encode(NULL, 0, 0, NULL, 0, NULL, 0, NULL, 0, answer, sizeof answer);
    hold("encode of nothing", 1, 0, 0);
    station_encode(LIST, sizeof LIST, 0, NULL, 0, NULL, 0, NULL, 0, answer, sizeof answer);
    hold("encode of no rows, and no offsets", 14, 1, 0);
    station_encode(LIST, sizeof LIST, 0, NULL, 0, NULL, 0, offsets, sizeof offsets, answer, sizeof answer);
    hold("encode of no rows", 0, 0, 0);
    if (memcmp(offsets, zero, sizeof zero) != 0) {
        printf("encode of no rows: the first offset is not 0\n");
        wrong = 1;
    }
    station_encode(NULL, 0, 0, NULL, 0, NULL, 0, NULL, 0, NULL, 0);

    station_decode(NULL, 0, 0, NULL, 0, NULL, 0, NULL, 0, answer, sizeof answer);
    hold("decode of nothing", 1, 0, 0);
    station_decode(LIST, sizeof LIST, 0, NULL, 0, NULL, 0, NULL, 0, answer, sizeof answer);
    hold("decode of no offsets", 14, 1, 0);
    station_decode(LIST, sizeof LIST, 0, NULL, 0, zero, sizeof zero, NULL, 0, answer, sizeof answer);
    hold("decode of no rows", 0, 0, 0);
    station_decode(NULL, 0, 0, NULL, 0, NULL, 0, NULL, 0, NULL, 0);

    station_measure_read(NULL, 0, 0, NULL, 0, answer, sizeof answer);
    hold("measure_read of nothing", 1, 0, 0);
    station_measure_read(DESCRIPTION, sizeof DESCRIPTION, 0, NULL, 0, answer, sizeof answer);
    hold("measure_read of no rows", 0, 0, 0);
    station_encode_read(DESCRIPTION, sizeof DESCRIPTION, 0, NULL, 0, NULL, 0, NULL, 0, answer, sizeof answer);
    hold("encode_read of no rows, and no offsets", 14, 1, 0);
    station_decode_read(DESCRIPTION, sizeof DESCRIPTION, 0, NULL, 0, zero, sizeof zero, NULL, 0, answer, sizeof answer);
    hold("decode_read of no rows", 0, 0, 0);
    station_measure_read(NULL, 0, 0, NULL, 0, NULL, 0);
    station_encode_read(NULL, 0, 0, NULL, 0, NULL, 0, NULL, 0, NULL, 0);
    station_decode_read(NULL, 0, 0, NULL, 0, NULL, 0, NULL, 0, NULL, 0);

    station_compare_sheets(NULL, 0, 0, NULL, 0, 0, 0, NULL, 0, 0, answer, sizeof answer);
    hold("compare_sheets of nothing", 1, 0, 0);
    station_compare_sheets(LIST, sizeof LIST, 0, NULL, 0, 7, 0, NULL, 0, 0, answer, sizeof answer);
    hold("compare_sheets of no rows", 32, 0, 7);
    station_compare_sheets_read(DESCRIPTION, sizeof DESCRIPTION, 0, NULL, 0, 7, 0, NULL, 0, 0, answer, sizeof answer);
    hold("compare_sheets_read of no rows", 32, 0, 7);
    station_compare_pairs(LIST, sizeof LIST, 0, NULL, 0, 0, NULL, 0, NULL, 0, NULL, 0, answer, sizeof answer);
    hold("compare_pairs of no rows", 0, 0, 0);
    station_compare_pairs_read(DESCRIPTION, sizeof DESCRIPTION, 0, NULL, 0, 0, NULL, 0, NULL, 0, NULL, 0, answer,
                               sizeof answer);
    hold("compare_pairs_read of no rows", 0, 0, 0);
    station_compare_sheets(NULL, 0, 0, NULL, 0, 0, 0, NULL, 0, 0, NULL, 0);
    station_compare_pairs(NULL, 0, 0, NULL, 0, 0, NULL, 0, NULL, 0, NULL, 0, NULL, 0);

    station_look_up(NULL, 0, 1, NULL, 0, 0, NULL, 0, NULL, 0, answer, sizeof answer);
    hold("look_up of nothing", 1, 0, 0);
    station_look_up(LIST, sizeof LIST, 0, NULL, 0, 0, NULL, 0, NULL, 0, answer, sizeof answer);
    hold("look_up of no key", 31, 0, 0);
    station_look_up(LIST, sizeof LIST, 1, NULL, 0, 0, NULL, 0, NULL, 0, answer, sizeof answer);
    hold("look_up of a key that is cut", 16, 0, 0);
    station_look_up_read(DESCRIPTION, sizeof DESCRIPTION, 1, zero + 6, 0, 0, NULL, 0, NULL, 0, answer, sizeof answer);
    hold("look_up_read of a key that is cut", 16, 0, 0);
    station_look_up(NULL, 0, 0, NULL, 0, 0, NULL, 0, NULL, 0, NULL, 0);
    station_look_up_read(NULL, 0, 0, NULL, 0, 0, NULL, 0, NULL, 0, NULL, 0);

    station_cutter_start(LIST, sizeof LIST, NULL, 0, answer, sizeof answer);
    hold("cutter_start into nothing", 33, 0, 0);
    station_cutter_start_read(DESCRIPTION, sizeof DESCRIPTION, NULL, 0, answer, sizeof answer);
    hold("cutter_start_read into nothing", 33, 0, 0);
    station_cut(NULL, 0, NULL, 0, NULL, 0, answer, sizeof answer);
    hold("cut without a state", 33, 0, 0);
    station_cutter_finish(NULL, 0, answer, sizeof answer);
    hold("cutter_finish without a state", 33, 0, 0);
    station_cutter_start(NULL, 0, state, sizeof state, answer, sizeof answer);
    hold("cutter_start of nothing", 1, 0, 0);
    station_cut(state, sizeof state, NULL, 0, NULL, 0, answer, sizeof answer);
    hold("cut after a start of nothing", 1, 0, 0);
    station_cutter_start_read(NULL, 0, state, sizeof state, answer, sizeof answer);
    hold("cutter_start_read of nothing", 1, 0, 0);
    station_cutter_start(LIST, sizeof LIST, state, sizeof state, answer, sizeof answer);
    hold("cutter_start", 0, 1, 0);
    station_cut(state, sizeof state, NULL, 0, NULL, 0, answer, sizeof answer);
    hold("cut of no piece", 0, 0, 0);
    station_cut(state, sizeof state, zero, 1, NULL, 0, answer, sizeof answer);
    hold("cut into nothing", 14, 1, 0);
    station_cutter_finish(state, sizeof state, answer, sizeof answer);
    hold("cutter_finish of no rows", 0, 0, 0);
    station_cutter_start(NULL, 0, NULL, 0, NULL, 0);
    station_cutter_start_read(NULL, 0, NULL, 0, NULL, 0);
    station_cut(NULL, 0, NULL, 0, NULL, 0, NULL, 0);
    station_cutter_finish(NULL, 0, NULL, 0);

    station_join(0, NULL, 0, NULL, 0, 0, NULL, 0, NULL, 0, NULL, 0, answer, sizeof answer);
    hold("join of nothing", 14, 1, 0);
    station_join(0, NULL, 0, zero, sizeof zero, 0, NULL, 0, zero, sizeof zero, NULL, 0, answer, sizeof answer);
    hold("join of no rows", 0, 0, 0);
    station_join(0, NULL, 0, NULL, 0, 0, NULL, 0, NULL, 0, NULL, 0, NULL, 0);

    if (station_compare(NULL, 0, NULL, 0) != 0 || station_compare(NULL, 0, zero, 1) != -1 ||
        station_compare(zero, 1, NULL, 0) != 1) {
        printf("compare of nothing\n");
        wrong = 1;
    }
    return wrong;
}
