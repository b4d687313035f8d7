/* The row station: sheets of columns to sortable rows, and back. Link libstation.a or libstation.so of a
 * release, which `tools/release` makes, or crates/station_c/out/libstation_c.a, which `tools/archive` makes
 * (x86-64 Linux).
 *
 * A slice is a pointer and a length in bytes. A slice of length 0 may have any pointer, null too: nothing
 * is read or written there. Every byte and every number may be anything. A caller owes three things, which
 * no call can check:
 *
 *   - A slice of one byte or more is memory that may be read, and written where its pointer is not const,
 *     and at most PTRDIFF_MAX bytes long. While the call runs, no other thread writes to it, nor reads it
 *     if it is written.
 *   - A slice whose pointer is not const shares no byte with another slice of the same call.
 *   - As many bytes of stack are left as the entry's STATION_..._STACK says.
 *
 * Nothing is kept after a call, nothing is allocated, and calls on different buffers may run at the same
 * time. A refused call stores nothing but its answer, not even the bytes that are there already; encode
 * does not read what rows and offsets hold. The row cutter alone stores its state with a refusal, where it
 * is this call that finds it (see station_cutter_start and station_cut).
 *
 * list     For each column a byte of kind and a byte of options, and for kind 15 also the width in two
 *          bytes, low byte first (0 to 1,024). Options: bit 0 descending, bit 1 nulls first, bit 2 required
 *          (no slot is null), and for kinds 10 to 12 bit 3 fold (every NaN is 7E00, 7FC00000 or
 *          7FF8000000000000, and -0 is +0); the others zero. 1 to 64 columns.
 *
 *            kind                  values                                         value bytes
 *            1                     bool                                           1
 *            2, 3, 4, 5            i8, i16, i32, i64                              1, 2, 4, 8
 *            6, 7, 8, 9            u8, u16, u32, u64                              1, 2, 4, 8
 *            10, 11, 12            f16, f32, f64 as bits                          2, 4, 8
 *            13                    days, milliseconds (both i32)                  8
 *            14                    months, days (i32), nanoseconds (i64)          16
 *            15                    fixed binary                                   width
 *            16                    variable bytes, 0 to 65,535 a slot
 *            17, 18                i128, i256                                     16, 32
 *
 * descriptions
 *          A list that was read once, for calls that come again and again: for each column four bytes, kind,
 *          options and width, low byte first, which is 0 unless the kind is 15. A length that is no multiple
 *          of four leaves a tail that does not count and stays.
 *
 * n        The count of rows, 0 to 4,096.
 *
 * sheet    The columns in list order, each of:
 *            validity   ceil(n/8) bytes; row i is bit i mod 8 of byte i div 8, least bit first, 1 for valid
 *            values     bool: ceil(n/8) bytes packed alike; fixed kinds: n values, numbers low byte first;
 *                       variable: n+1 ends of four bytes each, low byte first, none falling, then as many
 *                       bytes as the last end says, value i between ends i and i+1; bytes before the first
 *                       end mean nothing
 *          Spare bits are zero. A null slot may hold anything. Decode writes the cleared sheet: zeros, and
 *          length 0, in null slots, first ends of 0, and folded floats where the column folds.
 *
 * rows     The rows, joined. Together at most 16,777,216 bytes.
 *
 * offsets  n+1 numbers of eight bytes, low byte first: 0, then each row's end. A length that is no multiple
 *          of eight leaves a tail that does not count and stays.
 *
 * row0, row1, pairs
 *          Rows of sheet 0 and of sheet 1. Pairs are two numbers of eight bytes each, low byte first: a row of
 *          sheet 0 and one of sheet 1. A length that is no multiple of sixteen leaves a tail that does not count.
 *
 * answers  A byte for each pair: 0 where the row of sheet 0 is below that of sheet 1, 1 where it is equal, 2 where
 *          it is above.
 *
 * k, key   The fields of the first k columns as bytes, as a row of these columns alone has them.
 *
 * order    Entries of eight bytes, low byte first, one for each row of two passes: 4,096 times the pass plus the
 *          row. A tail as in offsets.
 *
 * state    A row cutter's, STATION_CUTTER_BYTES; bytes after them mean nothing and stay. It is plain bytes:
 *          it may be copied, kept and handed on, and each copy goes its own way. docs/CUTTER.md has its parts,
 *          and the rule that they keep. A state that is shorter, or breaks the rule, is refused, 33.
 *
 * piece    The next bytes of a stream of rows, joined, with no offsets; cut anywhere, and of any length, none
 *          too.
 *
 * ends     Numbers of eight bytes, low byte first: row ends, counted from the start of the stream. A tail as in
 *          offsets.
 *
 * answer   Four numbers of eight bytes, low byte first, so 32 bytes; a shorter answer, and no lent byte
 *          changes. The first is 0 for done, and else the number of the refusal:
 *
 *            0   done                                       total, null slots; of look_up two rows, of
 *                                                           compare_sheets 0, 1 or 2, of the cutter see there
 *            1   list empty, or a body cut                  place of the kind byte, 0
 *            2   unknown kind                               the same
 *            3   other option bits set, or fold elsewhere   the same
 *            4   width over 1,024, and in descriptions a    the same
 *                width held outside kind 15
 *            5   a 65th column begins                       the same
 *            6   over 4,096 rows                            n, 0
 *            7   column cut                                 column, 0
 *            8   spare bit set                              column, 0
 *            9   ends fall                                  column, row
 *            10  slot over 65,535                           column, row
 *            11  bytes after the last column                place, 0
 *            12  rows over 16,777,216 bytes                 total, 0; of cut 16,777,217, rows ended
 *            13  row buffer too small                       total, 0
 *            14  offset list under n+1, order under the     n+1, the rows of both, the pairs, or the
 *                rows of both passes, answers under pairs,  bytes of the piece, 0
 *                ends under the bytes of the piece
 *            15  first offset not 0, one falls, or the      its index, 0
 *                last passes the row bytes
 *            16  field or block cut                         row, column
 *            17  lead byte not allowed                      row, column
 *            18  nonzero byte after a fixed null            row, column
 *            19  bool not 00 or 01                          row, column
 *            20  end byte neither FF nor 1 to block size    row, column
 *            21  padding not zero                           row, column
 *            22  bytes after the last field                 row, column count
 *            23  value over 65,535                          row, column
 *            24  sheet buffer too small                     bytes needed, 0
 *            26  pass out of order                          pass, first row below the one before it
 *            27  null in a required column                  column, first null row
 *            28  float not folded where the column folds    row, column
 *            29  too few descriptions lent                  columns, 0
 *            31  k of 0 or past the columns                 k, 0
 *            32  no such row in a sheet                     sheet, row
 *            33  a cutter's state is none                   0, 0
 *
 *          Of descriptions 1 is for none, and the place in 1 to 5 is the index of the column.
 *
 *          The fourth number is the place of a byte in the row, counted from the row's start, for 16 to 23
 *          and 28: of 16 the first byte missing, so the row's length; of 17 the lead byte; of 18 and 21 the
 *          first byte that is not zero; of 19 the bool; of 20 and 23 the end byte of the block; of 22 the
 *          first byte after the last field; of 28 the first value byte. It is 0 for all other answers.
 *
 *          On a refusal only these 32 bytes change, but for the row cutter as said there. On success the bytes past
 *          the written part stay.
 */
#ifndef STATION_H
#define STATION_H

#include <stddef.h>
#include <stdint.h>

#ifdef __cplusplus
extern "C" {
#endif

enum { STATION_ANSWER_BYTES = 32 };

/* A row cutter's state. */
enum { STATION_CUTTER_BYTES = 360 };

/* The most bytes of stack that a call takes, from its return address down, whatever it is given; and where
 * it takes less while no batch of the call has more than 512 rows, that. What the C library's memcpy and
 * memset take of it is counted. */
enum {
    STATION_CHECK_LIST_STACK = 2048,
    STATION_READ_LIST_STACK = 2560,
    STATION_MEASURE_STACK = 9216,
    STATION_MEASURE_READ_STACK = 9728,
    STATION_ENCODE_STACK = 50176,
    STATION_ENCODE_STACK_512 = 16384,
    STATION_ENCODE_READ_STACK = 50688,
    STATION_ENCODE_READ_STACK_512 = 16384,
    STATION_DECODE_STACK = 80384,
    STATION_DECODE_STACK_512 = 16384,
    STATION_DECODE_READ_STACK = 80896,
    STATION_DECODE_READ_STACK_512 = 16896,
    STATION_COMPARE_SHEETS_STACK = 8192,
    STATION_COMPARE_SHEETS_READ_STACK = 8192,
    STATION_COMPARE_PAIRS_STACK = 8192,
    STATION_COMPARE_PAIRS_READ_STACK = 8192,
    STATION_LOOK_UP_STACK = 46592,
    STATION_LOOK_UP_STACK_512 = 12800,
    STATION_LOOK_UP_READ_STACK = 47104,
    STATION_LOOK_UP_READ_STACK_512 = 13312,
    STATION_JOIN_STACK = 149504,
    STATION_JOIN_STACK_512 = 17408,
    STATION_COMPARE_STACK = 64,
    STATION_CUTTER_START_STACK = 3072,
    STATION_CUTTER_START_READ_STACK = 3072,
    STATION_CUT_STACK = 8192,
    STATION_CUTTER_FINISH_STACK = 3072
};

/* The edition that this header describes, 0.2.0: 1,000,000 times the major, 1,000 times the minor, and the patch. */
enum { STATION_VERSION = 2000 };

/* The edition of the library that is linked, as STATION_VERSION has it. */
uint64_t station_version(void);

/* Checks a list. Total: columns. */
void station_check_list(const uint8_t *list, size_t list_len, uint8_t *answer, size_t answer_len);

/* Checks a list and writes the descriptions of its columns, which stand for it in station_..._read. Total: columns;
 * hand on four bytes for each of them. */
void station_read_list(const uint8_t *list, size_t list_len, uint8_t *descriptions, size_t descriptions_len,
                       uint8_t *answer, size_t answer_len);

/* Checks list and sheet. Total: row bytes. */
void station_measure(const uint8_t *list, size_t list_len, uint64_t n, const uint8_t *sheet, size_t sheet_len,
                     uint8_t *answer, size_t answer_len);

/* Writes the rows of a sheet and their offsets. Total: row bytes. */
void station_encode(const uint8_t *list, size_t list_len, uint64_t n, const uint8_t *sheet, size_t sheet_len,
                    uint8_t *rows, size_t rows_len, uint8_t *offsets, size_t offsets_len, uint8_t *answer,
                    size_t answer_len);

/* Checks rows and writes their cleared sheet. Total: sheet bytes. */
void station_decode(const uint8_t *list, size_t list_len, uint64_t n, const uint8_t *rows, size_t rows_len,
                    const uint8_t *offsets, size_t offsets_len, uint8_t *sheet, size_t sheet_len, uint8_t *answer,
                    size_t answer_len);

/* The same three with descriptions in place of the list. Both ways give the same answers and write the same bytes for
 * descriptions that were read from the list. */
void station_measure_read(const uint8_t *descriptions, size_t descriptions_len, uint64_t n, const uint8_t *sheet,
                          size_t sheet_len, uint8_t *answer, size_t answer_len);

void station_encode_read(const uint8_t *descriptions, size_t descriptions_len, uint64_t n, const uint8_t *sheet,
                         size_t sheet_len, uint8_t *rows, size_t rows_len, uint8_t *offsets, size_t offsets_len,
                         uint8_t *answer, size_t answer_len);

void station_decode_read(const uint8_t *descriptions, size_t descriptions_len, uint64_t n, const uint8_t *rows,
                         size_t rows_len, const uint8_t *offsets, size_t offsets_len, uint8_t *sheet, size_t sheet_len,
                         uint8_t *answer, size_t answer_len);

/* Compares a row of one sheet with a row of another under one list, by their values, as their row bytes would compare;
 * no row is made. First 0, 1 or 2 for below, equal or above, then 0. */
void station_compare_sheets(const uint8_t *list, size_t list_len, uint64_t n0, const uint8_t *sheet0, size_t sheet0_len,
                            uint64_t row0, uint64_t n1, const uint8_t *sheet1, size_t sheet1_len, uint64_t row1,
                            uint8_t *answer, size_t answer_len);

void station_compare_sheets_read(const uint8_t *descriptions, size_t descriptions_len, uint64_t n0,
                                 const uint8_t *sheet0, size_t sheet0_len, uint64_t row0, uint64_t n1,
                                 const uint8_t *sheet1, size_t sheet1_len, uint64_t row1, uint8_t *answer,
                                 size_t answer_len);

/* The same for many pairs of rows, with one check of the two sheets. Total: pairs. */
void station_compare_pairs(const uint8_t *list, size_t list_len, uint64_t n0, const uint8_t *sheet0, size_t sheet0_len,
                           uint64_t n1, const uint8_t *sheet1, size_t sheet1_len, const uint8_t *pairs, size_t pairs_len,
                           uint8_t *answers, size_t answers_len, uint8_t *answer, size_t answer_len);

void station_compare_pairs_read(const uint8_t *descriptions, size_t descriptions_len, uint64_t n0,
                                const uint8_t *sheet0, size_t sheet0_len, uint64_t n1, const uint8_t *sheet1,
                                size_t sheet1_len, const uint8_t *pairs, size_t pairs_len, uint8_t *answers,
                                size_t answers_len, uint8_t *answer, size_t answer_len);

/* Looks a key up in a batch whose rows are sorted as bytes. First the first row that begins with the key, then one past
 * the last such row; where none does, both are the first row above the key, or n. The key is checked as row 0 of the first
 * k columns, and the batch's rows under all. */
void station_look_up(const uint8_t *list, size_t list_len, uint64_t k, const uint8_t *key, size_t key_len, uint64_t n,
                     const uint8_t *rows, size_t rows_len, const uint8_t *offsets, size_t offsets_len, uint8_t *answer,
                     size_t answer_len);

void station_look_up_read(const uint8_t *descriptions, size_t descriptions_len, uint64_t k, const uint8_t *key,
                          size_t key_len, uint64_t n, const uint8_t *rows, size_t rows_len, const uint8_t *offsets,
                          size_t offsets_len, uint8_t *answer, size_t answer_len);

/* Starts a row cutter from a list: checks it as station_check_list does, and writes the state that stands before the first
 * byte of a stream. Total: columns. On a list that is refused the state is written too, and holds the refusal, which every
 * call and the finish then answer. A state too short is 33, ahead of the list, and stays. */
void station_cutter_start(const uint8_t *list, size_t list_len, uint8_t *state, size_t state_len, uint8_t *answer,
                          size_t answer_len);

void station_cutter_start_read(const uint8_t *descriptions, size_t descriptions_len, uint8_t *state, size_t state_len,
                               uint8_t *answer, size_t answer_len);

/* Cuts the next piece of the stream: writes the ends of the rows that it completes, and the state after it. Total: ends
 * written. However a stream is cut, it has the same ends, the same state after it and the same refusal.
 *
 * In this order: 33; the refusal that stands; 14 if there is room for fewer ends than the piece has bytes, whether or not a
 * row ends in it. On these state and ends stay. Then byte by byte 12, at the 16,777,217th byte of the stream, and row faults,
 * 17 to 21, 23 and 28, as decode has them for that row: 17 at the lead byte, 18, 19 and 28 with the last byte of the field,
 * 20, 21 and 23 with the end byte of the block. The ends before one are written, the state holds it from then on, and its
 * second number (of 12 the third) is the count of rows that ended in the stream before it. */
void station_cut(uint8_t *state, size_t state_len, const uint8_t *piece, size_t piece_len, uint8_t *ends, size_t ends_len,
                 uint8_t *answer, size_t answer_len);

/* Says whether the stream may end here. Total: rows in all. 33, then the refusal that stands, then 16 within a row, with the
 * bytes of that row so far as place. The state is only read: more pieces may follow. */
void station_cutter_finish(const uint8_t *state, size_t state_len, uint8_t *answer, size_t answer_len);

/* Writes the joined order of two passes, whose rows are sorted as bytes: sorted, every row of both once, equal rows in
 * their order, pass 0 first. Rows are not read as fields. Total: the rows of both, and no null slots. */
void station_join(uint64_t n0, const uint8_t *rows0, size_t rows0_len, const uint8_t *offsets0, size_t offsets0_len,
                  uint64_t n1, const uint8_t *rows1, size_t rows1_len, const uint8_t *offsets1, size_t offsets1_len,
                  uint8_t *order, size_t order_len, uint8_t *answer, size_t answer_len);

/* Compares any bytes, unsigned, a proper beginning first: -1, 0 or 1. */
int32_t station_compare(const uint8_t *a, size_t a_len, const uint8_t *b, size_t b_len);

#ifdef __cplusplus
}
#endif

#endif
