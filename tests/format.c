/* Runs the examples of a page, docs/FORMAT.md, through the C entries and, where they fit its input, through the program `rows`:
 *
 *   format PAGE ROWS
 *
 * The page's last section says what an example is. It is a fault, too, if the page has no example; if a number in its table of refusals,
 * or a kind in its table of kinds, has none; or if a field that is drawn above an example stands in none of its rows.
 */
#define _POSIX_C_SOURCE 200809L
#include <ctype.h>
#include <inttypes.h>
#include <stdarg.h>
#include <stdbool.h>
#include <stdio.h>
#include <stdlib.h>
#include <string.h>
#include <sys/wait.h>
#include <unistd.h>

#include "station.h"

enum {
    NUMBERS = STATION_ANSWER_BYTES / 8,
    MOST_ROWS = 64,     /* in an example */
    MOST_DRAWN = 64,    /* fields drawn above an example */
    CODES = 256,        /* refusals and kinds are below it */
    FILL = 0xEE,        /* what lent buffers hold before */
    ROOM = 1 << 16,     /* lent where a refusal is to be seen */
    MOST_COLUMNS = 64,  /* of a list */
    COLUMN = 4,         /* bytes of a description */
    INPUT_ROOM = 32768, /* of the program, for its input and for rows */
    EVERY_CUT = 256,    /* streams of so many bytes are cut at every place */
    PIECE = 65536,      /* bytes of a longer stream that are handed over at once */
};

/* An example has rows of a sheet, or of two passes. */
enum batch { OF_SHEET, PASS0, PASS1, BATCHES };

/* The words of an example. Those up to INPUT have bytes for a value, which may go on in the next line. Those of a batch stand in the
 * order of the batches. */
enum word {
    LIST, COLUMNS, SHEET, OTHER, CLEARED, KEY, STREAM, FROM, STATE, ROW, ROW0, ROW1, INPUT,
    K, N, OTHER_N, N0, N1, OFFSETS, OFFSETS0, OFFSETS1, COLUMN_ROOM, ROW_ROOM, OFFSET_ROOM, SHEET_ROOM, ORDER_ROOM, RANK_ROOM, END_ROOM,
    PAIRS, RANKS, REFUSED, CHECK, READ, MEASURE, ENCODE, DECODE, COMPARE_SHEETS, COMPARE_PAIRS, FOUND, FINISH, JOIN, COMPARE, ENDS, ORDER,
    PRINTS,
    WORDS,
};
static const char *const NAMES[WORDS] = {
    "list", "columns", "sheet", "other", "cleared", "key", "stream", "from", "state", "row", "row0", "row1", "input",
    "k", "n", "other-n", "n0", "n1", "offsets", "offsets0", "offsets1", "column-room", "row-room", "offset-room", "sheet-room", "order-room", "rank-room", "end-room",
    "pairs", "ranks", "refused", "check", "read", "measure", "encode", "decode", "compare-sheets", "compare-pairs", "found", "finish", "join", "compare",
    "ends", "order", "prints",
};

struct bytes {
    uint8_t *at; /* never null once something was put or reserved */
    size_t len, room;
};

/* The example at hand: the line that it begins in, what it says of each word, and where each row of a batch ends. */
static struct {
    size_t line;
    enum word word;
    bool has[WORDS];
    struct bytes value[WORDS];
    struct {
        size_t rows;
        uint64_t ends[MOST_ROWS + 1];
    } batch[BATCHES];
} ex;

/* Fields drawn since the last example. */
static struct bytes drawn[MOST_DRAWN];
static size_t drawn_count;

static const char *page, *program;
static size_t line_number;
static unsigned examples, faults;
static bool refusal_listed[CODES], refusal_seen[CODES], kind_listed[CODES], kind_seen[CODES];

static void fault(size_t line, const char *form, ...) {
    va_list rest;
    va_start(rest, form);
    printf("%s:%zu: ", page, line);
    vprintf(form, rest);
    printf("\n");
    va_end(rest);
    faults++;
}

/* ---- bytes */

static void reserve(struct bytes *b, size_t more) {
    if (b->len + more < b->room) return;
    b->room = 2 * (b->len + more) + 16;
    b->at = realloc(b->at, b->room);
    if (!b->at) abort();
}

static void put(struct bytes *b, const void *from, size_t len) {
    reserve(b, len);
    memcpy(b->at + b->len, from, len);
    b->len += len;
}

/* A number in so many bytes, low byte first. */
static void put_low(struct bytes *b, uint64_t number, size_t count) {
    for (size_t i = 0; i < count; i++) put(b, &(uint8_t){number >> 8 * i}, 1);
}

/* The bytes from `from` on once more, so often. */
static void put_again(struct bytes *b, size_t from, unsigned long times) {
    size_t len = b->len - from;
    reserve(b, times * len);
    for (; times > 0; times--) put(b, b->at + from, len);
}

static struct bytes filled(size_t len) {
    struct bytes b = {0};
    reserve(&b, len);
    memset(b.at, FILL, len);
    b.len = len;
    return b;
}

static bool same(struct bytes a, struct bytes b) { return a.len == b.len && memcmp(a.at, b.at, a.len) == 0; }

static bool untouched(struct bytes b) {
    size_t i = 0;
    while (i < b.len && b.at[i] == FILL) i++;
    return i == b.len;
}

static bool within(struct bytes part, struct bytes whole) {
    for (size_t at = 0; at + part.len <= whole.len; at++)
        if (memcmp(whole.at + at, part.at, part.len) == 0) return true;
    return false;
}

static bool is_byte(const char *s) { return isxdigit((unsigned char)s[0]) && isxdigit((unsigned char)s[1]); }

static void put_hex(struct bytes *b, const char *s) {
    char digits[3] = {s[0], s[1], 0};
    put_low(b, strtoul(digits, NULL, 16), 1);
}

/* Bytes as the page writes them: two hex digits each, `61*8` eight of one, `(61*8 FF)*4` four of a run. Answers where it stopped: the
 * end, or what is no byte. */
static const char *read_bytes(const char *s, struct bytes *out) {
    for (;;) {
        while (*s == ' ') s++;
        size_t from = out->len;
        if (*s == '(') {
            s = read_bytes(s + 1, out);
            if (*s != ')') return s;
            s++;
        } else if (is_byte(s)) {
            put_hex(out, s);
            s += 2;
        } else {
            return s;
        }
        if (*s == '*') {
            char *end;
            unsigned long times = strtoul(s + 1, &end, 10);
            if (times == 0) return s;
            put_again(out, from, times - 1);
            s = end;
        }
    }
}

/* ---- what the example says */

static const char *text(enum word word) { return (const char *)ex.value[word].at; }

static uint64_t number(enum word word, uint64_t otherwise) { return ex.has[word] ? strtoull(text(word), NULL, 10) : otherwise; }

/* The numbers that are given for a word, eight bytes each. */
static struct bytes numbers(enum word word) {
    struct bytes b = filled(0);
    char *end;
    for (const char *s = text(word); ex.has[word] && *s; s = end) {
        put_low(&b, strtoull(s, &end, 10), 8);
        if (end == s) {
            fault(ex.line, "not numbers: %s", s);
            break;
        }
    }
    return b;
}

/* The offsets of a batch, as they are given or as its rows have them, eight bytes each. */
static struct bytes offsets(enum batch batch) {
    struct bytes b = numbers(OFFSETS + batch);
    if (!ex.has[OFFSETS + batch])
        for (size_t i = 0; i <= ex.batch[batch].rows; i++) put_low(&b, ex.batch[batch].ends[i], 8);
    return b;
}

/* ---- what the entries answer */

static uint64_t eight(const uint8_t *bytes) {
    uint64_t x = 0;
    for (size_t i = 8; i > 0; i--) x = x << 8 | bytes[i - 1];
    return x;
}

/* The answer must be what the example has for the entry, or for a refusal; where it has neither, 0 and the total. */
static void judge(enum word entry, const uint8_t *answer, uint64_t total) {
    char got[NUMBERS * 21 + 1], done[32];
    size_t len = 0;
    for (size_t i = 0; i < NUMBERS; i++) len += sprintf(got + len, i ? " %" PRIu64 : "%" PRIu64, eight(answer + 8 * i));
    sprintf(done, "0 %" PRIu64 " ", total);
    enum word said = ex.has[entry] ? entry : REFUSED;
    if (ex.has[said] ? strcmp(got, text(said)) != 0 : strncmp(got, done, strlen(done)) != 0)
        fault(ex.line, "%s answers %s, and not %s", NAMES[entry], got, ex.has[said] ? text(said) : done);
}

/* How the columns are said, and the entries that take them so: by a list, or by descriptions that were read from one. */
struct way {
    struct bytes columns;
    void (*measure)(const uint8_t *, size_t, uint64_t, const uint8_t *, size_t, uint8_t *, size_t);
    void (*encode)(const uint8_t *, size_t, uint64_t, const uint8_t *, size_t, uint8_t *, size_t, uint8_t *, size_t, uint8_t *, size_t);
    void (*decode)(const uint8_t *, size_t, uint64_t, const uint8_t *, size_t, const uint8_t *, size_t, uint8_t *, size_t, uint8_t *, size_t);
    void (*compare_sheets)(const uint8_t *, size_t, uint64_t, const uint8_t *, size_t, uint64_t, uint64_t, const uint8_t *, size_t, uint64_t,
                           uint8_t *, size_t);
    void (*compare_pairs)(const uint8_t *, size_t, uint64_t, const uint8_t *, size_t, uint64_t, const uint8_t *, size_t, const uint8_t *, size_t,
                          uint8_t *, size_t, uint8_t *, size_t);
    void (*look_up)(const uint8_t *, size_t, uint64_t, const uint8_t *, size_t, uint64_t, const uint8_t *, size_t, const uint8_t *, size_t,
                    uint8_t *, size_t);
    void (*cutter_start)(const uint8_t *, size_t, uint8_t *, size_t, uint8_t *, size_t);
};

static struct way by_list(void) {
    return (struct way){ex.value[LIST], station_measure, station_encode, station_decode, station_compare_sheets, station_compare_pairs,
                        station_look_up, station_cutter_start};
}

static struct way by_descriptions(struct bytes columns) {
    return (struct way){columns, station_measure_read, station_encode_read, station_decode_read, station_compare_sheets_read,
                        station_compare_pairs_read, station_look_up_read, station_cutter_start_read};
}

static void try_list(void) {
    struct bytes list = ex.value[LIST];
    uint8_t answer[STATION_ANSWER_BYTES];
    station_check_list(list.at, list.len, answer, sizeof answer);
    bool more = ex.has[SHEET] || ex.has[ROW] || ex.has[KEY] || ex.has[STREAM] || ex.has[COLUMN_ROOM] || ex.has[READ];
    if (ex.has[CHECK] || !more) judge(CHECK, answer, 0);
    if (ex.has[REFUSED]) return;
    for (size_t i = 0; i < list.len; i += list.at[i] == 15 ? 4 : 2) kind_seen[list.at[i]] = true;
}

/* The descriptions of the list, or none where it is refused: these are what the example has, and nothing is written past them. */
static struct bytes try_read(void) {
    struct bytes list = ex.value[LIST], columns = filled(COLUMN * number(COLUMN_ROOM, MOST_COLUMNS));
    uint8_t answer[STATION_ANSWER_BYTES];
    station_read_list(list.at, list.len, columns.at, columns.len, answer, sizeof answer);
    bool more = ex.has[SHEET] || ex.has[ROW] || ex.has[KEY] || ex.has[STREAM];
    if (ex.has[READ] || (ex.has[REFUSED] && !more)) judge(READ, answer, 0);
    size_t len = eight(answer) ? 0 : COLUMN * eight(answer + 8);
    struct bytes rest = {columns.at + len, columns.len - len, 0};
    if (!untouched(rest)) fault(ex.line, "read_list writes more than it counts");
    columns.len = len;
    if (ex.has[COLUMNS] && !same(columns, ex.value[COLUMNS])) fault(ex.line, "read_list writes other descriptions");
    return columns;
}

static void try_encode(struct way way) {
    struct bytes list = way.columns, sheet = ex.value[SHEET];
    uint64_t n = number(N, 0);
    uint8_t answer[STATION_ANSWER_BYTES];
    if (!ex.has[ROW_ROOM] && !ex.has[OFFSET_ROOM]) {
        way.measure(list.at, list.len, n, sheet.at, sheet.len, answer, sizeof answer);
        judge(MEASURE, answer, ex.value[ROW].len);
    }
    struct bytes rows = filled(number(ROW_ROOM, ex.has[REFUSED] ? ROOM : ex.value[ROW].len));
    struct bytes ends = filled(8 * number(OFFSET_ROOM, ex.batch[OF_SHEET].rows + 1)), right = offsets(OF_SHEET);
    way.encode(list.at, list.len, n, sheet.at, sheet.len, rows.at, rows.len, ends.at, ends.len, answer, sizeof answer);
    judge(ENCODE, answer, ex.value[ROW].len);
    if (ex.has[REFUSED] && !(untouched(rows) && untouched(ends))) fault(ex.line, "encode refuses and writes");
    if (!ex.has[REFUSED] && !same(rows, ex.value[ROW])) fault(ex.line, "encode writes other rows");
    if (!ex.has[REFUSED] && !same(ends, right)) fault(ex.line, "encode writes other offsets");
    free(rows.at);
    free(ends.at);
    free(right.at);
}

static void try_decode(struct way way) {
    struct bytes list = way.columns, rows = ex.value[ROW], ends = offsets(OF_SHEET);
    struct bytes right = ex.value[ex.has[CLEARED] ? CLEARED : SHEET];
    struct bytes sheet = filled(number(SHEET_ROOM, ex.has[REFUSED] ? ROOM : right.len));
    uint8_t answer[STATION_ANSWER_BYTES];
    uint64_t n = number(N, ex.batch[OF_SHEET].rows);
    way.decode(list.at, list.len, n, rows.at, rows.len, ends.at, ends.len, sheet.at, sheet.len, answer, sizeof answer);
    judge(DECODE, answer, right.len);
    if (ex.has[REFUSED] && !untouched(sheet)) fault(ex.line, "decode refuses and writes");
    if (!ex.has[REFUSED] && !same(sheet, right)) fault(ex.line, "decode writes another sheet");
    free(sheet.at);
    free(ends.at);
}

/* Row i of the sheet and row j of the other: the rank is to be this one, or the refusal that of the example. */
static void try_pair(struct way way, uint64_t i, uint64_t j, uint64_t rank) {
    struct bytes list = way.columns, sheet = ex.value[SHEET], other = ex.value[OTHER];
    uint8_t answer[STATION_ANSWER_BYTES];
    way.compare_sheets(list.at, list.len, number(N, 0), sheet.at, sheet.len, i, number(OTHER_N, 0), other.at, other.len, j, answer,
                       sizeof answer);
    judge(COMPARE_SHEETS, answer, rank);
}

/* All pairs at once; and each alone, or the one that is refused. */
static void try_pairs(struct way way) {
    struct bytes list = way.columns, sheet = ex.value[SHEET], other = ex.value[OTHER], pairs = numbers(PAIRS), ranks = numbers(RANKS);
    size_t count = pairs.len / 16;
    struct bytes answers = filled(number(RANK_ROOM, count));
    uint8_t answer[STATION_ANSWER_BYTES];
    way.compare_pairs(list.at, list.len, number(N, 0), sheet.at, sheet.len, number(OTHER_N, 0), other.at, other.len, pairs.at, pairs.len,
                      answers.at, answers.len, answer, sizeof answer);
    judge(COMPARE_PAIRS, answer, count);
    if (ex.has[REFUSED] && !untouched(answers)) fault(ex.line, "compare_pairs refuses and writes");
    if (!ex.has[REFUSED] && ranks.len != 8 * count) fault(ex.line, "a rank for each pair");
    for (size_t k = 0; k < count && !ex.has[REFUSED]; k++) {
        uint64_t rank = eight(ranks.at + 8 * k);
        if (answers.at[k] != rank) fault(ex.line, "pair %zu is ranked %u", k, answers.at[k]);
        try_pair(way, eight(pairs.at + 16 * k), eight(pairs.at + 16 * k + 8), rank);
    }
    if (ex.has[REFUSED] && !ex.has[RANK_ROOM] && count > 0)
        try_pair(way, eight(pairs.at + 16 * (count - 1)), eight(pairs.at + 16 * (count - 1) + 8), 0);
    free(pairs.at);
    free(ranks.at);
    free(answers.at);
}

static void try_look_up(struct way way) {
    struct bytes list = way.columns, key = ex.value[KEY], rows = ex.value[ROW], ends = offsets(OF_SHEET);
    uint64_t k = number(K, 0), n = number(N, ex.batch[OF_SHEET].rows);
    uint8_t answer[STATION_ANSWER_BYTES];
    way.look_up(list.at, list.len, k, key.at, key.len, n, rows.at, rows.len, ends.at, ends.len, answer, sizeof answer);
    judge(FOUND, answer, 0);
    free(ends.at);
}

/* Of a state the refusal that stands, and the rows that ended; 0 of one that is too short. */
static uint64_t stands(struct bytes state) { return state.len < 8 ? 0 : eight(state.at); }
static uint64_t ended(struct bytes state) { return state.len < 40 ? 0 : eight(state.at + 32); }

/* The ends that a call wrote, as its answer tells them: on 12 and on a row fault these are the rows that ended since. */
static uint64_t told(const uint8_t *answer, uint64_t before) {
    uint64_t no = eight(answer);
    if (no == 0) return eight(answer + 8);
    return no == 12 ? eight(answer + 16) - before : (17 <= no && no <= 23) || no == 28 ? eight(answer + 8) - before : 0;
}

/* Hands a piece over, puts its ends after those before it, and says whether the stream goes on. A refusal is the example's. */
static bool hand_over(struct bytes *state, struct bytes *ends, const uint8_t *piece, size_t len, size_t room) {
    struct bytes lent = filled(8 * room);
    uint8_t answer[STATION_ANSWER_BYTES];
    uint64_t stood = stands(*state), before = ended(*state);
    station_cut(state->at, state->len, piece, len, lent.at, lent.len, answer, sizeof answer);
    bool refused = eight(answer) != 0;
    if (refused) judge(REFUSED, answer, 0);
    uint64_t count = stood ? 0 : told(answer, before);
    struct bytes rest = {lent.at + 8 * count, lent.len - 8 * count, 0};
    if (8 * count > lent.len || !untouched(rest)) fault(ex.line, "cut writes more ends than it counts");
    else put(ends, lent.at, 8 * count);
    free(lent.at);
    return !refused;
}

/* A refusal is answered again, whatever piece and room are, by the finish too, and nothing is written. */
static void try_refused(struct bytes state) {
    uint8_t answer[STATION_ANSWER_BYTES], piece[2] = {1, 5};
    struct bytes before = filled(0), ends = filled(0);
    put(&before, state.at, state.len);
    for (size_t room = 0; room <= sizeof piece; room++) hand_over(&state, &ends, piece, sizeof piece, room);
    station_cutter_finish(state.at, state.len, answer, sizeof answer);
    judge(REFUSED, answer, 0);
    if (ends.len > 0 || !same(before, state)) fault(ex.line, "cut or finish writes after a refusal");
    free(before.at);
    free(ends.at);
}

/* The stream from this state, in pieces of so many bytes after a first one. */
static void try_pieces(struct bytes from, size_t first, size_t size) {
    struct bytes stream = ex.value[STREAM], state = filled(0), ends = filled(0), right = numbers(ENDS);
    put(&state, from.at, from.len);
    size_t at = 0, len = first < stream.len ? first : stream.len;
    bool on;
    do {
        on = hand_over(&state, &ends, stream.at + at, len, number(END_ROOM, len));
        at += len;
        len = size < stream.len - at ? size : stream.len - at;
    } while (on && at < stream.len);
    if (on) {
        uint8_t answer[STATION_ANSWER_BYTES];
        station_cutter_finish(state.at, state.len, answer, sizeof answer);
        judge(FINISH, answer, ends.len / 8);
    } else if (ex.has[END_ROOM]) {
        if (!same(state, from)) fault(ex.line, "cut writes a state without room for ends");
    } else {
        try_refused(state);
    }
    if ((ex.has[ENDS] || !ex.has[REFUSED]) && !same(ends, right)) fault(ex.line, "cut writes other ends");
    if (ex.has[STATE] && !same(state, ex.value[STATE])) fault(ex.line, "cut leaves another state");
    free(state.at);
    free(ends.at);
    free(right.at);
}

/* The stream in one piece; cut at every place and into single bytes, or, a long one, into pieces. */
static void try_stream(struct bytes from) {
    size_t len = ex.value[STREAM].len;
    if (len <= EVERY_CUT || ex.has[END_ROOM]) try_pieces(from, len, len);
    if (ex.has[END_ROOM]) return;
    for (size_t at = 0; at < len && len <= EVERY_CUT; at++) try_pieces(from, at, len);
    try_pieces(from, 1, len <= EVERY_CUT ? 1 : PIECE);
}

/* A cutter that is started from the list, or from descriptions, as the check of the list answers. */
static void try_cutter(struct way way) {
    struct bytes list = way.columns, state = filled(STATION_CUTTER_BYTES);
    uint8_t answer[STATION_ANSWER_BYTES];
    way.cutter_start(list.at, list.len, state.at, state.len, answer, sizeof answer);
    if (eight(answer)) judge(REFUSED, answer, 0);
    try_stream(state);
    free(state.at);
}

static void try_join(void) {
    struct bytes rows0 = ex.value[ROW0], ends0 = offsets(PASS0), rows1 = ex.value[ROW1], ends1 = offsets(PASS1);
    struct bytes right = numbers(ORDER);
    struct bytes order = filled(8 * number(ORDER_ROOM, ex.has[REFUSED] ? ROOM : right.len / 8));
    uint64_t n0 = number(N0, ex.batch[PASS0].rows), n1 = number(N1, ex.batch[PASS1].rows);
    uint8_t answer[STATION_ANSWER_BYTES];
    station_join(n0, rows0.at, rows0.len, ends0.at, ends0.len, n1, rows1.at, rows1.len, ends1.at, ends1.len, order.at, order.len,
                 answer, sizeof answer);
    judge(JOIN, answer, right.len / 8);
    if (ex.has[REFUSED] && !untouched(order)) fault(ex.line, "join refuses and writes");
    if (!ex.has[REFUSED] && !same(order, right)) fault(ex.line, "join writes another order");
    free(ends0.at);
    free(ends1.at);
    free(right.at);
    free(order.at);
}

/* One of < = > for each row and the next. */
static void try_compare(void) {
    const char *s = text(COMPARE);
    const uint64_t *ends = ex.batch[OF_SHEET].ends;
    for (size_t i = 0; i + 1 < ex.batch[OF_SHEET].rows; i++) {
        const uint8_t *a = ex.value[ROW].at + ends[i], *b = ex.value[ROW].at + ends[i + 1];
        int32_t sign = station_compare(a, ends[i + 1] - ends[i], b, ends[i + 2] - ends[i + 1]);
        if (*s != "<=>"[sign + 1]) fault(ex.line, "rows %zu and %zu compare as %" PRId32, i, i + 1, sign);
        if (*s) s++;
        while (*s == ' ') s++;
    }
    if (*s) fault(ex.line, "more signs than neighbours");
}

/* ---- the program */

/* What the program prints, given this input. */
static struct bytes printed(struct bytes input) {
    FILE *in = tmpfile();
    int out[2], status;
    if (!in || fwrite(input.at, 1, input.len, in) != input.len || fflush(in) || pipe(out)) abort();
    rewind(in);
    pid_t child = fork();
    if (child < 0) abort();
    if (child == 0) {
        dup2(fileno(in), STDIN_FILENO);
        dup2(out[1], STDOUT_FILENO);
        close(out[0]);
        close(out[1]);
        execl(program, program, (char *)NULL);
        _exit(127);
    }
    close(out[1]);
    fclose(in);
    struct bytes got = filled(0);
    uint8_t piece[4096];
    for (ssize_t len; (len = read(out[0], piece, sizeof piece)) > 0;) put(&got, piece, len);
    close(out[0]);
    if (waitpid(child, &status, 0) < 0 || status != 0) fault(ex.line, "%s ends with status %d", program, status);
    return got;
}

static void try_program(struct bytes input, struct bytes right) {
    struct bytes got = printed(input);
    if (!same(got, right))
        fault(ex.line, "%s prints\n%.*sand not\n%.*s", program, (int)got.len, (char *)got.at, (int)right.len, (char *)right.at);
    free(got.at);
}

/* The example as the program's input and output: list length, list, row count, sheet; the refusal, or each row in hex. */
static void try_rows(void) {
    struct bytes in = filled(0), out = filled(0);
    put_low(&in, ex.value[LIST].len, 2);
    put(&in, ex.value[LIST].at, ex.value[LIST].len);
    put_low(&in, number(N, 0), 2);
    put(&in, ex.value[SHEET].at, ex.value[SHEET].len);
    if (ex.has[REFUSED]) {
        put(&out, "refused ", 8);
        put(&out, text(REFUSED), ex.value[REFUSED].len);
        put(&out, "\n", 1);
    }
    for (size_t i = 0, row = 0; row < ex.batch[OF_SHEET].rows; row++) {
        for (char digits[3]; i < ex.batch[OF_SHEET].ends[row + 1]; i++) put(&out, digits, sprintf(digits, "%02x", ex.value[ROW].at[i]));
        put(&out, "\n", 1);
    }
    if (in.len <= INPUT_ROOM && ex.value[ROW].len <= INPUT_ROOM) try_program(in, out);
    free(in.at);
    free(out.at);
}

/* ---- the page */

static void begin(void) {
    ex.line = 0;
    ex.word = WORDS;
    memset(ex.batch, 0, sizeof ex.batch);
    for (enum word word = 0; word < WORDS; word++) {
        ex.has[word] = false;
        ex.value[word].len = 0;
        put(&ex.value[word], "", 1);
        ex.value[word].len = 0;
    }
}

/* What the example says of a stream, of a key, of two sheets, or of a sheet and its rows. */
static void try_way(struct way way) {
    if (ex.has[STREAM]) {
        try_cutter(way);
        return;
    }
    if (ex.has[KEY] || ex.has[OTHER]) {
        (ex.has[KEY] ? try_look_up : try_pairs)(way);
        return;
    }
    if (ex.has[SHEET]) try_encode(way);
    if (ex.has[ROW] || (ex.has[SHEET] && !ex.has[REFUSED])) try_decode(way);
}

/* The list, and sheet and rows under it and under what was read from it; or under the descriptions alone. */
static void try_columns(void) {
    if (!ex.has[LIST]) {
        try_way(by_descriptions(ex.value[COLUMNS]));
        return;
    }
    try_list();
    try_way(by_list());
    struct bytes read = try_read();
    if (read.len > 0) try_way(by_descriptions(read));
    free(read.at);
}

/* The example has been read: tries all that it says, and begins the next. */
static void finish(void) {
    if (ex.line == 0) return;
    examples++;
    bool refused = ex.has[REFUSED], room = ex.has[ROW_ROOM] || ex.has[OFFSET_ROOM];
    bool passes = ex.has[ROW0] || ex.has[ROW1] || ex.has[N0] || ex.has[N1] || ex.has[ORDER];
    if (refused) refusal_seen[number(REFUSED, 0) % CODES] = true;
    if (ex.has[PRINTS] && strncmp(text(PRINTS), "refused ", 8) == 0) refusal_seen[atoi(text(PRINTS) + 8) % CODES] = true;
    if (ex.has[SHEET] && !ex.has[N]) fault(ex.line, "a sheet without its row count");
    if (ex.has[SHEET] && ex.has[ROW] && refused) fault(ex.line, "rows of a sheet that is refused");
    bool columns = ex.has[LIST] || (ex.has[COLUMNS] && (ex.has[SHEET] || ex.has[ROW] || ex.has[KEY] || ex.has[STREAM]));
    if (ex.has[FROM] && columns) fault(ex.line, "a state to go on from, and columns to start from");
    if (ex.has[KEY] && (ex.has[SHEET] || !ex.has[K])) fault(ex.line, "a key with a sheet, or without its count of columns");
    if (!columns && !passes && !ex.has[COMPARE] && !ex.has[INPUT] && !ex.has[FROM]) fault(ex.line, "nothing to try");
    if (columns) try_columns();
    if (ex.has[FROM]) try_stream(ex.value[FROM]);
    if (ex.has[LIST] && ex.has[SHEET] && !ex.has[OTHER] && !room) try_rows();
    if (passes) try_join();
    if (ex.has[COMPARE]) try_compare();
    if (ex.has[INPUT]) try_program(ex.value[INPUT], ex.value[PRINTS]);
    for (; drawn_count > 0; drawn_count--)
        if (!within(drawn[drawn_count - 1], ex.value[ROW])) fault(ex.line, "field %zu drawn above stands in no row", drawn_count);
    begin();
}

static size_t word_length(const char *s) { return strcspn(s, " "); }

/* The word of an example that stands here. */
static enum word word_at(const char *s) {
    enum word word = 0;
    while (word < WORDS && (strlen(NAMES[word]) != word_length(s) || strncmp(s, NAMES[word], word_length(s)) != 0)) word++;
    return word;
}

/* Where the value that stands here ends: at the next word of an example, or with the line. */
static const char *value_end(const char *s) {
    while (*s && word_at(s) == WORDS) {
        s += word_length(s);
        s += strspn(s, " ");
    }
    return s;
}

/* The value of the word at hand, from s up to its end. */
static void read_value(const char *s, const char *end) {
    while (end > s && end[-1] == ' ') end--;
    char *said = strndup(s, end - s);
    struct bytes *value = &ex.value[ex.word];
    if (ex.word <= INPUT) {
        const char *stop = read_bytes(said, value);
        if (*stop) fault(line_number, "not bytes: %s", stop);
    } else {
        put(value, said, end - s);
        if (ex.word == PRINTS) put(value, "\n", 1);
        put(value, "", 1);
        value->len--;
    }
    for (enum batch b = 0; b < BATCHES; b++) ex.batch[b].ends[ex.batch[b].rows] = ex.value[ROW + b].len;
    free(said);
}

/* A line of an example: words, each with its value. A line that begins with a space goes on with the bytes of the one above; `prints`
 * has the rest of its line, and `refused` and `finish` end the example. */
static void read_line(char *line) {
    line[strcspn(line, "#")] = 0;
    const char *s = line + strspn(line, " "), *end = value_end(s);
    if (*s == 0) return;
    if (ex.line == 0) ex.line = line_number;
    if (end > s) {
        if (ex.word <= INPUT) read_value(s, end);
        else fault(line_number, "not a line of an example: %s", s);
    }
    while (*end) {
        ex.word = word_at(end);
        bool row = ROW <= ex.word && ex.word < ROW + BATCHES;
        if (ex.has[ex.word] && !row && ex.word != PRINTS) fault(line_number, "%s stands twice", NAMES[ex.word]);
        ex.has[ex.word] = true;
        if (row && ex.batch[ex.word - ROW].rows++ == MOST_ROWS) abort();
        s = end + word_length(end);
        s += strspn(s, " ");
        end = ex.word == PRINTS ? s + strlen(s) : value_end(s);
        read_value(s, end);
        if (ex.word == REFUSED || ex.word == FINISH) finish();
    }
}

/* Fields that are drawn on a line, as 01|80 00 00 01. */
static void read_drawn(const char *s) {
    while (*s) {
        if (!is_byte(s) || s[2] != '|' || !is_byte(s + 3)) {
            s++;
            continue;
        }
        if (drawn_count == MOST_DRAWN) abort();
        struct bytes *field = &drawn[drawn_count++];
        field->len = 0;
        put_hex(field, s);
        for (s += 2; (*s == '|' || *s == ' ') && is_byte(s + 1); s += 3) put_hex(field, s + 1);
    }
}

/* The numbers in the first cell of a table's line. */
static void read_cell(const char *line, bool *listed) {
    for (const char *s = line + 1; *s && *s != '|'; s++) {
        char *end;
        if (!isdigit((unsigned char)*s)) continue;
        listed[strtoul(s, &end, 10) % CODES] = true;
        s = end - 1;
    }
}

/* A line outside of examples. */
static void read_prose(const char *line) {
    static bool *listed;
    if (strncmp(line, "| no. |", 7) == 0) listed = refusal_listed;
    else if (strncmp(line, "| kind |", 8) == 0) listed = kind_listed;
    else if (*line != '|') listed = NULL;
    else if (listed) read_cell(line, listed);
    if (*line == ' ') read_drawn(line);
}

static void read_page(FILE *file) {
    char *line = NULL;
    size_t room = 0;
    bool inside = false;
    begin();
    for (line_number = 1; getline(&line, &room, file) >= 0; line_number++) {
        line[strcspn(line, "\n")] = 0;
        if (!inside && strcmp(line, "```example") == 0) {
            inside = true;
        } else if (inside && strcmp(line, "```") == 0) {
            finish();
            inside = false;
        } else if (inside) {
            read_line(line);
        } else {
            read_prose(line);
        }
    }
    if (inside) fault(line_number, "an example without an end");
    if (drawn_count > 0) fault(line_number, "fields drawn above no example");
    free(line);
}

/* The table is there, each of its numbers has an example, and each example's number is in it. */
static void covered(const char *what, const bool *listed, const bool *seen) {
    bool any = false;
    for (unsigned no = 0; no < CODES; no++) {
        any = any || listed[no];
        if (listed[no] && !seen[no]) fault(line_number, "%s %u has no example", what, no);
        if (!listed[no] && seen[no]) fault(line_number, "%s %u is in no table", what, no);
    }
    if (!any) fault(line_number, "no table of %ss", what);
}

int main(int count, char **words) {
    if (count != 3) {
        fprintf(stderr, "format PAGE ROWS\n");
        return 2;
    }
    page = words[1];
    program = words[2];
    FILE *file = fopen(page, "r");
    if (!file) {
        perror(page);
        return 2;
    }
    read_page(file);
    fclose(file);
    covered("refusal", refusal_listed, refusal_seen);
    covered("kind", kind_listed, kind_seen);
    if (examples == 0) fault(line_number, "no example");
    printf("format: %u examples, %u faults\n", examples, faults);
    return faults ? 1 : 0;
}
