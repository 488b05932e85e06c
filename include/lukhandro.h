/* Lukhandro, a timetable engine whose every call is proved: the calls for C.
 *
 * These are the calls over buffers that the caller keeps. lukhandro_model.h has a struct that keeps them, and is where to
 * begin: a model in ten lines. `pkg-config --cflags --libs lukhandro` says how to compile and link where the library is
 * installed; in the repository it is target/staticlib/libcapi.a, which `tools/archive` writes for x86-64. No call
 * allocates, keeps a pointer, or touches anything but the buffers lent to it.
 *
 * THE INTERFACE has a number, LUKHANDRO_INTERFACE, which goes up when a call's parameters, a struct or the meaning of a
 * number change. Each file that includes this header refers to a function of the library with that number in its name:
 * with a library of another number the program does not link. lukhandro_interface() gives the library's number.
 *
 * FORMULAS. A row is a formula that makes one variable from its inputs, named by entries: variable and coefficient.
 *
 *   LUKHANDRO_..   inputs             gives                                         is blank
 *   1 LINEAR       1 to 256           parameter + the sum of coefficient * input    of a blank input; out of range
 *   2 MIN          1 to 256           the least input that is not blank             if all inputs are
 *   3 MAX          1 to 256           the greatest input that is not blank          if all inputs are
 *   4 ELEMENT      2 to 256: index,   the candidate that the index, from 0,         of a blank index or one outside, or of
 *                  candidates         chooses                                       a blank candidate that it chooses
 *   5 SHARED       1 to 256           how many places hold a value that another     of a blank input
 *                                     place holds too: clashes
 *   6 COUNT        1 to 256           how many inputs equal the parameter           of a blank input
 *   7 OVER         2: a, b            a - b if that is positive, else 0             of a blank input; out of range
 *   8 DEPARTURES   3: start, end,     how many of the times start + k headway,      of a blank input; a headway of 0 or
 *                  headway            k = 0, 1, 2 and on, are before the end        less; out of range
 *   9 LAST         3: start, end,     the latest of these times                     of a blank input; a headway of 0 or
 *                  headway                                                          less; no departures
 *
 * A coefficient is from -1,000 to 1,000, and 1 but in LINEAR. A parameter is from -1,000,000,000 to 1,000,000,000, and 0
 * but in LINEAR and COUNT. A variable may stand twice in a row; each place counts. The inputs of the rows follow one
 * another: a row's first entry is the sum of the counts before it.
 *
 * TIMES are seconds since midnight of the service day, as in GTFS: 7:00:00 is 25200, and 1:30:00 of the night after is
 * 91800, since a day goes on beyond 24:00:00. Headways are seconds. To the engine they are whole numbers like all
 * others: a caller may keep to another unit throughout. A window does not contain its end: from 25200 to 28800 every 600
 * there are six departures, the last at 28200, and none at 28800.
 *
 * BUFFERS. A buffer is a pointer and its length in elements. A buffer that a call writes must overlap no other buffer
 * of the call, the record among them. It may be longer than the counts ask: what lies beyond is neither looked at nor
 * changed. A length that is less than the counts ask is refused (1); one that is more than the buffer has is the caller's
 * error, and nothing can notice it.
 *
 * NULL. A pointer whose length is 0 is not followed, so it may be NULL: a model without rows, a move without pairs. NULL
 * with another length, and NULL for the record, are the caller's error, as any pointer to nothing is.
 *
 *   n variables (1 to 4,096), m rows (0 to n), e entries (0 to 16,384)
 *   kinds, makes, params, firsts, counts   m each    the rows: formula 1 to 9, variable made, parameter,
 *                                                    first entry, number of entries
 *   vars, coefs                            e each    the entries: variable, coefficient
 *   lows, highs                            n each    bounds on what may be moved: the lowest and the highest allowed
 *                                                    number of each variable; files of version 2 hold them
 *   starts                                 n         start values; 0 for a variable that a row makes
 *   numbers, stored                        n each    topological numbers and values, filled by build
 *   order                                  m         rows by number, filled by build
 *   reader_starts                          n + 1     the index of readers, filled by build: the rows that read v,
 *   reader_places                          e         ascending and each once, stand in reader_places from place
 *                                                    reader_starts[v] to before reader_starts[v + 1]; places from
 *                                                    reader_starts[n] on are neither looked at nor changed
 *   reasons                                n         why each variable is blank, filled by build
 *   move_vars, move_values                 pairs     a move: variable and new value (0 to 64 pairs)
 *   asked_vars, results                    asked     variables asked and their values (0 to 32)
 *   trial, flags                           n each    values as they would be; 1 where a formula was evaluated, else 0
 *   why                                    asked     why each value asked is blank
 *   log_sizes                              65        the log of kept moves: how many moves there are (0 to 64), and then
 *                                                    how many pairs each has (0 to 64), the oldest first
 *   log_vars, log_values                   4,096     the pairs of the log: variable, and its value before the move; those
 *                                          each      of move k, from 0, stand from place 64 k on
 *   bytes                                            a model file: LUKHANDRO_BYTES(n, m, e) bytes in version 1,
 *                                                    LUKHANDRO_BYTES_BOUNDED(n, m, e) in version 2; for salvage a
 *                                                    damaged one, of any length
 *   file                                             the file saved of it, 131,096 bytes are room for any; or the file of
 *                                                    the other version, for which 163,868 are
 *   list                                             what was not saved: rows of the damaged file, ascending, and then
 *                                                    variables, ascending; m + n places are room for any, and 8,192
 *   move_pairs                             moves     a batch (0 to 1,000 moves): how many pairs each move has;
 *                                                    move_vars and move_values then hold the pairs of all moves, one
 *                                                    move behind the other
 *   by_number                              22        the moves of a batch, counted: those accepted at place 0, those
 *                                                    refused with number k at place k
 *   starts, ends, headways                 windows   of lukhandro_departures: the windows of one trip (0 to 64)
 *   list                                             of lukhandro_departures: the departures in time order; 2,000
 *                                                    places are room for any
 *   bytes                                            of lukhandro_frequencies: a frequencies.txt; of
 *                                                    lukhandro_write_frequencies: the file that is written
 *   text                                             the bytes in which the names of written windows stand
 *   name_places, name_lengths,             windows   where each trip's name begins in a frequencies.txt or in text, how
 *   name_doubled                                     many bytes it has there, and 1 if quotes stand double in it
 *   starts, ends, headways, exacts         windows   of the same calls: the windows, and exact_times, 0 or 1
 *   lines                                  windows   the line on which each window's row begins, counted from 1
 *
 * Parameters stand in groups: record and counts, tables, what build fills, a move or the moves of a batch, what is
 * asked, what a trial or a batch fills, the log. A parameter that joins a group comes at its end, as the index of readers
 * does behind stored and the bounds do behind coefs; reasons stand behind the readers, and why behind flags. The log came
 * last, and its rows stand at the end of the list.
 *
 * MODEL FILES are little-endian. Values, parameters, coefficients and bounds are signed, all else is unsigned.
 *   version 1  at 0 the version, 1; at 2 n, at 4 m, at 6 e, 2 bytes each; at 8 where the start values begin, 24; at 12
 *              where the rows do, 24 + 4n; at 16 where the entries do, 24 + 4n + 12m; at 20 the total, 24 + 4n + 12m + 4e,
 *              which is the file's length; 4 bytes each. Then n start values of 4 bytes, m rows of 12 (kind 2, variable
 *              made 2, parameter 4, first entry 2, number of entries 2) and e entries of 4 (variable 2, coefficient 2).
 *   version 2  the same with the version 2, and at 24 where the bounds begin, 28 + 4n + 12m + 4e, 4 bytes; so the start
 *              values begin at 28, and rows and entries 4 bytes later than in version 1. Then, behind the entries, the
 *              bounds of each variable, lowest 4 bytes, highest 4. The total is 28 + 12n + 12m + 4e.
 * docs/FILES.md has the same in tables, and what each call on files does.
 *
 * THE LOG lets the latest 64 kept moves be taken back, one after another, the latest first. Its three rows need no
 * content before build, which empties it (it writes log_sizes[0]) and is lent no more of it than log_sizes. Lend the same
 * three rows to every keep, which notes its move there, and to every taking back, which takes the latest move off; no
 * other call touches them. The 65th move pushes out the oldest: then every move comes one place forward, with all of its
 * 64 places. What stands behind the moves and behind a move's pairs means nothing.
 *
 * THE RECORD needs no content before build. Lend the same record with the same stored values to every other call: its
 * blanks is always how many of the n stored values are blank, at a glance. To try a move on other stored values lend a
 * copy of the record with their number of blanks.
 *
 * VALUES lie in -2,147,483,647 to 2,147,483,647, LUKHANDRO_LOWEST to LUKHANDRO_HIGHEST; LUKHANDRO_BLANK is no value.
 *
 * REASONS. A value that cannot be worked out is blank, and its reason says why, in a byte (named LUKHANDRO_LEFT_RANGE
 * and so on below):
 *    0 it has a value, or no row makes it             3 the headway of DEPARTURES or LAST is 0 or less
 *    1 the result left the range                      4 a blank input stopped it
 *    2 the index of ELEMENT is outside                5 LAST has no departures
 * Where several apply the first of 4, 3, 2, 5, 1 counts. 4 means for ELEMENT a blank index or a blank candidate that it
 * chooses, for MIN and MAX that all inputs are blank. Build fills reasons for every variable. Keep and taking back write
 * the reason of each variable that they evaluate, and 0 for every variable that no row makes; the others stay. A trial
 * leaves reasons, and fills why: the reason of each variable asked, the stored one if it was not evaluated. Lend the same
 * reasons with the same stored values to every call. They are not checked: any bytes may stand there, and are handed on.
 *
 * BOUNDS say what a search variable may be: a number from its lowest to its highest, both of them allowed. Both are
 * values, and the lowest is not above the highest. A variable that a row makes has full bounds, LUKHANDRO_LOWEST and
 * LUKHANDRO_HIGHEST, and so may one that is to have any value. Start values, stored values of search variables, new
 * values and the values in the log are held to them. Lend the same bounds to every call on a model, or wider ones; what
 * no longer lies within narrower ones is refused. A model file of version 1 has no bounds: lend full ones with what was
 * read from it. One of version 2 has its own; build judges them, as it judges the tables.
 *
 * CLOSED CHAINS. A link leads from a made variable to each input of its row. A closed chain of links is permitted if it
 * passes a candidate of some ELEMENT and the index of none; it may pass a variable more than once. A variable is determined
 * if working it out needs neither itself nor one that is not determined: all inputs are needed, but of ELEMENT only the
 * index and the candidate that it chooses. Build, trial, keep and taking back judge this afresh, from the values that the
 * search variables have after the call, and refuse it if some variable is not determined. Variables that lead to each
 * other have one topological number: 1 plus the greatest among the inputs of all of them that are none of them.
 *
 * REFUSALS. Number 0 is accepted. Any other number is a refusal: the call has changed no byte that it was lent, and
 * place is the smallest row, variable, pair, asked index or byte that offends. Numbers are the specification's, 1 to 21
 * (named LUKHANDRO_REFUSED_COUNT and so on below):
 *    1 a count outside its bound or a short buffer     8 numbers, order or readers that build does not give
 *    2 no such kind                                    9 no such route
 *    3 variable, input count or part of a row         10 a pair names a made variable or none
 *    4 coefficient or parameter, place the row; if    11 a pair names an earlier pair's variable
 *      all are good: bounds that are blank or not in  12 a new value is blank
 *      order, or not full at a variable that some     17 a new value lies outside its variable's bounds
 *      row makes, place the variable                  13 an asked variable is not there
 *    5 variable made twice                            14 file header, place is the byte
 *    6 a closed chain that is not permitted, place    15 nothing left to take back, place 0
 *      the least variable on one
 *    7 a search variable's value is blank or outside its bounds, or a made variable's start value is not 0
 *   16 the log is unfit, place 0: it holds more moves than 64 or than the record's number kept, a move of more than 64
 *      pairs, a made variable, one not below n, one twice in a move, a blank, or a value outside its variable's bounds
 *   18 going back to version 1 would lose bounds, place the least variable whose bounds are not full
 *   19 the record's blanks is not how many of the n stored values are blank, place 0: lend the record and the stored
 *      values that the calls left, together
 *   20 a variable is not determined: by the choices that the search variables' values make after the call, working it
 *      out leads round a closed chain; place the least such variable
 *   21 in a model with a closed chain a stored value is not the one worked out afresh from the stored values of the search
 *      variables, or that is not determined; place the least such variable
 * Checks run in ascending number, but 8 and then 19 come before 7, 17 right after 12, 16 before 15, and 21 before 20; of
 * the calls on files 14 comes first, then 18, then 1. lukhandro_departures has refusals of its own, 1 to 5, and
 * so have the two calls on frequencies.txt, 1 to 9.
 *
 * STACK. On the deepest models, chains of 4,095 rows and rings of as many, which closed chains are, a program that makes
 * this call and no other needs a stack of so many KiB:
 *                                                      chain     ring
 *     lukhandro_build                                    432      592
 *     lukhandro_trial by route 1                         128      544
 *     lukhandro_trial by route 2 or 3                    448      544
 *     lukhandro_keep, _take_back                         128      544
 *     lukhandro_figures, _trials                         464      560
 *     lukhandro_salvage                                  704      704
 *     lukhandro_departures                               160
 *     every other call                                   128 or less
 * These figures were measured, in steps of 16 KiB, on an x86-64 machine; no proof states them. The tests send
 * these models through every call on a stack of 2 MiB: a thread that calls should have as much.
 */
#ifndef LUKHANDRO_H
#define LUKHANDRO_H

#include <stddef.h>
#include <stdint.h>

#ifdef __cplusplus
extern "C" {
#endif

/* The number of the interface. */
#define LUKHANDRO_INTERFACE 1

/* No value. */
#define LUKHANDRO_BLANK INT32_MIN

/* The least and the greatest value; as bounds, full ones. */
#define LUKHANDRO_LOWEST (-INT32_MAX)
#define LUKHANDRO_HIGHEST INT32_MAX

/* The nine formulas. */
#define LUKHANDRO_LINEAR 1
#define LUKHANDRO_MIN 2
#define LUKHANDRO_MAX 3
#define LUKHANDRO_ELEMENT 4
#define LUKHANDRO_SHARED 5
#define LUKHANDRO_COUNT 6
#define LUKHANDRO_OVER 7
#define LUKHANDRO_DEPARTURES 8
#define LUKHANDRO_LAST 9

/* The three routes of a trial: from what was moved to all that it changes; from what is asked to all that it needs; from
 * what is asked to what it needs and the move can have changed. Over values that the calls left they agree. */
#define LUKHANDRO_INPUT_TO_OUTPUT 1
#define LUKHANDRO_OUTPUT_TO_INPUT 2
#define LUKHANDRO_MARK_GUIDED 3

/* The numbers of an outcome: accepted, or the refusal. */
#define LUKHANDRO_ACCEPTED 0
#define LUKHANDRO_REFUSED_COUNT 1
#define LUKHANDRO_REFUSED_KIND 2
#define LUKHANDRO_REFUSED_ROW 3
#define LUKHANDRO_REFUSED_NUMBER 4
#define LUKHANDRO_REFUSED_MADE_TWICE 5
#define LUKHANDRO_REFUSED_CHAIN 6
#define LUKHANDRO_REFUSED_VALUE 7
#define LUKHANDRO_REFUSED_ORDER 8
#define LUKHANDRO_REFUSED_ROUTE 9
#define LUKHANDRO_REFUSED_MADE 10
#define LUKHANDRO_REFUSED_MOVED_TWICE 11
#define LUKHANDRO_REFUSED_BLANK 12
#define LUKHANDRO_REFUSED_ASKED 13
#define LUKHANDRO_REFUSED_HEADER 14
#define LUKHANDRO_REFUSED_NOTHING_KEPT 15
#define LUKHANDRO_REFUSED_LOG 16
#define LUKHANDRO_REFUSED_OUTSIDE 17
#define LUKHANDRO_REFUSED_BOUNDS_LOST 18
#define LUKHANDRO_REFUSED_BLANKS 19
#define LUKHANDRO_REFUSED_UNDETERMINED 20
#define LUKHANDRO_REFUSED_STALE 21

/* The numbers of a board's refusals, which are lukhandro_departures' own. */
#define LUKHANDRO_BOARD_WINDOWS 1
#define LUKHANDRO_BOARD_NUMBER 2
#define LUKHANDRO_BOARD_OVERLAP 3
#define LUKHANDRO_BOARD_DEPARTURES 4
#define LUKHANDRO_BOARD_LIST 5

/* The numbers of the refusals of lukhandro_frequencies and lukhandro_write_frequencies, which are their own. */
#define LUKHANDRO_FREQUENCIES_ROWS 1
#define LUKHANDRO_FREQUENCIES_HEADER 2
#define LUKHANDRO_FREQUENCIES_FIELDS 3
#define LUKHANDRO_FREQUENCIES_QUOTE 4
#define LUKHANDRO_FREQUENCIES_TIME 5
#define LUKHANDRO_FREQUENCIES_HEADWAY 6
#define LUKHANDRO_FREQUENCIES_EXACT 7
#define LUKHANDRO_FREQUENCIES_NAME 8
#define LUKHANDRO_FREQUENCIES_ROOM 9

/* The reasons of blank values. */
#define LUKHANDRO_HAS_VALUE 0
#define LUKHANDRO_LEFT_RANGE 1
#define LUKHANDRO_INDEX_OUTSIDE 2
#define LUKHANDRO_HEADWAY_NOT_POSITIVE 3
#define LUKHANDRO_BLANK_INPUT 4
#define LUKHANDRO_NO_DEPARTURES 5

/* The most of each thing. */
#define LUKHANDRO_MOST_VARIABLES 4096
#define LUKHANDRO_MOST_ROWS 4096
#define LUKHANDRO_MOST_ENTRIES 16384
#define LUKHANDRO_MOST_INPUTS 256
#define LUKHANDRO_MOST_COEFFICIENT 1000
#define LUKHANDRO_MOST_PARAMETER 1000000000
#define LUKHANDRO_MOST_PAIRS 64
#define LUKHANDRO_MOST_ASKED 32
#define LUKHANDRO_MOST_LOGGED 64
#define LUKHANDRO_MOST_MOVES 1000
#define LUKHANDRO_MOST_WINDOWS 64
#define LUKHANDRO_MOST_DEPARTURES 2000
#define LUKHANDRO_MOST_FREQUENCIES_BYTES 2147483647

/* Lengths of buffers, in elements: what is asked, or room for any. */
#define LUKHANDRO_READER_STARTS (LUKHANDRO_MOST_VARIABLES + 1)
#define LUKHANDRO_LOG_SIZES 65
#define LUKHANDRO_LOG_PLACES 4096
#define LUKHANDRO_BY_NUMBER 22
#define LUKHANDRO_SALVAGE_LIST 8192
#define LUKHANDRO_MOST_BYTES 131096
#define LUKHANDRO_MOST_BYTES_BOUNDED 163868

/* How long a model file is, in version 1 and in version 2. */
#define LUKHANDRO_BYTES(n, m, e) (24 + 4 * (size_t)(n) + 12 * (size_t)(m) + 4 * (size_t)(e))
#define LUKHANDRO_BYTES_BOUNDED(n, m, e) (28 + 12 * (size_t)(n) + 12 * (size_t)(m) + 4 * (size_t)(e))

/* The number of the library's interface, LUKHANDRO_INTERFACE of the header that belongs to it. */
uint32_t lukhandro_interface(void);

/* The same of a library with interface 1: another has no function of this name. */
uint32_t lukhandro_interface_1(void);

/* What makes a program that includes this header refer to that name, whatever it calls, and whatever its linker drops. */
#if defined(__has_attribute)
#if __has_attribute(retain)
#define LUKHANDRO_REFERRED __attribute__((used, retain))
#endif
#endif
#ifndef LUKHANDRO_REFERRED
#define LUKHANDRO_REFERRED __attribute__((used))
#endif
static uint32_t (*const lukhandro_interface_of_this_header)(void) LUKHANDRO_REFERRED = lukhandro_interface_1;

/* The session record. Build sets 0, m and the number of blanks, a trial its evaluations, keep and taking back all three.
 * Kept stops at 4,294,967,295, and does not fall from there. */
typedef struct {
    uint32_t kept;        /* moves kept and not taken back */
    uint32_t evaluations; /* evaluations of the last accepted call */
    uint32_t blanks;      /* how many of the n stored values are blank */
} lukhandro_session;

typedef struct {
    uint32_t number;      /* 0 accepted, else the refusal */
    uint32_t place;       /* 0 if accepted */
    uint32_t evaluations; /* 0 if refused, and of write */
} lukhandro_outcome;

typedef struct {
    uint32_t number; /* 0 accepted, else the refusal */
    uint32_t place;  /* 0 if accepted */
    uint32_t n, m, e; /* 0 if refused */
} lukhandro_read_outcome;

typedef struct {
    uint32_t number; /* 0 accepted, else the refusal */
    uint32_t place;  /* 0 if accepted */
    size_t length;   /* bytes of the saved file; this and the next two 0 if refused */
    size_t rows;     /* rows dropped, the front of the list */
    size_t values;   /* variables whose start value is missing or reset, which stand behind the rows */
} lukhandro_salvage_outcome;

typedef struct {
    uint32_t number; /* 0 accepted, else the refusal */
    uint32_t place;  /* 0 if accepted */
    size_t length;   /* bytes of the new file, 0 if refused */
} lukhandro_move_outcome;

typedef struct {
    uint32_t number;       /* 0 accepted, else the refusal */
    uint32_t place;        /* 0 */
    uint32_t blank;        /* blank results; this, the sum and the evaluations 0 if refused */
    int32_t least;         /* of the results that are values; LUKHANDRO_BLANK if none is, and if refused */
    int32_t greatest;      /* likewise */
    int64_t sum;           /* of the results that are values */
    uint32_t first;        /* evaluations by route 1 */
    uint32_t second;       /* evaluations by route 2 */
    uint32_t third;        /* evaluations by route 3 */
} lukhandro_figures_outcome;

typedef struct {
    uint32_t number; /* 0 accepted, else the refusal */
    uint32_t place;  /* 0 if accepted */
    size_t length;   /* departures of the list, windows that were read, bytes that were written; 0 if refused */
} lukhandro_list_outcome;

/* A part of the entries: those of vars and coefs from place first to before first + count. */
typedef struct {
    size_t first;
    size_t count;
} lukhandro_part;

/* Fills numbers, order, stored, the readers and reasons from tables and start values, and empties the log. Refusals 1 to
 * 7, and then 20. */
lukhandro_outcome lukhandro_build(
    lukhandro_session *session, size_t n, size_t m, size_t e,
    const uint16_t *kinds, size_t kinds_length, const uint16_t *makes, size_t makes_length,
    const int32_t *params, size_t params_length, const uint16_t *firsts, size_t firsts_length,
    const uint16_t *counts, size_t counts_length, const uint16_t *vars, size_t vars_length,
    const int16_t *coefs, size_t coefs_length, const int32_t *lows, size_t lows_length,
    const int32_t *highs, size_t highs_length, const int32_t *starts, size_t starts_length,
    uint16_t *numbers, size_t numbers_length, uint16_t *order, size_t order_length,
    int32_t *stored, size_t stored_length, uint16_t *reader_starts, size_t reader_starts_length,
    uint16_t *reader_places, size_t reader_places_length, uint8_t *reasons, size_t reasons_length,
    uint16_t *log_sizes, size_t log_sizes_length);

/* Tries a move by a route (1 input to output, 2 output to input, 3 mark-guided) on what the calls left, and fills
 * results, trial, flags and why; stored values and their reasons stay. Refusals 1 to 13 without 6, and 17 and 19; 8 and
 * then 19 before 7, and 17 right after 12; then 21 and 20. */
lukhandro_outcome lukhandro_trial(
    lukhandro_session *session, size_t n, size_t m, size_t e,
    const uint16_t *kinds, size_t kinds_length, const uint16_t *makes, size_t makes_length,
    const int32_t *params, size_t params_length, const uint16_t *firsts, size_t firsts_length,
    const uint16_t *counts, size_t counts_length, const uint16_t *vars, size_t vars_length,
    const int16_t *coefs, size_t coefs_length, const int32_t *lows, size_t lows_length,
    const int32_t *highs, size_t highs_length, const uint16_t *numbers, size_t numbers_length,
    const uint16_t *order, size_t order_length, const int32_t *stored, size_t stored_length,
    const uint16_t *reader_starts, size_t reader_starts_length,
    const uint16_t *reader_places, size_t reader_places_length, const uint8_t *reasons, size_t reasons_length,
    size_t pairs, const uint16_t *move_vars, size_t move_vars_length,
    const int32_t *move_values, size_t move_values_length,
    size_t asked, const uint16_t *asked_vars, size_t asked_vars_length, uint32_t route,
    int32_t *results, size_t results_length, int32_t *trial, size_t trial_length,
    uint8_t *flags, size_t flags_length, uint8_t *why, size_t why_length);

/* Keeps a move by route 1: changes stored and reasons, fills flags, and notes the move in the log. Refusals 1 to 12 without
 * 6 and 9, 8 and then 19 before 7, then 17, 16, 21 and 20. */
lukhandro_outcome lukhandro_keep(
    lukhandro_session *session, size_t n, size_t m, size_t e,
    const uint16_t *kinds, size_t kinds_length, const uint16_t *makes, size_t makes_length,
    const int32_t *params, size_t params_length, const uint16_t *firsts, size_t firsts_length,
    const uint16_t *counts, size_t counts_length, const uint16_t *vars, size_t vars_length,
    const int16_t *coefs, size_t coefs_length, const int32_t *lows, size_t lows_length,
    const int32_t *highs, size_t highs_length, const uint16_t *numbers, size_t numbers_length,
    const uint16_t *order, size_t order_length, int32_t *stored, size_t stored_length,
    const uint16_t *reader_starts, size_t reader_starts_length,
    const uint16_t *reader_places, size_t reader_places_length, uint8_t *reasons, size_t reasons_length,
    size_t pairs, const uint16_t *move_vars, size_t move_vars_length,
    const int32_t *move_values, size_t move_values_length,
    uint8_t *flags, size_t flags_length, uint16_t *log_sizes, size_t log_sizes_length,
    uint16_t *log_vars, size_t log_vars_length, int32_t *log_values, size_t log_values_length);

/* Takes the latest kept move back by route 1: its variables get the values that they had before it. Changes stored and
 * reasons, fills flags, and takes the move off the log (it writes log_sizes[0]); what keep then notes takes its room. Over
 * values, reasons and a log that the calls left, stored and reasons are exactly what they were before that move. Refusals 1
 * to 5, 8, 19, 7, 16, 15, 21 and 20. */
lukhandro_outcome lukhandro_take_back(
    lukhandro_session *session, size_t n, size_t m, size_t e,
    const uint16_t *kinds, size_t kinds_length, const uint16_t *makes, size_t makes_length,
    const int32_t *params, size_t params_length, const uint16_t *firsts, size_t firsts_length,
    const uint16_t *counts, size_t counts_length, const uint16_t *vars, size_t vars_length,
    const int16_t *coefs, size_t coefs_length, const int32_t *lows, size_t lows_length,
    const int32_t *highs, size_t highs_length, const uint16_t *numbers, size_t numbers_length,
    const uint16_t *order, size_t order_length, int32_t *stored, size_t stored_length,
    const uint16_t *reader_starts, size_t reader_starts_length,
    const uint16_t *reader_places, size_t reader_places_length, uint8_t *reasons, size_t reasons_length,
    uint8_t *flags, size_t flags_length, uint16_t *log_sizes, size_t log_sizes_length,
    const uint16_t *log_vars, size_t log_vars_length, const int32_t *log_values, size_t log_values_length);

/* Fills tables from a model file of version 1 of exactly bytes_length bytes. Refusal 14, then 1 for short tables. What is
 * in the tables is judged by build. */
lukhandro_read_outcome lukhandro_read(
    const uint8_t *bytes, size_t bytes_length, int32_t *starts, size_t starts_length,
    uint16_t *kinds, size_t kinds_length, uint16_t *makes, size_t makes_length,
    int32_t *params, size_t params_length, uint16_t *firsts, size_t firsts_length,
    uint16_t *counts, size_t counts_length, uint16_t *vars, size_t vars_length,
    int16_t *coefs, size_t coefs_length);

/* Fills the front of bytes with the model file of version 1 of the tables. Refusal 1. */
lukhandro_outcome lukhandro_write(
    size_t n, size_t m, size_t e, const int32_t *starts, size_t starts_length,
    const uint16_t *kinds, size_t kinds_length, const uint16_t *makes, size_t makes_length,
    const int32_t *params, size_t params_length, const uint16_t *firsts, size_t firsts_length,
    const uint16_t *counts, size_t counts_length, const uint16_t *vars, size_t vars_length,
    const int16_t *coefs, size_t coefs_length,
    uint8_t *bytes, size_t bytes_length);

/* Saves what is whole and good in a damaged model file: fills the front of file with a model file that read and build
 * accept, and the front of list with what was not saved. Of the header only its version and its counts are looked at, and
 * everything is placed by these counts; bytes beyond are dropped.
 *   A row is kept, in the order of the file, if it and its entries are whole in the file, it would pass checks 2 to 4 on
 *   its own with its first entry as given, no kept row makes its variable already, and the kept rows have together at
 *   most 16,384 entries. Of the rows kept, those that make a variable which depends on itself, or on one that does, are
 *   dropped; the parts of the others then follow one another.
 *   A start value that is missing or cut, blank, or not 0 at a variable that such a row makes, becomes 0.
 * A file without a closed chain that read and build accept comes back the same, with nothing listed; here every closed
 * chain counts, one that build permits too. Refusal 14: fewer than 24 bytes, place how
 * many; another version than 1, place 0; n, m or e outside its bound, place 2, 4 or 6. Then 1, place 0: file or list
 * shorter than what goes into it. */
lukhandro_salvage_outcome lukhandro_salvage(
    const uint8_t *bytes, size_t bytes_length, uint8_t *file, size_t file_length,
    uint16_t *list, size_t list_length);

/* Fills tables and bounds from a model file of version 2 of exactly bytes_length bytes. Refusal 14, then 1 for short rows.
 * What is in them is judged by build. */
lukhandro_read_outcome lukhandro_read_bounded(
    const uint8_t *bytes, size_t bytes_length, int32_t *starts, size_t starts_length,
    uint16_t *kinds, size_t kinds_length, uint16_t *makes, size_t makes_length,
    int32_t *params, size_t params_length, uint16_t *firsts, size_t firsts_length,
    uint16_t *counts, size_t counts_length, uint16_t *vars, size_t vars_length,
    int16_t *coefs, size_t coefs_length, int32_t *lows, size_t lows_length,
    int32_t *highs, size_t highs_length);

/* Fills the front of bytes with the model file of version 2 of the tables and bounds. Refusal 1. */
lukhandro_outcome lukhandro_write_bounded(
    size_t n, size_t m, size_t e, const int32_t *starts, size_t starts_length,
    const uint16_t *kinds, size_t kinds_length, const uint16_t *makes, size_t makes_length,
    const int32_t *params, size_t params_length, const uint16_t *firsts, size_t firsts_length,
    const uint16_t *counts, size_t counts_length, const uint16_t *vars, size_t vars_length,
    const int16_t *coefs, size_t coefs_length, const int32_t *lows, size_t lows_length,
    const int32_t *highs, size_t highs_length, uint8_t *bytes, size_t bytes_length);

/* Fills the front of file with a model file of version 1 as one of version 2, whose bounds are all full: 8n + 4 bytes more.
 * Refusal 14, then 1 for a short buffer. */
lukhandro_move_outcome lukhandro_to_version_2(
    const uint8_t *bytes, size_t bytes_length, uint8_t *file, size_t file_length);

/* Fills the front of file with a model file of version 2 as one of version 1, which has no bounds. Refusal 14, then 18 with
 * the least variable whose bounds are not full, then 1 for a short buffer. Going up and back gives the same bytes, and so
 * does going back and up where back is accepted. */
lukhandro_move_outcome lukhandro_to_version_1(
    const uint8_t *bytes, size_t bytes_length, uint8_t *file, size_t file_length);

/* Tries every move of a batch on the same stored values and a copy of the record, by each of the three routes, and
 * keeps none: fills by_number, and gives the figures of the accepted moves, whose results are the values of the variable
 * asked by route 1. The order of the moves changes nothing. A move that is refused is only counted, one whose pairs are
 * not all lent under 1; a model that trials refuse has every move counted under their number. Refusal 1, place 0: more
 * than 1,000 moves, fewer places of move_pairs than moves, or fewer than 22 of by_number. */
lukhandro_figures_outcome lukhandro_figures(
    const lukhandro_session *session, size_t n, size_t m, size_t e,
    const uint16_t *kinds, size_t kinds_length, const uint16_t *makes, size_t makes_length,
    const int32_t *params, size_t params_length, const uint16_t *firsts, size_t firsts_length,
    const uint16_t *counts, size_t counts_length, const uint16_t *vars, size_t vars_length,
    const int16_t *coefs, size_t coefs_length, const int32_t *lows, size_t lows_length,
    const int32_t *highs, size_t highs_length, const uint16_t *numbers, size_t numbers_length,
    const uint16_t *order, size_t order_length, const int32_t *stored, size_t stored_length,
    const uint16_t *reader_starts, size_t reader_starts_length,
    const uint16_t *reader_places, size_t reader_places_length,
    size_t moves, const uint16_t *move_pairs, size_t move_pairs_length,
    const uint16_t *move_vars, size_t move_vars_length, const int32_t *move_values, size_t move_values_length,
    uint16_t asked, uint32_t *by_number, size_t by_number_length);

/* Merges the figures of two batches: fills by_number with the counts of both together, and gives the figures of their
 * moves as one batch. A refused outcome has no figures: the first of the two that is refused is the answer, with its
 * number and place. Refusal 1, place 0: a by_number with fewer than 22 places, counts that together leave 32 bits, or a
 * sum that is more than half as large as 64 bits hold. Nothing is written then. */
lukhandro_figures_outcome lukhandro_merge(
    lukhandro_figures_outcome first, lukhandro_figures_outcome second,
    const uint32_t *first_by_number, size_t first_by_number_length,
    const uint32_t *second_by_number, size_t second_by_number_length,
    uint32_t *by_number, size_t by_number_length);

/* Fills the front of list with all departures of one trip's windows in time order: of each window its start, and then
 * one after each headway, as long as that is before its end. Windows come in any order. Refusals of this call, in this
 * order:
 *    1 more than 64 windows, or starts, ends or headways with fewer places, place 0
 *    2 a blank number or a headway of 0 or less, place the least such window
 *    3 two windows overlap, place the least window that overlaps another: each has its start before its own end and
 *      before the other's
 *    4 more than 2,000 departures, place 0
 *    5 list with fewer places than there are departures, place 0 */
lukhandro_list_outcome lukhandro_departures(
    size_t windows, const int32_t *starts, size_t starts_length, const int32_t *ends, size_t ends_length,
    const int32_t *headways, size_t headways_length, int32_t *list, size_t list_length);

/* The inputs of a row, as the part of the entries that they are: its variables stand from vars + first on. The part is
 * empty, with both numbers 0, if there is no such row or its part ends after e; so it is where a buffer is too short to
 * tell. This call looks at nothing else of the tables, and refuses nothing. */
lukhandro_part lukhandro_inputs_of_row(
    size_t m, size_t e, const uint16_t *firsts, size_t firsts_length, const uint16_t *counts, size_t counts_length,
    const uint16_t *vars, size_t vars_length, size_t row);

/* Tries up to 1,000 moves, each on the same stored values and a copy of the record, by one route, and keeps none; the model
 * is judged once. Move i is given its number, place and evaluations at place i of move_numbers, move_places and
 * move_evaluations, and the values and reasons asked in `asked` places of results and why behind those of the moves before
 * it, as a trial gives them; a refused move leaves these as they were, and a model that trials refuse has every move
 * refused with that number and place. The outcome's evaluations are those of all moves. Refusal 1, place 0, and nothing
 * written: more than 1,000 moves, more than 32 variables asked, fewer places of move_pairs, move_numbers, move_places or
 * move_evaluations than moves, of asked_vars than variables asked, or of results or why than moves times variables. */
lukhandro_outcome lukhandro_trials(
    const lukhandro_session *session, size_t n, size_t m, size_t e,
    const uint16_t *kinds, size_t kinds_length, const uint16_t *makes, size_t makes_length,
    const int32_t *params, size_t params_length, const uint16_t *firsts, size_t firsts_length,
    const uint16_t *counts, size_t counts_length, const uint16_t *vars, size_t vars_length,
    const int16_t *coefs, size_t coefs_length, const int32_t *lows, size_t lows_length,
    const int32_t *highs, size_t highs_length, const uint16_t *numbers, size_t numbers_length,
    const uint16_t *order, size_t order_length, const int32_t *stored, size_t stored_length,
    const uint16_t *reader_starts, size_t reader_starts_length,
    const uint16_t *reader_places, size_t reader_places_length, const uint8_t *reasons, size_t reasons_length,
    size_t moves, const uint16_t *move_pairs, size_t move_pairs_length,
    const uint16_t *move_vars, size_t move_vars_length, const int32_t *move_values, size_t move_values_length,
    size_t asked, const uint16_t *asked_vars, size_t asked_vars_length, uint32_t route,
    uint32_t *move_numbers, size_t move_numbers_length, uint32_t *move_places, size_t move_places_length,
    uint32_t *move_evaluations, size_t move_evaluations_length,
    int32_t *results, size_t results_length, uint8_t *why, size_t why_length);

/* Fills rows with the windows of a frequencies.txt, by the GTFS Schedule Reference and RFC 4180, in the order of its
 * lines; length is how many there are. As many places as the file has line feeds are enough. The first line names the
 * fields, in any order and with others among them. A name is a part of the file's bytes, without the quotes around it:
 * name_lengths[i] bytes from bytes + name_places[i] on; where name_doubled[i] is 1, each two quotes next to each other are
 * one of the name. Times past midnight go on beyond 24:00:00. Windows of one trip that overlap are read:
 * lukhandro_departures refuses them.
 * Refusals of this call, each looked for over the whole file before the next; the place is the least line that offends,
 * counted from 1, where a row begins:
 *    1 rows with fewer places than there are windows, or more than 2,147,483,647 bytes, place 0
 *    2 the first line lacks trip_id, start_time, end_time or headway_secs, or names one of these or exact_times twice
 *    3 another number of fields than the first line; a quote that is not closed takes in the lines below it
 *    4 a quote that is not closed, or stands where none may: in a field without quotes around it, or alone between them
 *    5 start_time or end_time is not H:MM:SS with minutes and seconds from 00 to 59, or is above 596523:14:07
 *    6 headway_secs is no whole number from 1 to 2,147,483,647
 *    7 exact_times is neither empty nor 0 nor 1
 *    8 trip_id is empty
 * docs/FREQUENCIES.md has the format, and a table of its edges. */
lukhandro_list_outcome lukhandro_frequencies(
    const uint8_t *bytes, size_t bytes_length, uint32_t *name_places, size_t name_places_length,
    uint32_t *name_lengths, size_t name_lengths_length, uint8_t *name_doubled, size_t name_doubled_length,
    int32_t *starts, size_t starts_length, int32_t *ends, size_t ends_length,
    int32_t *headways, size_t headways_length, uint8_t *exacts, size_t exacts_length,
    uint32_t *lines, size_t lines_length);

/* Fills the front of bytes with the frequencies.txt of windows and the names of their trips, which stand in text as
 * lukhandro_frequencies says: what it left can be written as it stands, with the file's bytes as the text. length is how
 * long the file is: 53 bytes, and of each window twice its name's length and 42 more, are room for any. Fields stand in
 * the reference's order, names in quotes only where they hold a comma, a quote or a byte of a line end, and every line
 * ends with a line feed. What was written is read back to the same windows and names.
 * Refusals of this call, in this order; the place is the least window that offends, counted from 0:
 *    1 rows with fewer places than windows, or more than 2,147,483,647 windows, place 0
 *    4 a quote that is not one of two next to each other in a name whose name_doubled is not 0
 *    5 a time below 0
 *    6 a headway of 0 or less
 *    7 exacts above 1
 *    8 a name of no bytes, or one that does not stand in text
 *    9 bytes with fewer places than the file has bytes, or a file of more than 2,147,483,647, place 0 */
lukhandro_list_outcome lukhandro_write_frequencies(
    size_t windows, const uint8_t *text, size_t text_length, const uint32_t *name_places, size_t name_places_length,
    const uint32_t *name_lengths, size_t name_lengths_length, const uint8_t *name_doubled, size_t name_doubled_length,
    const int32_t *starts, size_t starts_length, const int32_t *ends, size_t ends_length,
    const int32_t *headways, size_t headways_length, const uint8_t *exacts, size_t exacts_length,
    uint8_t *bytes, size_t bytes_length);

#ifdef __cplusplus
}
#endif

#endif
