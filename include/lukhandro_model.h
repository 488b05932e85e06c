/* Lukhandro for C programs: a model that keeps its own rows, over the calls of lukhandro.h.
 *
 *     static lukhandro_model sheet;                                       all zero: a model without variables
 *     uint16_t start = lukhandro_model_search(&sheet, 25200);             variables, in the order of these calls
 *     uint16_t end = lukhandro_model_search(&sheet, 28800);
 *     uint16_t headway = lukhandro_model_search_within(&sheet, 600, 60, 7200);
 *     uint16_t trips = lukhandro_model_departures(&sheet, start, end, headway);
 *     lukhandro_outcome built = lukhandro_model_build(&sheet);
 *     if (built.number != LUKHANDRO_ACCEPTED) puts(lukhandro_sentence(built));
 *     int32_t six = lukhandro_model_value(&sheet, trips);
 *
 * All of it is in this header, in C99 and in C++17, and nothing of it allocates. A model has room for the largest one and
 * so is of one size, LUKHANDRO_MODEL_BYTES, about 290 KB: let it be static, or a part of what the program allocates itself.
 * A model may be copied by assignment, and two threads may work on two models.
 *
 * VARIABLES AND ROWS come first, then lukhandro_model_build. Whatever was laid out wrong (too many variables, an input that
 * is not there, a row of too many inputs) is refused by build, with its number and place; nothing is checked before. Adding
 * to a model that was built asks for another build: until then the other calls are refused with 8, or go on without what
 * was added. Build starts from the start values again and forgets the kept moves.
 *
 * A refused call has changed nothing; only a read that is refused leaves the model empty. lukhandro_sentence says in words
 * what a refusal means and what to do. What build, a trial, keep and taking back leave are the fields of the struct, named
 * as the parameters of lukhandro.h; read them, and write none.
 */
#ifndef LUKHANDRO_MODEL_H
#define LUKHANDRO_MODEL_H

#include "lukhandro.h"

/* A pair of a move: a search variable and its new value. */
typedef struct {
    uint16_t variable;
    int32_t value;
} lukhandro_pair;

/* A term of a LINEAR row: coefficient times variable. */
typedef struct {
    int16_t coefficient;
    uint16_t variable;
} lukhandro_term;

/* A model, with everything that the calls lend and fill. Every field means what the parameter of its name means. */
typedef struct {
    size_t n, m, e;
    lukhandro_session session;
    uint16_t kinds[LUKHANDRO_MOST_ROWS], makes[LUKHANDRO_MOST_ROWS];
    int32_t params[LUKHANDRO_MOST_ROWS];
    uint16_t firsts[LUKHANDRO_MOST_ROWS], counts[LUKHANDRO_MOST_ROWS];
    uint16_t vars[LUKHANDRO_MOST_ENTRIES];
    int16_t coefs[LUKHANDRO_MOST_ENTRIES];
    int32_t lows[LUKHANDRO_MOST_VARIABLES], highs[LUKHANDRO_MOST_VARIABLES];
    int32_t starts[LUKHANDRO_MOST_VARIABLES];
    uint16_t numbers[LUKHANDRO_MOST_VARIABLES], order[LUKHANDRO_MOST_ROWS];
    int32_t stored[LUKHANDRO_MOST_VARIABLES];
    uint16_t reader_starts[LUKHANDRO_READER_STARTS], reader_places[LUKHANDRO_MOST_ENTRIES];
    uint8_t reasons[LUKHANDRO_MOST_VARIABLES];
    int32_t results[LUKHANDRO_MOST_ASKED]; /* of the last accepted trial: the values asked, */
    uint8_t why[LUKHANDRO_MOST_ASKED];     /* and why each of them is blank */
    int32_t trial[LUKHANDRO_MOST_VARIABLES];
    uint8_t flags[LUKHANDRO_MOST_VARIABLES];
    uint16_t log_sizes[LUKHANDRO_LOG_SIZES], log_vars[LUKHANDRO_LOG_PLACES];
    int32_t log_values[LUKHANDRO_LOG_PLACES];
} lukhandro_model;

#define LUKHANDRO_MODEL_BYTES sizeof(lukhandro_model)

/* What every call on a model lends, in the groups and the order of lukhandro.h. */
#define LUKHANDRO_MODEL_TABLES_(model) \
    (model)->n, (model)->m, (model)->e, (model)->kinds, LUKHANDRO_MOST_ROWS, (model)->makes, LUKHANDRO_MOST_ROWS, \
        (model)->params, LUKHANDRO_MOST_ROWS, (model)->firsts, LUKHANDRO_MOST_ROWS, (model)->counts, LUKHANDRO_MOST_ROWS, \
        (model)->vars, LUKHANDRO_MOST_ENTRIES, (model)->coefs, LUKHANDRO_MOST_ENTRIES
#define LUKHANDRO_MODEL_BOUNDS_(model) (model)->lows, LUKHANDRO_MOST_VARIABLES, (model)->highs, LUKHANDRO_MOST_VARIABLES
#define LUKHANDRO_MODEL_INDEXED_(model) \
    (model)->numbers, LUKHANDRO_MOST_VARIABLES, (model)->order, LUKHANDRO_MOST_ROWS, \
        (model)->stored, LUKHANDRO_MOST_VARIABLES, (model)->reader_starts, LUKHANDRO_READER_STARTS, \
        (model)->reader_places, LUKHANDRO_MOST_ENTRIES
#define LUKHANDRO_MODEL_BUILT_(model) \
    LUKHANDRO_MODEL_INDEXED_(model), (model)->reasons, LUKHANDRO_MOST_VARIABLES
#define LUKHANDRO_MODEL_LOG_(model) \
    (model)->log_sizes, LUKHANDRO_LOG_SIZES, (model)->log_vars, LUKHANDRO_LOG_PLACES, \
        (model)->log_values, LUKHANDRO_LOG_PLACES
/* Tables and start values, as read and write take them. */
#define LUKHANDRO_MODEL_FILE_(model) \
    (model)->starts, LUKHANDRO_MOST_VARIABLES, (model)->kinds, LUKHANDRO_MOST_ROWS, (model)->makes, LUKHANDRO_MOST_ROWS, \
        (model)->params, LUKHANDRO_MOST_ROWS, (model)->firsts, LUKHANDRO_MOST_ROWS, (model)->counts, LUKHANDRO_MOST_ROWS, \
        (model)->vars, LUKHANDRO_MOST_ENTRIES, (model)->coefs, LUKHANDRO_MOST_ENTRIES

/* Makes a model empty, so that another can be laid out in it. */
static inline void lukhandro_model_clear(lukhandro_model *model) {
    model->n = model->m = model->e = 0;
    model->log_sizes[0] = 0;
}

/* ---- variables: each of these adds one, and gives its number, from 0 on */

/* A search variable with a start value, which may be moved to the numbers from low to high. Of more variables than a model
 * may have only the number is kept: build refuses it. */
static inline uint16_t lukhandro_model_search_within(lukhandro_model *model, int32_t start, int32_t low, int32_t high) {
    const size_t variable = model->n++;
    if (variable < LUKHANDRO_MOST_VARIABLES) {
        model->starts[variable] = start;
        model->lows[variable] = low;
        model->highs[variable] = high;
    }
    return (uint16_t)(variable < UINT16_MAX ? variable : UINT16_MAX);
}

/* A search variable that may be moved to any number. */
static inline uint16_t lukhandro_model_search(lukhandro_model *model, int32_t start) {
    return lukhandro_model_search_within(model, start, LUKHANDRO_LOWEST, LUKHANDRO_HIGHEST);
}

/* A variable that a row added later makes, by lukhandro_model_row: for inputs that lead round. Without such a row it is a
 * search variable that starts at 0. */
static inline uint16_t lukhandro_model_later(lukhandro_model *model) {
    return lukhandro_model_search(model, 0);
}

/* A row that makes a variable, as yet without inputs; and one more input of the last row. Of more rows or entries than a
 * model may have only the numbers are kept. */
static inline void lukhandro_model_begin_(lukhandro_model *model, uint16_t kind, uint16_t makes, int32_t parameter) {
    const size_t row = model->m++;
    if (row < LUKHANDRO_MOST_ROWS) {
        model->kinds[row] = kind;
        model->makes[row] = makes;
        model->params[row] = parameter;
        model->firsts[row] = (uint16_t)(model->e < UINT16_MAX ? model->e : UINT16_MAX);
        model->counts[row] = 0;
    }
}
static inline void lukhandro_model_input_(lukhandro_model *model, uint16_t variable, int16_t coefficient) {
    const size_t entry = model->e++;
    if (entry < LUKHANDRO_MOST_ENTRIES && model->m <= LUKHANDRO_MOST_ROWS) {
        model->vars[entry] = variable;
        model->coefs[entry] = coefficient;
        model->counts[model->m - 1]++;
    }
}

/* A row of any kind that makes a variable: the way to make one that lukhandro_model_later gave. */
static inline void lukhandro_model_row(
    lukhandro_model *model, uint16_t kind, uint16_t makes, int32_t parameter, const lukhandro_term *terms, size_t count) {
    lukhandro_model_begin_(model, kind, makes, parameter);
    for (size_t i = 0; i < count; i++) lukhandro_model_input_(model, terms[i].variable, terms[i].coefficient);
}

/* A variable made by a row of any kind but LINEAR, whose coefficients are all 1. */
static inline uint16_t lukhandro_model_made(
    lukhandro_model *model, uint16_t kind, int32_t parameter, const uint16_t *inputs, size_t count) {
    const uint16_t makes = lukhandro_model_later(model);
    lukhandro_model_begin_(model, kind, makes, parameter);
    for (size_t i = 0; i < count; i++) lukhandro_model_input_(model, inputs[i], 1);
    return makes;
}

/* parameter + the sum of coefficient times variable */
static inline uint16_t lukhandro_model_linear(
    lukhandro_model *model, int32_t parameter, const lukhandro_term *terms, size_t count) {
    const uint16_t makes = lukhandro_model_later(model);
    lukhandro_model_row(model, LUKHANDRO_LINEAR, makes, parameter, terms, count);
    return makes;
}

/* the least input that is not blank */
static inline uint16_t lukhandro_model_min(lukhandro_model *model, const uint16_t *inputs, size_t count) {
    return lukhandro_model_made(model, LUKHANDRO_MIN, 0, inputs, count);
}

/* the greatest input that is not blank */
static inline uint16_t lukhandro_model_max(lukhandro_model *model, const uint16_t *inputs, size_t count) {
    return lukhandro_model_made(model, LUKHANDRO_MAX, 0, inputs, count);
}

/* the candidate that an index from 0 chooses; the index stands first among the inputs */
static inline uint16_t lukhandro_model_element(lukhandro_model *model, const uint16_t *inputs, size_t count) {
    return lukhandro_model_made(model, LUKHANDRO_ELEMENT, 0, inputs, count);
}

/* how many places hold a value that another place holds too */
static inline uint16_t lukhandro_model_shared(lukhandro_model *model, const uint16_t *inputs, size_t count) {
    return lukhandro_model_made(model, LUKHANDRO_SHARED, 0, inputs, count);
}

/* how many inputs equal a number */
static inline uint16_t lukhandro_model_count(
    lukhandro_model *model, int32_t number, const uint16_t *inputs, size_t count) {
    return lukhandro_model_made(model, LUKHANDRO_COUNT, number, inputs, count);
}

/* how far a lies over b, 0 if it does not */
static inline uint16_t lukhandro_model_over(lukhandro_model *model, uint16_t a, uint16_t b) {
    const uint16_t inputs[2] = {a, b};
    return lukhandro_model_made(model, LUKHANDRO_OVER, 0, inputs, 2);
}

/* how many departures a window has */
static inline uint16_t lukhandro_model_departures(lukhandro_model *model, uint16_t start, uint16_t end, uint16_t headway) {
    const uint16_t inputs[3] = {start, end, headway};
    return lukhandro_model_made(model, LUKHANDRO_DEPARTURES, 0, inputs, 3);
}

/* the last departure of a window */
static inline uint16_t lukhandro_model_last(lukhandro_model *model, uint16_t start, uint16_t end, uint16_t headway) {
    const uint16_t inputs[3] = {start, end, headway};
    return lukhandro_model_made(model, LUKHANDRO_LAST, 0, inputs, 3);
}

/* ---- calls */

/* Works all values out from the start values, and forgets the kept moves. Refusals 1 to 7, and 20. */
static inline lukhandro_outcome lukhandro_model_build(lukhandro_model *model) {
    return lukhandro_build(&model->session, LUKHANDRO_MODEL_TABLES_(model), LUKHANDRO_MODEL_BOUNDS_(model),
        model->starts, LUKHANDRO_MOST_VARIABLES, LUKHANDRO_MODEL_BUILT_(model), model->log_sizes, LUKHANDRO_LOG_SIZES);
}

/* The pairs of a move as two rows; of more than a move may have none is looked at, since their number is refused. */
static inline void lukhandro_model_pairs_(
    const lukhandro_pair *pairs, size_t count, uint16_t variables[LUKHANDRO_MOST_PAIRS], int32_t values[LUKHANDRO_MOST_PAIRS]) {
    for (size_t i = 0; count <= LUKHANDRO_MOST_PAIRS && i < count; i++) {
        variables[i] = pairs[i].variable;
        values[i] = pairs[i].value;
    }
}

/* Tries a move and keeps nothing of it: results[k] is the value of asked[k] as it would be, why[k] why it is blank, trial the
 * values by this route, flags what was evaluated. Refusals 1, 8 to 13, 17, 20. */
static inline lukhandro_outcome lukhandro_model_trial(lukhandro_model *model, const lukhandro_pair *pairs, size_t count,
    const uint16_t *asked, size_t asked_count, uint32_t route) {
    uint16_t variables[LUKHANDRO_MOST_PAIRS];
    int32_t values[LUKHANDRO_MOST_PAIRS];
    lukhandro_model_pairs_(pairs, count, variables, values);
    return lukhandro_trial(&model->session, LUKHANDRO_MODEL_TABLES_(model), LUKHANDRO_MODEL_BOUNDS_(model),
        LUKHANDRO_MODEL_BUILT_(model), count, variables, LUKHANDRO_MOST_PAIRS, values, LUKHANDRO_MOST_PAIRS,
        asked_count, asked, asked_count, route, model->results, LUKHANDRO_MOST_ASKED,
        model->trial, LUKHANDRO_MOST_VARIABLES, model->flags, LUKHANDRO_MOST_VARIABLES, model->why, LUKHANDRO_MOST_ASKED);
}

/* Keeps a move. Refusals 1, 8, 10 to 12, 17, 20. */
static inline lukhandro_outcome lukhandro_model_keep(lukhandro_model *model, const lukhandro_pair *pairs, size_t count) {
    uint16_t variables[LUKHANDRO_MOST_PAIRS];
    int32_t values[LUKHANDRO_MOST_PAIRS];
    lukhandro_model_pairs_(pairs, count, variables, values);
    return lukhandro_keep(&model->session, LUKHANDRO_MODEL_TABLES_(model), LUKHANDRO_MODEL_BOUNDS_(model),
        LUKHANDRO_MODEL_BUILT_(model), count, variables, LUKHANDRO_MOST_PAIRS, values, LUKHANDRO_MOST_PAIRS,
        model->flags, LUKHANDRO_MOST_VARIABLES, LUKHANDRO_MODEL_LOG_(model));
}

/* Takes the latest kept move back, the last 64 of them one after another. Refusal 15 if none is left. */
static inline lukhandro_outcome lukhandro_model_take_back(lukhandro_model *model) {
    return lukhandro_take_back(&model->session, LUKHANDRO_MODEL_TABLES_(model), LUKHANDRO_MODEL_BOUNDS_(model),
        LUKHANDRO_MODEL_BUILT_(model), model->flags, LUKHANDRO_MOST_VARIABLES, LUKHANDRO_MODEL_LOG_(model));
}

/* A batch of moves in figures, none of them kept: move k has move_pairs[k] pairs, and the pairs of all stand one move behind
 * the other in move_vars and move_values, `length` of each. by_number counts the moves accepted at 0 and those refused with
 * number k at k. Refusal 1 for more than 1,000 moves. */
static inline lukhandro_figures_outcome lukhandro_model_figures(const lukhandro_model *model, size_t moves,
    const uint16_t *move_pairs, const uint16_t *move_vars, const int32_t *move_values, size_t length, uint16_t asked,
    uint32_t by_number[LUKHANDRO_BY_NUMBER]) {
    return lukhandro_figures(&model->session, LUKHANDRO_MODEL_TABLES_(model), LUKHANDRO_MODEL_BOUNDS_(model),
        LUKHANDRO_MODEL_INDEXED_(model), moves, move_pairs, moves, move_vars, length, move_values, length,
        asked, by_number, LUKHANDRO_BY_NUMBER);
}

/* The figures of two batches merged into those of their moves as one batch; by_number takes the counts of both. */
static inline lukhandro_figures_outcome lukhandro_model_merge(
    lukhandro_figures_outcome first, const uint32_t first_by_number[LUKHANDRO_BY_NUMBER],
    lukhandro_figures_outcome second, const uint32_t second_by_number[LUKHANDRO_BY_NUMBER],
    uint32_t by_number[LUKHANDRO_BY_NUMBER]) {
    return lukhandro_merge(first, second, first_by_number, LUKHANDRO_BY_NUMBER, second_by_number, LUKHANDRO_BY_NUMBER,
        by_number, LUKHANDRO_BY_NUMBER);
}

/* Tries up to 1,000 moves by one route and keeps none; move_numbers, move_places and move_evaluations have a place for
 * each move, results and why `asked` places for each; a refused move leaves its own as they were. */
static inline lukhandro_outcome lukhandro_model_trials(const lukhandro_model *model, size_t moves,
    const uint16_t *move_pairs, const uint16_t *move_vars, const int32_t *move_values, size_t length,
    size_t asked, const uint16_t *asked_vars, uint32_t route,
    uint32_t *move_numbers, uint32_t *move_places, uint32_t *move_evaluations, int32_t *results, uint8_t *why) {
    return lukhandro_trials(&model->session, LUKHANDRO_MODEL_TABLES_(model), LUKHANDRO_MODEL_BOUNDS_(model),
        LUKHANDRO_MODEL_INDEXED_(model), model->reasons, LUKHANDRO_MOST_VARIABLES, moves, move_pairs, moves,
        move_vars, length, move_values, length, asked, asked_vars, asked, route, move_numbers, moves, move_places, moves,
        move_evaluations, moves, results, moves * asked, why, moves * asked);
}

/* ---- what a model has */

/* The value of a variable; LUKHANDRO_BLANK if it is blank or there is no such variable. */
static inline int32_t lukhandro_model_value(const lukhandro_model *model, uint16_t variable) {
    return variable < model->n && variable < LUKHANDRO_MOST_VARIABLES ? model->stored[variable] : LUKHANDRO_BLANK;
}

/* Why a variable is blank; 0 if it is not, or there is no such variable. */
static inline uint8_t lukhandro_model_reason(const lukhandro_model *model, uint16_t variable) {
    return variable < model->n && variable < LUKHANDRO_MOST_VARIABLES ? model->reasons[variable] : (uint8_t)LUKHANDRO_HAS_VALUE;
}

/* ---- files */

/* Reads a model file of either version and builds its model; that of a file of version 1 has full bounds. Refusal 14 for the
 * file, or what build refuses. A refused read leaves the model empty. */
static inline lukhandro_outcome lukhandro_model_read(lukhandro_model *model, const uint8_t *bytes, size_t length) {
    const int bounded = length >= 2 && bytes[0] == 2 && bytes[1] == 0;
    lukhandro_read_outcome read;
    lukhandro_outcome built = {0, 0, 0};
    if (bounded) {
        read = lukhandro_read_bounded(bytes, length, LUKHANDRO_MODEL_FILE_(model), LUKHANDRO_MODEL_BOUNDS_(model));
    } else {
        read = lukhandro_read(bytes, length, LUKHANDRO_MODEL_FILE_(model));
    }
    model->n = read.n;
    model->m = read.m;
    model->e = read.e;
    for (size_t variable = 0; !bounded && variable < model->n; variable++) {
        model->lows[variable] = LUKHANDRO_LOWEST;
        model->highs[variable] = LUKHANDRO_HIGHEST;
    }
    if (read.number != LUKHANDRO_ACCEPTED) {
        built.number = read.number;
        built.place = read.place;
    } else {
        built = lukhandro_model_build(model);
    }
    if (built.number != LUKHANDRO_ACCEPTED) lukhandro_model_clear(model);
    return built;
}

/* Makes the values that search variables have now the start values: of the files that are written, and of another build. */
static inline void lukhandro_model_start_here(lukhandro_model *model) {
    for (size_t variable = 0; variable < model->n && variable < LUKHANDRO_MOST_VARIABLES; variable++) {
        model->starts[variable] = model->numbers[variable] == 0 ? model->stored[variable] : 0;
    }
}

/* Writes a model that was built to the front of `bytes` as a file of version 2, with its bounds:
 * LUKHANDRO_BYTES_BOUNDED(model->n, model->m, model->e) bytes. It starts from the values that search variables have now.
 * Refusal 1 for too few bytes. */
static inline lukhandro_outcome lukhandro_model_write(lukhandro_model *model, uint8_t *bytes, size_t length) {
    lukhandro_model_start_here(model);
    return lukhandro_write_bounded(model->n, model->m, model->e, LUKHANDRO_MODEL_FILE_(model),
        LUKHANDRO_MODEL_BOUNDS_(model), bytes, length);
}

/* The same as a file of version 1, LUKHANDRO_BYTES(model->n, model->m, model->e) bytes, which has no bounds. */
static inline lukhandro_outcome lukhandro_model_write_version_1(lukhandro_model *model, uint8_t *bytes, size_t length) {
    lukhandro_model_start_here(model);
    return lukhandro_write(model->n, model->m, model->e, LUKHANDRO_MODEL_FILE_(model), bytes, length);
}

/* ---- words */

/* What a number says and what to do about it; `place` is the row, the variable, the pair or whatever the sentence names.
 * The refusals of lukhandro_departures are its own, and not these, and so are those of the calls on frequencies.txt. */
static inline const char *lukhandro_sentence_of(uint32_t number) {
    switch (number) {
    case 0: return "accepted";
    case 1: return "a count is outside its bound, or a buffer is shorter than the counts ask: see LUKHANDRO_MOST_..";
    case 2: return "the row at this place is of no kind: give it one of the nine formulas, 1 to 9";
    case 3: return "the row at this place names a variable that is not there, has another number of inputs than its formula takes, or does not begin where the one before it ends: count its inputs again";
    case 4: return "the row at this place has a coefficient beyond 1,000, a parameter beyond 1,000,000,000, or one where its formula takes none; or if all rows are good, the variable at this place has bounds that are blank, in the wrong order, or not full though a row makes it";
    case 5: return "the row at this place makes a variable that an earlier row makes: make it once";
    case 6: return "the variable at this place depends on itself: break the circle, or let an ELEMENT choose by an index from outside it";
    case 7: return "the variable at this place has no value, or one outside its bounds; or a row makes it, and it starts at another value than 0";
    case 8: return "what build filled does not belong to these rows: build again, and lend what build left";
    case 9: return "there is no such route: it is 1, 2 or 3";
    case 10: return "the pair at this place names a variable that a row makes, or one that is not there: move search variables only";
    case 11: return "the pair at this place names the variable of an earlier pair: name each once";
    case 12: return "the pair at this place has no value: give it one";
    case 13: return "the variable asked at this place is not there: ask variables below n";
    case 14: return "this is no whole model file of the version asked for: its header is wrong at this byte, or it has only so many bytes";
    case 15: return "no kept move is left to take back";
    case 16: return "the log is none that keep and taking back leave: lend the record, the log and the bounds that belong together";
    case 17: return "the pair at this place has a value outside its variable's bounds: give another, or widen them";
    case 18: return "the variable at this place has bounds, which a file of version 1 cannot hold: keep version 2";
    case 19: return "the record does not belong to the stored values: lend those that the calls left, together";
    case 20: return "the variable at this place cannot be worked out, since the chosen candidates lead round: choose otherwise";
    case 21: return "the variable at this place has another stored value than the one worked out afresh: lend the stored values that the calls left";
    default: return "no call answers with this number";
    }
}

/* What an outcome says, in words, and what to do about a refusal. */
static inline const char *lukhandro_sentence(lukhandro_outcome outcome) {
    return lukhandro_sentence_of(outcome.number);
}

/* What a refusal of lukhandro_frequencies says and what to do about it; `place` is the line, counted from 1. Of
 * lukhandro_write_frequencies, whose numbers mean the same, it is the window, counted from 0. */
static inline const char *lukhandro_frequencies_sentence(lukhandro_list_outcome outcome) {
    switch (outcome.number) {
    case 0: return "accepted";
    case 1: return "a row has fewer places than there are windows, or there is more than 2,147,483,647 of something: lend as many places as the file has line feeds";
    case 2: return "the first line does not name trip_id, start_time, end_time or headway_secs, or names one of these or exact_times twice: name each once, in this spelling";
    case 3: return "the line at this place has another number of fields than the first: count its commas; an empty line counts, and a quote that is not closed takes in the lines below it";
    case 4: return "the line at this place has a quote that is not closed, or one where none may stand: put the whole field into quotes, and double each quote in it";
    case 5: return "the line at this place has a time that is none, or beyond 596523:14:07: write it as 6:00:00, minutes and seconds from 00 to 59";
    case 6: return "the line at this place has a headway that is no whole number from 1 to 2147483647: write seconds, without a sign or a space";
    case 7: return "the line at this place has an exact_times that is neither empty nor 0 nor 1: write one of these";
    case 8: return "the line at this place names no trip: give it the trip_id of trips.txt";
    case 9: return "the file has more bytes than were lent: lend 53, and of each window twice its name's length and 42 more";
    default: return "no call on frequencies.txt answers with this number";
    }
}

/* Why a value is blank, in words. */
static inline const char *lukhandro_reason_sentence(uint8_t reason) {
    switch (reason) {
    case 0: return "it has a value";
    case 1: return "the result left the range of values";
    case 2: return "the index chooses none of the candidates";
    case 3: return "the headway is 0 or less";
    case 4: return "a blank input stopped it";
    case 5: return "there are no departures";
    default: return "no blank value has this reason";
    }
}

#endif
