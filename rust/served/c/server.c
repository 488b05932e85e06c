/* Answers calls that come on standard input, for a caller who cannot link the archive.
 *
 * A request is a `struct request` and a block of bytes. The record and the buffers lie in the block where the request
 * says, between guards that the caller has put there, and the call is made on them where they lie: each is lent as a
 * pointer into the block and the length that the request gives, or as a null pointer if the length is 0. The answer is
 * a `struct answer` and the whole block as the call left it, so that the caller sees every byte, guards too. Numbers
 * are little-endian.
 *
 * At the end of its input the program ends with status 0. It ends with status 2 if the input breaks off or a buffer
 * does not lie in the block, with 3 if there is no memory, and with 4 if the answer cannot be written. */
#include <stdlib.h>
#include <unistd.h>
#include "lukhandro.h"

enum call {
    BUILD, TRIAL, KEEP, TAKE_BACK, READ, WRITE, SALVAGE, READ_BOUNDED, WRITE_BOUNDED, TO_VERSION_2, TO_VERSION_1,
    FIGURES, MERGE, TRIALS, DEPARTURES, INPUTS_OF_ROW, FREQUENCIES, WRITE_FREQUENCIES
};

enum buffer {
    SESSION, KINDS, MAKES, PARAMS, FIRSTS, COUNTS, VARS, COEFS, LOWS, HIGHS, STARTS, NUMBERS, ORDER, STORED,
    READER_STARTS, READER_PLACES, REASONS, MOVE_VARS, MOVE_VALUES, ASKED_VARS, RESULTS, TRIED, FLAGS, WHY, LOG_SIZES, LOG_VARS,
    LOG_VALUES, BYTES, SAVED, LIST, MOVE_PAIRS, FIRST_BY_NUMBER, SECOND_BY_NUMBER, BY_NUMBER,
    MOVE_NUMBERS, MOVE_PLACES, MOVE_EVALUATIONS, ENDS, HEADWAYS, BOARD,
    NAME_PLACES, NAME_LENGTHS, NAME_DOUBLED, EXACTS, LINES, BUFFERS
};

/* Bytes of one element of each buffer; the record is three elements, its counters. */
static const uint64_t width[BUFFERS] = {
    4, 2, 2, 4, 2, 2, 2, 2, 4, 4, 4, 2, 2, 4, 2, 2, 1, 2, 4, 2, 4, 4, 1, 1, 2, 2, 4, 1, 1, 2, 2, 4, 4, 4, 4, 4, 4, 4, 4, 4, 4, 4, 1, 1, 4};

struct request {
    uint64_t call, n, m, e, pairs, asked, route, moves, windows, row;
    struct figures { int64_t number, place, blank, least, greatest, sum, first, second, third; } parts[2]; /* merged */
    uint64_t block; /* bytes of the block */
    struct { uint64_t place, length; } lent[BUFFERS]; /* first byte in the block, elements */
};

struct answer {
    uint32_t number, place, evaluations, n, m, e, length, rows, values; /* what the call does not give is 0 */
    uint32_t blank;
    int32_t least, greatest;
    uint32_t first, second, third, count;
    int64_t sum;
};

static struct request request;
static struct answer *answer; /* the block follows it, and both go out together */
static unsigned char *block;
static uint64_t room; /* bytes of the largest block so far */

/* Reads that many bytes: whether they came. Nothing at all is the end of the input, if it may be. */
static int take(void *bytes, uint64_t count, int may_end) {
    uint64_t done = 0;
    while (done < count) {
        ssize_t got = read(0, (char *)bytes + done, count - done);
        if (got == 0 && done == 0 && may_end) return 0;
        if (got <= 0) exit(2);
        done += (uint64_t)got;
    }
    return 1;
}

static void give(const void *bytes, uint64_t count) {
    uint64_t done = 0;
    while (done < count) {
        ssize_t gone = write(1, (const char *)bytes + done, count - done);
        if (gone <= 0) exit(4);
        done += (uint64_t)gone;
    }
}

/* Makes the block as long as the request says, and reads it. */
static void take_block(void) {
    if (answer == NULL || request.block > room) {
        if (request.block > UINT32_MAX) exit(3);
        room = request.block;
        answer = realloc(answer, sizeof *answer + room);
        if (answer == NULL) exit(3);
        block = (unsigned char *)(answer + 1);
    }
    take(block, request.block, 0);
    for (int which = 0; which < BUFFERS; which++) {
        uint64_t place = request.lent[which].place, length = request.lent[which].length;
        if (place > request.block || place % width[which] != 0) exit(2);
        if (length > (request.block - place) / width[which]) exit(2);
    }
    if (request.lent[SESSION].length != 3) exit(2);
}

#define COUNTED request.n, request.m, request.e
#define LENT(which) (request.lent[which].length == 0 ? NULL : (void *)(block + request.lent[which].place)), \
    request.lent[which].length
#define ROWS_AND_ENTRIES LENT(KINDS), LENT(MAKES), LENT(PARAMS), LENT(FIRSTS), LENT(COUNTS), LENT(VARS), LENT(COEFS)
#define BOUNDS LENT(LOWS), LENT(HIGHS)
#define INDEXED LENT(NUMBERS), LENT(ORDER), LENT(STORED), LENT(READER_STARTS), LENT(READER_PLACES)
#define BUILT INDEXED, LENT(REASONS)
#define BATCH request.moves, LENT(MOVE_PAIRS), LENT(MOVE_VARS), LENT(MOVE_VALUES)
#define MOVE request.pairs, LENT(MOVE_VARS), LENT(MOVE_VALUES)
#define NAMES LENT(NAME_PLACES), LENT(NAME_LENGTHS), LENT(NAME_DOUBLED)
#define WINDOWS LENT(STARTS), LENT(ENDS), LENT(HEADWAYS), LENT(EXACTS)
#define LOG LENT(LOG_SIZES), LENT(LOG_VARS), LENT(LOG_VALUES)

static struct answer of_call(lukhandro_outcome outcome) {
    return (struct answer){.number = outcome.number, .place = outcome.place, .evaluations = outcome.evaluations};
}

static struct answer of_read(lukhandro_read_outcome outcome) {
    return (struct answer){
        .number = outcome.number, .place = outcome.place, .n = outcome.n, .m = outcome.m, .e = outcome.e};
}

static struct answer of_salvage(lukhandro_salvage_outcome outcome) {
    return (struct answer){.number = outcome.number, .place = outcome.place, .length = (uint32_t)outcome.length,
        .rows = (uint32_t)outcome.rows, .values = (uint32_t)outcome.values};
}

static struct answer of_move(lukhandro_move_outcome outcome) {
    return (struct answer){.number = outcome.number, .place = outcome.place, .length = (uint32_t)outcome.length};
}

static struct answer of_figures(lukhandro_figures_outcome outcome) {
    return (struct answer){.number = outcome.number, .place = outcome.place, .blank = outcome.blank,
        .least = outcome.least, .greatest = outcome.greatest, .first = outcome.first, .second = outcome.second,
        .third = outcome.third, .sum = outcome.sum};
}

/* The figures of a batch as the request has them. */
static lukhandro_figures_outcome part(const struct figures *lent) {
    return (lukhandro_figures_outcome){.number = (uint32_t)lent->number, .place = (uint32_t)lent->place,
        .blank = (uint32_t)lent->blank, .least = (int32_t)lent->least, .greatest = (int32_t)lent->greatest, .sum = lent->sum,
        .first = (uint32_t)lent->first, .second = (uint32_t)lent->second, .third = (uint32_t)lent->third};
}

static struct answer of_list(lukhandro_list_outcome outcome) {
    return (struct answer){.number = outcome.number, .place = outcome.place, .length = (uint32_t)outcome.length};
}

static struct answer of_part(lukhandro_part part) {
    return (struct answer){.first = (uint32_t)part.first, .count = (uint32_t)part.count};
}

static struct answer made(void) {
    lukhandro_session *session = (void *)(block + request.lent[SESSION].place);
    switch (request.call) {
    case BUILD:
        return of_call(lukhandro_build(session, COUNTED, ROWS_AND_ENTRIES, BOUNDS, LENT(STARTS), BUILT,
            LENT(LOG_SIZES)));
    case TRIAL:
        return of_call(lukhandro_trial(session, COUNTED, ROWS_AND_ENTRIES, BOUNDS, BUILT, MOVE, request.asked,
            LENT(ASKED_VARS), (uint32_t)request.route, LENT(RESULTS), LENT(TRIED), LENT(FLAGS), LENT(WHY)));
    case KEEP:
        return of_call(lukhandro_keep(session, COUNTED, ROWS_AND_ENTRIES, BOUNDS, BUILT, MOVE, LENT(FLAGS), LOG));
    case TAKE_BACK:
        return of_call(lukhandro_take_back(session, COUNTED, ROWS_AND_ENTRIES, BOUNDS, BUILT, LENT(FLAGS), LOG));
    case READ:
        return of_read(lukhandro_read(LENT(BYTES), LENT(STARTS), ROWS_AND_ENTRIES));
    case WRITE:
        return of_call(lukhandro_write(COUNTED, LENT(STARTS), ROWS_AND_ENTRIES, LENT(BYTES)));
    case SALVAGE:
        return of_salvage(lukhandro_salvage(LENT(BYTES), LENT(SAVED), LENT(LIST)));
    case READ_BOUNDED:
        return of_read(lukhandro_read_bounded(LENT(BYTES), LENT(STARTS), ROWS_AND_ENTRIES, BOUNDS));
    case WRITE_BOUNDED:
        return of_call(lukhandro_write_bounded(COUNTED, LENT(STARTS), ROWS_AND_ENTRIES, BOUNDS, LENT(BYTES)));
    case TO_VERSION_2:
        return of_move(lukhandro_to_version_2(LENT(BYTES), LENT(SAVED)));
    case TO_VERSION_1:
        return of_move(lukhandro_to_version_1(LENT(BYTES), LENT(SAVED)));
    case FIGURES:
        return of_figures(lukhandro_figures(session, COUNTED, ROWS_AND_ENTRIES, BOUNDS, INDEXED, BATCH,
            (uint16_t)request.asked, LENT(BY_NUMBER)));
    case MERGE:
        return of_figures(lukhandro_merge(part(&request.parts[0]), part(&request.parts[1]), LENT(FIRST_BY_NUMBER),
            LENT(SECOND_BY_NUMBER), LENT(BY_NUMBER)));
    case TRIALS:
        return of_call(lukhandro_trials(session, COUNTED, ROWS_AND_ENTRIES, BOUNDS, BUILT, BATCH, request.asked, LENT(ASKED_VARS),
            (uint32_t)request.route, LENT(MOVE_NUMBERS), LENT(MOVE_PLACES), LENT(MOVE_EVALUATIONS), LENT(RESULTS), LENT(WHY)));
    case DEPARTURES:
        return of_list(lukhandro_departures(request.windows, LENT(STARTS), LENT(ENDS), LENT(HEADWAYS), LENT(BOARD)));
    case INPUTS_OF_ROW:
        return of_part(lukhandro_inputs_of_row(request.m, request.e, LENT(FIRSTS), LENT(COUNTS), LENT(VARS),
            request.row));
    case FREQUENCIES:
        return of_list(lukhandro_frequencies(LENT(BYTES), NAMES, WINDOWS, LENT(LINES)));
    case WRITE_FREQUENCIES:
        return of_list(lukhandro_write_frequencies(request.windows, LENT(BYTES), NAMES, WINDOWS, LENT(SAVED)));
    default:
        exit(2);
    }
}

int main(void) {
    while (take(&request, sizeof request, 1)) {
        take_block();
        struct answer outcome = made();
        *answer = outcome;
        give(answer, sizeof *answer + request.block);
    }
    return 0;
}
