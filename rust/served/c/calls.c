/* Every call of the header on model A of the specification: prints what comes back and what is left. */
#include <stdio.h>
#include "lukhandro.h"

#define LENT(buffer) buffer, sizeof buffer / sizeof *buffer
#define TABLES LENT(kinds), LENT(makes), LENT(params), LENT(firsts), LENT(counts), LENT(vars), LENT(coefs)
#define BOUNDS LENT(lows), LENT(highs)
#define INDEXED LENT(numbers), LENT(order), LENT(stored), LENT(reader_starts), LENT(reader_places)
#define BUILT INDEXED, LENT(reasons)
#define L LUKHANDRO_LOWEST
#define H LUKHANDRO_HIGHEST
#define LOG LENT(log_sizes), LENT(log_vars), LENT(log_values)
#define MOVE 1, LENT(move_vars), LENT(move_values)
#define BATCH LENT(move_pairs), LENT(batch_vars), LENT(batch_values)
#define WINDOWS LENT(window_starts), LENT(window_ends), LENT(headways)

static uint16_t kinds[3] = {8, 9, 1}, makes[3] = {3, 4, 5}, firsts[3] = {0, 3, 6}, counts[3] = {3, 3, 1};
static uint16_t vars[7] = {0, 1, 2, 0, 1, 2, 3}, numbers[6], order[3], reader_starts[7], reader_places[7];
static uint16_t move_vars[1] = {1}, asked_vars[2] = {5, 4}, list[9];
static uint16_t log_sizes[LUKHANDRO_LOG_SIZES] = {7}, log_vars[LUKHANDRO_LOG_PLACES];
static int32_t log_values[LUKHANDRO_LOG_PLACES];
static int32_t params[3] = {0, 0, 2}, starts[6] = {25200, 28800, 600}, stored[6], move_values[1] = {28801};
static int32_t results[2], trial[6];
/* a headway of up to fifteen minutes, and 0 */
static int32_t lows[6] = {L, L, 0, L, L, L}, highs[6] = {H, H, 900, H, H, H};
static int16_t coefs[7] = {1, 1, 1, 1, 1, 1, 4};
static uint8_t flags[6], bytes[112], file[112], bounded[164];
/* one place more than asked of each */
static uint8_t reasons[7] = {9, 9, 9, 9, 9, 9, 9}, why[3] = {8, 8, 8};
static lukhandro_session session = {9, 9, 9};
/* four moves, the last of which is refused, and one place more than asked */
static uint16_t move_pairs[4] = {0, 1, 2, 1}, batch_vars[4] = {1, 1, 2, 3};
static int32_t batch_values[4] = {28801, 28500, 700, 1};
static uint32_t by_number[23] = {[22] = 99}, first_by_number[22], second_by_number[22];
static int32_t window_starts[2] = {25200, 21600}, window_ends[2] = {28800, 25200}, headways[2] = {600, 1200};
static int32_t departures[10];
/* two windows of a feed, and a place more than asked of each row; the file that is written of them, and a byte more */
static const char feed[] = "start_time,trip_id,note,end_time,headway_secs\r\n6:00:00,\"a \"\"b\"\"\",,25:10:00,60\r\n0:00:01,C,,7:00:00,9";
static uint32_t name_places[3] = {7, 7, 7}, name_lengths[3] = {7, 7, 7}, feed_lines[3] = {7, 7, 7};
static int32_t feed_starts[3] = {7, 7, 7}, feed_ends[3] = {7, 7, 7}, feed_headways[3] = {7, 7, 7};
static uint8_t name_doubled[3] = {7, 7, 7}, exacts[3] = {7, 7, 7}, written[112];

static void print(const char *call, lukhandro_outcome outcome) {
    printf("%s %u %u %u, session %u %u %u, stored", call, outcome.number, outcome.place, outcome.evaluations,
        session.kept, session.evaluations, session.blanks);
    for (int variable = 3; variable < 6; variable++) printf(" %d", stored[variable]);
    printf(", reasons");
    for (int variable = 3; variable < 6; variable++) printf(" %u", reasons[variable]);
    printf("\n");
}

static void print_saved(lukhandro_salvage_outcome saved) {
    printf("salvage %u %u %zu %zu %zu\n", saved.number, saved.place, saved.length, saved.rows, saved.values);
}

static void print_moved(const char *call, lukhandro_move_outcome moved) {
    printf("%s %u %u %zu", call, moved.number, moved.place, moved.length);
}

static void print_figures(lukhandro_figures_outcome figures) {
    printf("figures %u %u, %u blank, %d to %d, sum %lld, ", figures.number, figures.place, figures.blank, figures.least,
        figures.greatest, (long long)figures.sum);
    printf("evaluations %u %u %u, by number", figures.first, figures.second, figures.third);
    for (int number = 0; number < 23; number++) printf(" %u", by_number[number]);
    printf("\n");
}

static void print_departures(lukhandro_list_outcome listed) {
    printf("departures %u %u %zu:", listed.number, listed.place, listed.length);
    for (int place = 0; place < 10; place++) printf(" %d", departures[place]);
    printf("\n");
}

static void print_inputs(size_t row) {
    lukhandro_part part = lukhandro_inputs_of_row(3, 7, LENT(firsts), LENT(counts), LENT(vars), row);
    printf("inputs of row %zu from %zu, %zu:", row, part.first, part.count);
    for (size_t place = 0; place < part.count; place++) printf(" %u", vars[part.first + place]);
    printf("\n");
}

static int same(const uint8_t *one, const uint8_t *other, size_t length) {
    size_t at = 0;
    while (at < length && one[at] == other[at]) at++;
    return at == length;
}

#define FEED (const uint8_t *)feed, sizeof feed - 1
#define NAMES LENT(name_places), LENT(name_lengths), LENT(name_doubled)
#define FEED_WINDOWS LENT(feed_starts), LENT(feed_ends), LENT(feed_headways), LENT(exacts)

static void print_feed(lukhandro_list_outcome read) {
    printf("frequencies %u %u %zu:", read.number, read.place, read.length);
    for (int i = 0; i < 3; i++) {
        printf(" [%u %u %u, %d %d %d, %u, line %u]", name_places[i], name_lengths[i], name_doubled[i], feed_starts[i],
            feed_ends[i], feed_headways[i], exacts[i], feed_lines[i]);
    }
    printf("\n");
}

static void print_written(lukhandro_list_outcome wrote) {
    printf("frequencies written %u %u %zu, beyond %u\n%s", wrote.number, wrote.place, wrote.length, written[111],
        wrote.number == 0 ? (const char *)written : "");
}

/* frequencies.txt read and written */
static void frequencies(void) {
    print_feed(lukhandro_frequencies(FEED, LENT(name_places), LENT(name_lengths), LENT(name_doubled), LENT(feed_starts),
        LENT(feed_ends), LENT(feed_headways), exacts, 1, LENT(feed_lines)));
    print_feed(lukhandro_frequencies((const uint8_t *)feed, sizeof feed - 2, NAMES, FEED_WINDOWS, LENT(feed_lines)));
    print_feed(lukhandro_frequencies(FEED, NAMES, FEED_WINDOWS, LENT(feed_lines)));
    print_written(lukhandro_write_frequencies(2, FEED, NAMES, FEED_WINDOWS, written, 109));
    print_written(lukhandro_write_frequencies(2, FEED, NAMES, FEED_WINDOWS, written, 110));
    print_written(lukhandro_write_frequencies(3, FEED, NAMES, FEED_WINDOWS, LENT(written)));
}

int main(void) {
    print("build", lukhandro_build(&session, 6, 3, 7, TABLES, BOUNDS, LENT(starts), BUILT, LENT(log_sizes)));
    printf("readers of 2 from place %u to %u: %u %u\n", reader_starts[2], reader_starts[3], reader_places[4],
        reader_places[5]);
    print("trial", lukhandro_trial(&session, 6, 3, 7, TABLES, BOUNDS, BUILT, MOVE, 2,
        LENT(asked_vars), 3, LENT(results), LENT(trial), LENT(flags), LENT(why)));
    printf("results %d %d, trial %d, flags %u %u %u\n", results[0], results[1], trial[1], flags[3], flags[4], flags[5]);
    printf("why %u %u, beyond %u\n", why[0], why[1], why[2]);
    print("trial", lukhandro_trial(&session, 6, 3, 7, TABLES, BOUNDS, BUILT, MOVE, 2,
        LENT(asked_vars), 3, LENT(results), LENT(trial), LENT(flags), why, 1));
    print("trial", lukhandro_trial(&session, 6, 3, 7, TABLES, BOUNDS, INDEXED, reasons, 5, MOVE, 2,
        LENT(asked_vars), 3, LENT(results), LENT(trial), LENT(flags), LENT(why)));
    print("keep", lukhandro_keep(&session, 6, 3, 7, TABLES, BOUNDS, BUILT, MOVE, LENT(flags), LOG));
    printf("log of %u move: %u pair, variable %u from %d\n", log_sizes[0], log_sizes[1], log_vars[0], log_values[0]);
    print("keep", lukhandro_keep(&session, 6, 3, 7, TABLES, BOUNDS, BUILT, 1, asked_vars + 1, 1, LENT(move_values),
        LENT(flags), LOG));
    reader_places[0] = 1;
    print("keep", lukhandro_keep(&session, 6, 3, 7, TABLES, BOUNDS, BUILT, MOVE, LENT(flags), LOG));
    print("taking back", lukhandro_take_back(&session, 6, 3, 7, TABLES, BOUNDS, BUILT, LENT(flags), LOG));
    reader_places[0] = 0;
    log_sizes[0] = 2;
    print("taking back", lukhandro_take_back(&session, 6, 3, 7, TABLES, BOUNDS, BUILT, LENT(flags), LOG));
    log_sizes[0] = 1;
    print("taking back", lukhandro_take_back(&session, 6, 3, 7, TABLES, BOUNDS, BUILT, LENT(flags), LOG));
    print("taking back", lukhandro_take_back(&session, 6, 3, 7, TABLES, BOUNDS, BUILT, LENT(flags), LOG));
    move_vars[0] = 2;
    move_values[0] = 0;
    print("trial", lukhandro_trial(&session, 6, 3, 7, TABLES, BOUNDS, BUILT, MOVE, 2,
        LENT(asked_vars), 2, LENT(results), LENT(trial), LENT(flags), LENT(why)));
    printf("why %u %u, beyond %u\n", why[0], why[1], why[2]);
    print("keep", lukhandro_keep(&session, 6, 3, 7, TABLES, BOUNDS, INDEXED, reasons, 5, MOVE, LENT(flags), LOG));
    reasons[0] = 77;
    print("keep", lukhandro_keep(&session, 6, 3, 7, TABLES, BOUNDS, BUILT, MOVE, LENT(flags), LOG));
    printf("reasons of search variables %u %u %u, beyond %u\n", reasons[0], reasons[1], reasons[2], reasons[6]);
    session.blanks = 2;
    print("taking back", lukhandro_take_back(&session, 6, 3, 7, TABLES, BOUNDS, BUILT, LENT(flags), LOG));
    session.blanks = 3;
    print("taking back", lukhandro_take_back(&session, 6, 3, 7, TABLES, BOUNDS, BUILT, LENT(flags), LOG));
    move_values[0] = 901;
    print("keep", lukhandro_keep(&session, 6, 3, 7, TABLES, BOUNDS, BUILT, MOVE, LENT(flags), LOG));
    highs[3] = 6;
    print("keep", lukhandro_keep(&session, 6, 3, 7, TABLES, BOUNDS, BUILT, MOVE, LENT(flags), LOG));
    highs[3] = H;
    highs[2] = 599;
    print("taking back", lukhandro_take_back(&session, 6, 3, 7, TABLES, BOUNDS, BUILT, LENT(flags), LOG));
    print("build", lukhandro_build(&session, 6, 3, 7, TABLES, lows, 5, LENT(highs), LENT(starts), BUILT,
        LENT(log_sizes)));
    print("write", lukhandro_write(6, 3, 7, LENT(starts), TABLES, LENT(bytes)));
    params[2] = 0;
    lukhandro_read_outcome read = lukhandro_read(LENT(bytes), LENT(starts), TABLES);
    printf("read %u %u %u %u %u, parameter %d\n", read.number, read.place, read.n, read.m, read.e, params[2]);
    read = lukhandro_read(bytes, 111, LENT(starts), TABLES);
    printf("read %u %u %u %u %u\n", read.number, read.place, read.n, read.m, read.e);
    lukhandro_salvage_outcome saved = lukhandro_salvage(bytes, 111, LENT(file), LENT(list));
    print_saved(saved);
    read = lukhandro_read(file, saved.length, LENT(starts), TABLES);
    printf("row %u dropped, read %u %u %u %u %u\n", list[0], read.number, read.place, read.n, read.m, read.e);
    print_saved(lukhandro_salvage(LENT(bytes), LENT(file), NULL, 0));
    print_saved(lukhandro_salvage(LENT(bytes), file, 111, LENT(list)));
    print_saved(lukhandro_salvage(bytes, 23, LENT(file), LENT(list)));
    print_moved("to version 2", lukhandro_to_version_2(LENT(bytes), LENT(bounded)));
    read = lukhandro_read_bounded(LENT(bounded), LENT(starts), TABLES, BOUNDS);
    printf("\nread %u %u %u %u %u, bounds %d to %d\n", read.number, read.place, read.n, read.m, read.e, lows[5], highs[5]);
    print_moved("to version 1", lukhandro_to_version_1(LENT(bounded), LENT(file)));
    printf(", the same bytes %d\n", same(bytes, file, sizeof bytes));
    lows[2] = 300;
    print("write", lukhandro_write_bounded(6, 3, 7, LENT(starts), TABLES, BOUNDS, LENT(bounded)));
    print_moved("to version 1", lukhandro_to_version_1(LENT(bounded), LENT(file)));
    read = lukhandro_read(LENT(bounded), LENT(starts), TABLES);
    printf("\nread %u %u %u %u %u\n", read.number, read.place, read.n, read.m, read.e);
    lows[2] = L;
    print("build", lukhandro_build(&session, 6, 3, 7, TABLES, BOUNDS, LENT(starts), BUILT, LENT(log_sizes)));
    print_figures(lukhandro_figures(&session, 6, 3, 7, TABLES, BOUNDS, INDEXED, 4, BATCH, 5, LENT(by_number)));
    print_figures(lukhandro_figures(&session, 6, 3, 7, TABLES, BOUNDS, INDEXED, 4, BATCH, 5, by_number, 21));
    print_figures(lukhandro_figures(&session, 6, 3, 7, TABLES, BOUNDS, INDEXED, 5, BATCH, 5, LENT(by_number)));
    print_figures(lukhandro_figures(&session, 6, 3, 7, TABLES, BOUNDS, INDEXED, 0, BATCH, 5, by_number, 22));
    lukhandro_figures_outcome first = lukhandro_figures(&session, 6, 3, 7, TABLES, BOUNDS, INDEXED, 2, BATCH, 5, LENT(first_by_number));
    lukhandro_figures_outcome second = lukhandro_figures(&session, 6, 3, 7, TABLES, BOUNDS, INDEXED, 2, move_pairs + 2, 2, batch_vars + 1,
        3, batch_values + 1, 3, 5, LENT(second_by_number));
    print_figures(lukhandro_merge(first, second, LENT(first_by_number), LENT(second_by_number), LENT(by_number)));
    print_figures(lukhandro_merge(first, second, LENT(first_by_number), second_by_number, 21, LENT(by_number)));
    second.sum = (int64_t)1 << 62;
    print_figures(lukhandro_merge(first, second, LENT(first_by_number), LENT(second_by_number), LENT(by_number)));
    second.number = 19, second.place = 3;
    print_figures(lukhandro_merge(first, second, LENT(first_by_number), LENT(second_by_number), by_number, 21));
    print_departures(lukhandro_departures(2, WINDOWS, departures, 8));
    print_departures(lukhandro_departures(2, WINDOWS, LENT(departures)));
    window_ends[1]++;
    print_departures(lukhandro_departures(2, WINDOWS, LENT(departures)));
    print_inputs(1);
    print_inputs(2);
    print_inputs(3);
    frequencies();
    return 0;
}
