/* Every function of lukhandro_model.h: prints what comes back and what a model has. */
#include <stdio.h>
#include "lukhandro_model.h"

static lukhandro_model sheet, other;

static void print(const char *call, lukhandro_outcome outcome) {
    printf("%s %u %u %u: %s\n", call, outcome.number, outcome.place, outcome.evaluations, lukhandro_sentence(outcome));
}

static void print_values(void) {
    for (size_t variable = 0; variable < sheet.n; variable++) {
        const uint16_t v = (uint16_t)variable;
        printf("%d%s", lukhandro_model_value(&sheet, v), variable + 1 < sheet.n ? " " : "\n");
    }
}

/* two values that are equal and one that is not, an index, and a row of each formula over them */
static void every_formula(void) {
    lukhandro_model_clear(&sheet);
    const uint16_t five = lukhandro_model_search(&sheet, 5), again = lukhandro_model_search(&sheet, 5);
    const uint16_t eight = lukhandro_model_search(&sheet, 8), one = lukhandro_model_search_within(&sheet, 1, 0, 2);
    const uint16_t three[3] = {five, again, eight}, chosen[3] = {one, again, eight};
    const lukhandro_term terms[2] = {{2, five}, {-1, again}};
    lukhandro_model_linear(&sheet, 1, terms, 2);
    lukhandro_model_min(&sheet, three, 3);
    lukhandro_model_max(&sheet, three, 3);
    lukhandro_model_element(&sheet, chosen, 3);
    lukhandro_model_shared(&sheet, three, 3);
    lukhandro_model_count(&sheet, 5, three, 3);
    lukhandro_model_over(&sheet, eight, five);
    lukhandro_model_departures(&sheet, five, eight, one);
    const uint16_t last = lukhandro_model_last(&sheet, five, eight, one);
    print("build", lukhandro_model_build(&sheet));
    print_values();
    const lukhandro_pair no_headway = {one, 0};
    print("keep", lukhandro_model_keep(&sheet, &no_headway, 1));
    printf("last is %d: %s\n", lukhandro_model_value(&sheet, last),
        lukhandro_reason_sentence(lukhandro_model_reason(&sheet, last)));
    printf("beyond %d %u\n", lukhandro_model_value(&sheet, 13), lukhandro_model_reason(&sheet, 13));
}

/* a trial, a keep, a taking back and a batch; pointers to nothing with a length of 0 */
static void a_session(void) {
    const uint16_t asked[2] = {4, 6}, pairs[3] = {0, 1, 2}, vars[3] = {2, 0, 2};
    const int32_t values[3] = {9, 6, 10};
    const lukhandro_pair moves[2] = {{0, 6}, {2, 9}}, made = {4, 1};
    uint32_t by_number[LUKHANDRO_BY_NUMBER];
    print("trial", lukhandro_model_trial(&sheet, moves, 2, asked, 2, LUKHANDRO_OUTPUT_TO_INPUT));
    printf("results %d %d, why %u %u\n", sheet.results[0], sheet.results[1], sheet.why[0], sheet.why[1]);
    print("trial of nothing", lukhandro_model_trial(&sheet, NULL, 0, NULL, 0, LUKHANDRO_MARK_GUIDED));
    print("trial by no route", lukhandro_model_trial(&sheet, NULL, 0, NULL, 0, 4));
    print("keep of nothing", lukhandro_model_keep(&sheet, NULL, 0));
    print("keep of what is made", lukhandro_model_keep(&sheet, &made, 1));
    print("keep of too much", lukhandro_model_keep(&sheet, moves, 65));
    for (int i = 0; i < 3; i++) print("taking back", lukhandro_model_take_back(&sheet));
    const lukhandro_figures_outcome figures = lukhandro_model_figures(&sheet, 3, pairs, vars, values, 3, 6, by_number);
    printf("figures %u, %u accepted, %d to %d, sum %lld\n", figures.number, by_number[0], figures.least, figures.greatest,
        (long long)figures.sum);
    uint32_t of_both[LUKHANDRO_BY_NUMBER];
    const lukhandro_figures_outcome twice = lukhandro_model_merge(figures, by_number, figures, by_number, of_both);
    printf("twice %u, %u accepted, %d to %d, sum %lld\n", twice.number, of_both[0], twice.least, twice.greatest,
        (long long)twice.sum);
    uint32_t numbers[3], places[3], evaluations[3];
    int32_t results[3];
    uint8_t why[3];
    print("trials", lukhandro_model_trials(&sheet, 3, pairs, vars, values, 3, 1, &asked[1], LUKHANDRO_MARK_GUIDED, numbers, places,
        evaluations, results, why));
    for (int i = 0; i < 3; i++) printf("%u %u %u: %d %u\n", numbers[i], places[i], evaluations[i], results[i], why[i]);
}

/* a kept model in files of both versions, read by another; and what is no file */
static void files(void) {
    static uint8_t bytes[LUKHANDRO_MOST_BYTES_BOUNDED];
    const lukhandro_pair moved = {2, 9};
    print("keep", lukhandro_model_keep(&sheet, &moved, 1));
    print("write short", lukhandro_model_write(&sheet, bytes, LUKHANDRO_BYTES_BOUNDED(13, 9, 25) - 1));
    print("write", lukhandro_model_write(&sheet, bytes, sizeof bytes));
    print("read", lukhandro_model_read(&other, bytes, LUKHANDRO_BYTES_BOUNDED(13, 9, 25)));
    printf("%d, bounds %d to %d\n", lukhandro_model_value(&other, 6), other.lows[3], other.highs[3]);
    print("write", lukhandro_model_write_version_1(&sheet, bytes, sizeof bytes));
    print("read", lukhandro_model_read(&other, bytes, LUKHANDRO_BYTES(13, 9, 25)));
    printf("%d, bounds %d to %d\n", lukhandro_model_value(&other, 6), other.lows[3], other.highs[3]);
    print("read", lukhandro_model_read(&other, bytes, 20));
    printf("%d\n", lukhandro_model_value(&other, 6));
    print("trial", lukhandro_model_trial(&other, NULL, 0, NULL, 0, LUKHANDRO_MARK_GUIDED));
}

/* two trips that begin where the other ends, if an index says so; and models that are too large */
static void wrong_and_round(void) {
    lukhandro_model_clear(&sheet);
    const uint16_t first = lukhandro_model_search(&sheet, 0), depot = lukhandro_model_search(&sheet, 25200);
    const uint16_t end = lukhandro_model_later(&sheet);
    const uint16_t inputs[3] = {first, depot, end};
    const uint16_t begins = lukhandro_model_element(&sheet, inputs, 3);
    const lukhandro_term term = {1, begins};
    lukhandro_model_row(&sheet, LUKHANDRO_LINEAR, end, 600, &term, 1);
    print("round", lukhandro_model_build(&sheet));
    print_values();
    const lukhandro_pair moved = {first, 1};
    print("keep", lukhandro_model_keep(&sheet, &moved, 1));
    for (int i = 0; i < 70000; i++) lukhandro_model_min(&sheet, &first, 1);
    print("too many", lukhandro_model_build(&sheet));
    lukhandro_model_clear(&sheet);
    print("none", lukhandro_model_build(&sheet));
}

/* pointers to nothing with a length of 0, in the calls beneath */
static void nothing(void) {
    const int32_t low = LUKHANDRO_LOWEST, high = LUKHANDRO_HIGHEST, start = 7;
    const lukhandro_outcome built = lukhandro_build(&other.session, 1, 0, 0, NULL, 0, NULL, 0, NULL, 0, NULL, 0, NULL, 0,
        NULL, 0, NULL, 0, &low, 1, &high, 1, &start, 1, other.numbers, 1, NULL, 0, other.stored, 1,
        other.reader_starts, 2, NULL, 0, other.reasons, 1, other.log_sizes, LUKHANDRO_LOG_SIZES);
    const lukhandro_read_outcome read =
        lukhandro_read(NULL, 0, NULL, 0, NULL, 0, NULL, 0, NULL, 0, NULL, 0, NULL, 0, NULL, 0, NULL, 0);
    const lukhandro_salvage_outcome saved = lukhandro_salvage(NULL, 0, NULL, 0, NULL, 0);
    const lukhandro_list_outcome list = lukhandro_departures(0, NULL, 0, NULL, 0, NULL, 0, NULL, 0);
    const lukhandro_part part = lukhandro_inputs_of_row(0, 0, NULL, 0, NULL, 0, NULL, 0, 0);
    const lukhandro_list_outcome windows =
        lukhandro_frequencies(NULL, 0, NULL, 0, NULL, 0, NULL, 0, NULL, 0, NULL, 0, NULL, 0, NULL, 0, NULL, 0);
    const lukhandro_list_outcome written =
        lukhandro_write_frequencies(0, NULL, 0, NULL, 0, NULL, 0, NULL, 0, NULL, 0, NULL, 0, NULL, 0, NULL, 0, NULL, 0);
    printf("nothing: build %u and %d, read %u %u, salvage %u %u, departures %u, inputs %zu\n", built.number,
        other.stored[0], read.number, read.place, saved.number, saved.place, list.number, part.count);
    printf("frequencies %u %u: %s\n", windows.number, windows.place, lukhandro_frequencies_sentence(windows));
    printf("frequencies written %u %u: %s\n", written.number, written.place, lukhandro_frequencies_sentence(written));
}

int main(void) {
    every_formula();
    a_session();
    files();
    wrong_and_round();
    nothing();
    printf("interface %u, %u; a model has %zu bytes\n", lukhandro_interface(), LUKHANDRO_INTERFACE, LUKHANDRO_MODEL_BYTES);
    return 0;
}
