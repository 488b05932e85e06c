/* Departures from 7:00 to 8:00 every ten minutes, then every twelve, and that taken back; a window without departures; and
 * a slipped digit. On x86-64: cc -Iinclude examples/headway.c target/staticlib/libcapi.a */
#include <stdio.h>
#include "lukhandro.h"

#define ROWS kinds, 2, makes, 2, params, 2, firsts, 2, counts, 2, vars, 6, coefs, 6
#define BOUNDS lows, 5, highs, 5
#define L LUKHANDRO_LOWEST
#define H LUKHANDRO_HIGHEST
#define BUILT numbers, 5, order, 2, stored, 5, reader_starts, 6, reader_places, 6, reasons, 5
#define LOG log_sizes, LUKHANDRO_LOG_SIZES, log_vars, LUKHANDRO_LOG_PLACES, log_values, LUKHANDRO_LOG_PLACES

int main(void) {
    /* the departures of a window, and the last of them */
    uint16_t kinds[] = {8, 9}, makes[] = {3, 4}, firsts[] = {0, 3}, counts[] = {3, 3}, vars[] = {0, 1, 2, 0, 1, 2};
    uint16_t numbers[5], order[2], reader_starts[6], reader_places[6], end[] = {1}, headway[] = {2};
    int32_t params[] = {0, 0}, starts[] = {25200, 28800, 600, 0, 0}, stored[5], twelve_minutes[] = {720};
    int32_t seven[] = {25200}, twenty_hours[] = {72000};
    /* a headway is from one minute to two hours; start and end may be anything, and the others are made */
    int32_t lows[] = {L, L, 60, L, L}, highs[] = {H, H, 7200, H, H};
    int16_t coefs[] = {1, 1, 1, 1, 1, 1};
    uint8_t flags[5], reasons[5];
    /* the log of kept moves: build empties it, and it is lent to every keep and every taking back */
    uint16_t log_sizes[LUKHANDRO_LOG_SIZES], log_vars[LUKHANDRO_LOG_PLACES];
    int32_t log_values[LUKHANDRO_LOG_PLACES];
    lukhandro_session session = {0, 0, 0};

    lukhandro_outcome built = lukhandro_build(&session, 5, 2, 6, ROWS, BOUNDS, starts, 5, BUILT,
        log_sizes, LUKHANDRO_LOG_SIZES);
    printf("number %u, place %u: %d departures\n", built.number, built.place, stored[3]);
    if (built.number != 0) return 1;

    lukhandro_outcome kept = lukhandro_keep(&session, 5, 2, 6, ROWS, BOUNDS, BUILT, 1, headway, 1, twelve_minutes, 1,
        flags, 5, LOG);
    printf("every twelve minutes: %d departures, number %u\n", stored[3], kept.number);

    lukhandro_outcome taken = lukhandro_take_back(&session, 5, 2, 6, ROWS, BOUNDS, BUILT, flags, 5, LOG);
    printf("taken back: %d departures, number %u\n", stored[3], taken.number);

    lukhandro_outcome again = lukhandro_take_back(&session, 5, 2, 6, ROWS, BOUNDS, BUILT, flags, 5, LOG);
    printf("once more: number %u\n", again.number);

    lukhandro_outcome closed = lukhandro_keep(&session, 5, 2, 6, ROWS, BOUNDS, BUILT, 1, end, 1, seven, 1, flags, 5, LOG);
    printf("closed at seven: %d departures, no last one for reason %u\n", stored[3], reasons[4]);

    lukhandro_outcome slipped = lukhandro_keep(&session, 5, 2, 6, ROWS, BOUNDS, BUILT, 1, headway, 1, twenty_hours, 1,
        flags, 5, LOG);
    printf("a slipped digit: number %u, place %u\n", slipped.number, slipped.place);
    return kept.number != 0 || taken.number != 0 || again.number != 15 || closed.number != 0 || slipped.number != 17;
}
