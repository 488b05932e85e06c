/* The 7 o'clock service every ten minutes, and what if it ran every twelve? `cc examples/sheet.c $(pkg-config --cflags --libs
 * lukhandro)`; in the repository, on x86-64: cc -Iinclude examples/sheet.c target/staticlib/libcapi.a */
#include <stdio.h>
#include "lukhandro_model.h"

int main(void) {
    static lukhandro_model sheet;
    uint16_t start = lukhandro_model_search(&sheet, 25200), end = lukhandro_model_search(&sheet, 28800);
    uint16_t headway = lukhandro_model_search_within(&sheet, 600, 60, 7200);
    uint16_t trips = lukhandro_model_departures(&sheet, start, end, headway);
    lukhandro_outcome built = lukhandro_model_build(&sheet);
    lukhandro_pair twelve = {headway, 720}, slipped = {headway, 72000};
    lukhandro_outcome tried = lukhandro_model_trial(&sheet, &twelve, 1, &trips, 1, LUKHANDRO_MARK_GUIDED);
    printf("%d departures; every twelve minutes %d\n", lukhandro_model_value(&sheet, trips), sheet.results[0]);
    printf("a slipped digit: %s\n", lukhandro_sentence(lukhandro_model_keep(&sheet, &slipped, 1)));
    return built.number != LUKHANDRO_ACCEPTED || tried.number != LUKHANDRO_ACCEPTED;
}
