/* The windows of a trip and all its departures, from the bytes of frequencies.txt:
 *
 *     cc examples/timetable.c $(pkg-config --cflags --libs lukhandro) -o timetable
 *     ./timetable STBA <examples/feed/frequencies.txt
 *
 * In the repository, on x86-64: cc -Iinclude examples/timetable.c target/staticlib/libcapi.a -o timetable */
#include <stdio.h>
#include "lukhandro_model.h"

#define BYTES 1048576
#define LINES 65536

static uint8_t bytes[BYTES], doubled[LINES], exacts[LINES];
static uint32_t places[LINES], lengths[LINES], lines[LINES];
static int32_t starts[LINES], ends[LINES], headways[LINES], list[LUKHANDRO_MOST_DEPARTURES];

/* Whether the name of a window is this one; where quotes stand double in it, each two are one. */
static int is_named(size_t window, const char *trip) {
    const uint8_t *name = bytes + places[window];
    for (size_t i = 0; i < lengths[window]; i++, trip++) {
        if (*trip == '\0' || name[i] != (uint8_t)*trip) return 0;
        if (doubled[window] && name[i] == '"') i++;
    }
    return *trip == '\0';
}

static void print_time(const char *before, int32_t time, const char *behind) {
    printf("%s%d:%02d:%02d%s", before, time / 3600, time / 60 % 60, time % 60, behind);
}

int main(int count, char **words) {
    size_t length = 0, windows = 0;
    int byte;
    if (count != 2) return 2;
    while ((byte = getchar()) >= 0) {
        if (length == BYTES) {
            printf("more than %d bytes: give this program a greater BYTES\n", BYTES);
            return 1;
        }
        bytes[length++] = (uint8_t)byte;
    }
    const lukhandro_list_outcome read = lukhandro_frequencies(bytes, length, places, LINES, lengths, LINES, doubled, LINES,
        starts, LINES, ends, LINES, headways, LINES, exacts, LINES, lines, LINES);
    if (read.number != LUKHANDRO_ACCEPTED) {
        printf("line %u: %s\n", read.place, lukhandro_frequencies_sentence(read));
        return 1;
    }
    /* the windows of the trip come to the front of their rows */
    for (size_t i = 0; i < read.length; i++) {
        if (!is_named(i, words[1])) continue;
        printf("line %u, every %d seconds", lines[i], headways[i]);
        print_time(" from ", starts[i], "");
        print_time(" to ", ends[i], "\n");
        starts[windows] = starts[i];
        ends[windows] = ends[i];
        headways[windows++] = headways[i];
    }
    const lukhandro_list_outcome board =
        lukhandro_departures(windows, starts, LINES, ends, LINES, headways, LINES, list, LUKHANDRO_MOST_DEPARTURES);
    if (board.number != LUKHANDRO_ACCEPTED) {
        printf("the board is refused with %u at window %u\n", board.number, board.place);
        return 1;
    }
    printf("%zu departures", board.length);
    for (size_t i = 0; i < board.length; i++) print_time(" ", list[i], "");
    printf("\n");
    return 0;
}
