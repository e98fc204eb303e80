/* trace QS HAND FROM TO ..: counts the instructions of each call in what the kit's emulator tells of a program that it runs, one instruction a line. QS and HAND
 * are the entry on each board, FROM and TO the places of the program that makes the calls: a call goes from an entry's first instruction until it is back there.
 * Prints a number a call. */
#include <stdbool.h>
#include <stdint.h>
#include <stdio.h>
#include <stdlib.h>
#include <string.h>

static int ranges;
static char **places;

static uint64_t place_of(const char *text) { return strtoull(text, NULL, 16); }

static bool is_back(uint64_t place) {
    for (int i = 0; i < ranges; i++)
        if (place >= place_of(places[2 * i]) && place < place_of(places[2 * i + 1]))
            return true;
    return false;
}

/* "Trace 0: HOST [BASE/PLACE/..": the guest's place stands behind the first slash. */
static bool told(const char *line, uint64_t *place) {
    const char *slash = strchr(line, '/');
    if (strncmp(line, "Trace", 5) != 0 || slash == NULL)
        return false;
    *place = place_of(slash + 1);
    return true;
}

int main(int count, char **words) {
    if (count < 5 || count % 2 == 0)
        return 2;
    uint64_t qs = place_of(words[1]), hand = place_of(words[2]), place, instructions = 0;
    char line[512];
    places = words + 3;
    ranges = (count - 3) / 2;
    while (fgets(line, sizeof line, stdin) != NULL) {
        if (!told(line, &place))
            continue;
        if (instructions > 0 && is_back(place)) {
            printf("%llu\n", (unsigned long long)instructions);
            instructions = 0;
        }
        if (instructions > 0 || place == qs || place == hand)
            instructions++;
    }
    return 0;
}
