/* Every way of ways.h closed by one kind of call on both boards, to count the instructions of each: closing poll|character. */
#include "both.h"
#include "ways.h"

CALLS(poll, image, sizeof image, closing_tick, memory, memory_length, room, sizeof room)
CALLS(character, image, sizeof image, closing_tick, 0x40, 0, memory, memory_length, room, sizeof room)

static void by_poll(const char *row) { ON_BOTH(row, poll); }
static void by_character(const char *row) { ON_BOTH(row, character); }

int main(int count, char **words) {
    if (count != 2 || (strcmp(words[1], "poll") != 0 && strcmp(words[1], "character") != 0)) {
        fprintf(stderr, "closing poll|character\n");
        return 2;
    }
    each_way(strcmp(words[1], "poll") == 0 ? by_poll : by_character);
    return 0;
}
