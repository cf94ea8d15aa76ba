/* yamlcanon_events: whole or not at all into a room of any size, a line for each event, brackets in order. */
#include "fuzz.h"

/* Documents, sequences and mappings are closed in order, and a line begins as an event does. */
static void hold_lines(struct text text)
{
    static char open[4096];
    size_t depth = 0;
    for (size_t i = 0; i < text.n;) {
        const uint8_t *line = text.at + i, *end = memchr(line, '\n', text.n - i);
        HOLDS(end && end - line >= 4);
        if (line[0] == '+') {
            HOLDS(depth < sizeof open);
            open[depth++] = (char)line[1];
        } else if (line[0] == '-') {
            HOLDS(depth && open[--depth] == (char)line[1]);
        } else {
            HOLDS(depth && line[0] == '=' && (!memcmp(line, "=VAL", 4) || !memcmp(line, "=ALI", 4)));
        }
        i += (size_t)(end - line) + 1;
    }
    HOLDS(!depth);
}

int LLVMFuzzerTestOneInput(const uint8_t *data, size_t size)
{
    static struct wall inputs, lines, rooms;
    struct text input = copied(&inputs, (struct text){data, size});
    struct answer answer;
    bound_for(size);
    answer = whole(yamlcanon_events, input, &lines);
    notice(input, &answer);
    if (answer.status == YAMLCANON_REFUSED) {
        HOLDS(answer.fault.number <= 11 && answer.fault.side == 0);
        return 0;
    }
    HOLDS(answer.text.n >= 10 && !memcmp(answer.text.at, "+STR\n", 5) && !memcmp(answer.text.at + answer.text.n - 5, "-STR\n", 5));
    hold_lines(answer.text);
    hold_rooms(yamlcanon_events, input, answer.text, &rooms);
    return 0;
}
