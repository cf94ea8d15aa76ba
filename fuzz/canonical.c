/* yamlcanon_canonical: the text is its own text, means what the input means, and comes whole or not at all into a room of any
 * size, in the memory that docs/using/PERFORMANCE.md says. */
#include "fuzz.h"

int LLVMFuzzerTestOneInput(const uint8_t *data, size_t size)
{
    static struct wall inputs, texts, others, rooms, lines;
    struct text input = copied(&inputs, (struct text){data, size}), text;
    struct answer answer, again, events;
    yamlcanon_fault fault = {0};
    bound_for(size);
    events = whole(yamlcanon_events, input, &lines);
    notice(input, &events);
    answer = whole(yamlcanon_canonical, input, &texts);
    if (answer.status == YAMLCANON_REFUSED) {
        HOLDS(answer.fault.number != 21 && answer.fault.side == 0);
        if (events.status == YAMLCANON_REFUSED) HOLDS(!memcmp(&events.fault, &answer.fault, sizeof answer.fault));
        return 0;
    }
    text = answer.text;
    HOLDS(events.status == YAMLCANON_DONE);
    HOLDS(!text.n || text.at[text.n - 1] == '\n');
    hold_rooms(yamlcanon_canonical, input, text, &rooms);
    bound_for(text.n);
    again = whole(yamlcanon_canonical, copied(&others, text), &rooms);
    HOLDS(again.status == YAMLCANON_DONE && is_equal(again.text, text));
    bound_for(text.n + size);
    HOLDS(yamlcanon_same(input.at, input.n, text.at, text.n, &fault) == YAMLCANON_DONE);
    return 0;
}
