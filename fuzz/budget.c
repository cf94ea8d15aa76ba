/* yamlcanon_budget, yamlcanon_held, yamlcanon_peak, yamlcanon_version: under a bound a call answers as without one exactly if the
 * bound is what it needs, else 21, and holds no byte more; nothing stays between calls. The first byte says which call. */
#include "fuzz.h"

enum { SAME = 2, CALLS = 3 };
static text_call *const TEXT_CALLS[] = {yamlcanon_canonical, yamlcanon_events};

struct trial {
    int call;
    struct text input;
    struct answer known;
    size_t cap, need;
};

static struct answer asked(const struct trial *trial, struct wall *wall)
{
    struct text input = trial->input;
    struct answer answer = {0, {NULL, 0}, 0, {0}};
    if (trial->call != SAME) return ask(TEXT_CALLS[trial->call], input, wall, trial->cap);
    memset(&answer.fault, 0, sizeof answer.fault);
    answer.status = yamlcanon_same(input.at, input.n, input.at, input.n, &answer.fault);
    return answer;
}

/* The answer without a bound, where there is room enough, and what it needs. */
static void find(struct trial *trial, struct wall *wall)
{
    yamlcanon_budget(0);
    trial->known = asked(trial, wall);
    if (trial->known.status == YAMLCANON_SHORT) {
        trial->cap = trial->known.need;
        yamlcanon_budget(0);
        trial->known = asked(trial, wall);
    }
    trial->need = yamlcanon_peak();
    HOLDS(trial->known.status != YAMLCANON_SHORT);
    HOLDS(!(trial->known.status == YAMLCANON_REFUSED && trial->known.fault.number == 21));
}

/* The call under a bound; whether it answered as without one. */
static int is_answered(const struct trial *trial, size_t bound, struct wall *wall)
{
    struct answer answer;
    yamlcanon_budget(bound);
    HOLDS(yamlcanon_peak() == 0);
    answer = asked(trial, wall);
    HOLDS(yamlcanon_held() == 0 && (!bound || yamlcanon_peak() <= bound));
    if (answer.status == YAMLCANON_REFUSED && answer.fault.number == 21) return 0;
    HOLDS(answer.status == trial->known.status && yamlcanon_peak() == trial->need);
    HOLDS(!memcmp(&answer.fault, &trial->known.fault, sizeof answer.fault));
    HOLDS(is_equal(answer.text, trial->known.text));
    return 1;
}

int LLVMFuzzerTestOneInput(const uint8_t *data, size_t size)
{
    static struct wall inputs, texts, rooms, lines;
    struct trial trial;
    struct answer events;
    uint64_t chance;
    HOLDS(yamlcanon_version() == YAMLCANON_VERSION);
    if (!size) return 0;
    memset(&trial, 0, sizeof trial);
    trial.call = data[0] % CALLS;
    trial.input = copied(&inputs, (struct text){data + 1, size - 1});
    yamlcanon_budget(0);
    events = whole(yamlcanon_events, trial.input, &lines);
    notice(trial.input, &events);
    find(&trial, &texts);
    HOLDS(trial.need <= MOST_A_BYTE * (2 * size) + MOST_AT_LEAST);
    HOLDS(is_answered(&trial, 0, &rooms));
    chance = digest(trial.input);
    if (trial.need > 1) {
        HOLDS(is_answered(&trial, trial.need, &rooms) && is_answered(&trial, trial.need + chance % 100, &rooms));
        HOLDS(!is_answered(&trial, trial.need - 1, &rooms) && !is_answered(&trial, 1 + chance % (trial.need - 1), &rooms));
        HOLDS(is_answered(&trial, 0, &rooms));
    }
    yamlcanon_budget(0);
    return 0;
}
