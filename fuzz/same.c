/* yamlcanon_same, of two inputs with a null byte between them (without one: of the input and itself): each is the same as itself,
 * the order does not count, and the answer is whether the canonical texts are equal. A refusal is that of the side that it names. */
#include "fuzz.h"

static uint32_t compared(struct text left, struct text right, yamlcanon_fault *fault)
{
    yamlcanon_fault clean;
    uint32_t status;
    memset(&clean, 0, sizeof clean);
    memset(fault, 0, sizeof *fault);
    status = yamlcanon_same(left.at, left.n, right.at, right.n, fault);
    HOLDS(yamlcanon_held() == 0);
    HOLDS(status == YAMLCANON_DONE || status == YAMLCANON_DIFFERENT || status == YAMLCANON_REFUSED);
    if (status == YAMLCANON_REFUSED) hold_fault(fault, fault->side ? right.n : left.n);
    else HOLDS(!memcmp(fault, &clean, sizeof clean));
    return status;
}

static int is_composed(const struct answer *answer)
{
    return answer->status == YAMLCANON_DONE || answer->fault.number == 19 || answer->fault.number == 20;
}

/* The fault is that of its side alone: the left one's first, but equal keys, which are looked for in both. */
static void hold_refusal(const yamlcanon_fault *fault, const struct answer *left, const struct answer *right)
{
    const struct answer *its = fault->side ? right : left;
    HOLDS(its->status == YAMLCANON_REFUSED && its->fault.number == fault->number);
    if (fault->number != 19) HOLDS(its->fault.place == fault->place);
    if (fault->side || fault->number == 19) HOLDS(is_composed(left));
    if (fault->number == 19) HOLDS(is_composed(right));
}

int LLVMFuzzerTestOneInput(const uint8_t *data, size_t size)
{
    static struct wall lefts, rights, left_texts, right_texts, lines;
    const uint8_t *between = size ? memchr(data, 0, size) : NULL;
    size_t front = between ? (size_t)(between - data) : size;
    struct text left = copied(&lefts, (struct text){data, front});
    struct text right = copied(&rights, between ? (struct text){between + 1, size - front - 1} : left);
    struct answer own, other, events;
    yamlcanon_fault fault;
    uint32_t status;
    bound_for(left.n + right.n);
    events = whole(yamlcanon_events, left, &lines);
    notice(left, &events);
    own = whole(yamlcanon_canonical, left, &left_texts);
    other = whole(yamlcanon_canonical, right, &right_texts);
    status = compared(left, right, &fault);
    if (status == YAMLCANON_REFUSED) {
        hold_refusal(&fault, &own, &other);
        HOLDS(compared(right, left, &fault) == YAMLCANON_REFUSED);
        return 0;
    }
    count(status << 8 | (between ? 1 : 0));
    if (own.status == YAMLCANON_DONE && other.status == YAMLCANON_DONE)
        HOLDS((status == YAMLCANON_DONE) == is_equal(own.text, other.text));
    HOLDS(compared(right, left, &fault) == status);
    bound_for(2 * left.n);
    HOLDS(compared(left, left, &fault) == YAMLCANON_DONE);
    bound_for(2 * right.n);
    HOLDS(compared(right, right, &fault) == YAMLCANON_DONE);
    return 0;
}
