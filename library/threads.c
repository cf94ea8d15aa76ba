/* Calls the library on a hundred threads at once, each under bounds of memory of its own, and holds every answer against one
 * that is given:
 *     threads < CASES
 * A case is five parts, each its length (four bytes, the lowest first) and its bytes: two inputs, and what `canonical` and
 * `events` of the first and `same` of both answer. An answer is its status as a byte, and the text or the program's line.
 *
 * Each thread comes to each case once, from a place of its own on, with one of the three calls by turns: without a bound, which
 * gives the answer and tells what the call needs, and under 64 times the input and 1 MB or, once in eight, under a small bound.
 * Under a bound the answer is the same one, or 21 exactly where the call needs more; then it is called without one again.
 */
#include "yamlcanon.h"
#include <inttypes.h>
#include <pthread.h>
#include <stdio.h>
#include <stdlib.h>
#include <string.h>

#define THREADS 100
#define MOST_TOLD 20
#define ROOM_BYTE 0xa5
#define UNTOLD ((size_t)-7)

struct part {
    const uint8_t *at;
    size_t n;
};

enum { CANONICAL, EVENTS, SAME, CALLS };

struct example {
    struct part left, right, answers[CALLS];
};

/* What one thread has: its number, its chance, its room, and how many of its calls were refused for memory. */
struct own {
    size_t number, refused, small_bounds;
    uint64_t chance;
    uint8_t *room;
};

static struct example *examples;
static size_t count, longest;
static pthread_mutex_t telling = PTHREAD_MUTEX_INITIALIZER;
static int failed;

static void wrong(const struct example *example, int call, const char *what)
{
    static const char *const names[] = {"canonical", "events", "same"};
    pthread_mutex_lock(&telling);
    if (failed++ < MOST_TOLD) {
        fprintf(stderr, "threads: case %zu, %s: %s: ", (size_t)(example - examples), names[call], what);
        fwrite(example->left.at, 1, example->left.n < 60 ? example->left.n : 60, stderr);
        fputc('\n', stderr);
    }
    pthread_mutex_unlock(&telling);
}

static uint64_t drawn(struct own *own)
{
    own->chance ^= own->chance << 13;
    own->chance ^= own->chance >> 7;
    own->chance ^= own->chance << 17;
    return own->chance;
}

/* The program's line for a fault. */
static size_t line_of(const yamlcanon_fault *f, int call, char *line, size_t room)
{
    const char *side = call != SAME || f->number == 21 ? "" : f->side ? "right: " : "left: ";
    int n = snprintf(line, room, "yaml: %s%" PRIu32 " %s", side, f->number, f->name);
    if (f->number >= 2 && f->number <= 11) n += snprintf(line + n, room - n, " at byte %" PRIu64, f->place);
    if (f->number >= 12 && f->number <= 17) n += snprintf(line + n, room - n, " at event %" PRIu64, f->place);
    if (f->number == 18) n += snprintf(line + n, room - n, " in document %" PRIu64, f->place);
    if (f->number == 19)
        n += snprintf(line + n, room - n, " in node %" PRIu64 ", entries %" PRIu64 " and %" PRIu64, f->place, f->first, f->second);
    return (size_t)(n + snprintf(line + n, room - n, "\n"));
}

static uint32_t called(const struct example *e, int call, struct own *own, size_t cap, size_t *len, yamlcanon_fault *fault)
{
    if (call == CANONICAL) return yamlcanon_canonical(e->left.at, e->left.n, own->room, cap, len, fault);
    if (call == EVENTS) return yamlcanon_events(e->left.at, e->left.n, own->room, cap, len, fault);
    return yamlcanon_same(e->left.at, e->left.n, e->right.at, e->right.n, fault);
}

static int is_untouched(const uint8_t *at, size_t n)
{
    for (size_t i = 0; i < n; i++)
        if (at[i] != ROOM_BYTE) return 0;
    return 1;
}

/* A call with room for the text, or for a byte less of it. Whether memory was refused; else the answer has to be the one given. */
static int is_refused(const struct example *e, int call, struct own *own, int is_short)
{
    const struct part *answer = &e->answers[call];
    size_t text = answer->at[0] || call == SAME ? 0 : answer->n - 1, cap = is_short && text ? text - 1 : text, len = UNTOLD;
    yamlcanon_fault fault = {0}, clean = {0};
    char line[200];
    memset(own->room, ROOM_BYTE, text + 1);
    uint32_t status = called(e, call, own, cap, &len, &fault);
    if (yamlcanon_held()) wrong(e, call, "memory is kept");
    if (status == YAMLCANON_REFUSED) {
        if (len != UNTOLD || !is_untouched(own->room, text + 1)) wrong(e, call, "a refusal with a length or a text");
        if (fault.number == 21 && !strcmp(fault.name, "OutOfMemory") && !fault.place) return 1;
        size_t n = line_of(&fault, call, line, sizeof line);
        if (answer->at[0] != 2 || n != answer->n - 1 || memcmp(line, answer->at + 1, n)) wrong(e, call, "another refusal");
        return 0;
    }
    if (memcmp(&fault, &clean, sizeof clean)) wrong(e, call, "a fault beside an answer");
    if (call != SAME && cap < text) {
        if (status != YAMLCANON_SHORT || len != text || !is_untouched(own->room, text + 1)) wrong(e, call, "a room too small");
    } else if (status != answer->at[0]) {
        wrong(e, call, "another status");
    } else if (call != SAME && (len != text || memcmp(own->room, answer->at + 1, text) || own->room[text] != ROOM_BYTE)) {
        wrong(e, call, "another text");
    }
    return 0;
}

static void tried(const struct example *e, int call, struct own *own)
{
    size_t most = 64 * (e->left.n + (call == SAME ? e->right.n : 0)) + (1 << 20), need;
    int is_short = drawn(own) % 8 == 0, is_small = drawn(own) % 8 == 0;
    yamlcanon_budget(0);
    if (is_refused(e, call, own, is_short)) wrong(e, call, "refused for memory without a bound");
    need = yamlcanon_peak();
    if (is_small) most = 1 + drawn(own) % (need + need / 4 + 1);
    yamlcanon_budget(most);
    int is_over = is_refused(e, call, own, is_short);
    if (is_over != (need > most)) wrong(e, call, is_over ? "refused though the bound is enough" : "answered though the bound is too small");
    if (yamlcanon_peak() > most) wrong(e, call, "more than the bound is held");
    own->refused += (size_t)is_over;
    own->small_bounds += (size_t)is_small;
    if (!is_over) return;
    yamlcanon_budget(0);
    if (is_refused(e, call, own, is_short) || yamlcanon_peak() != need) wrong(e, call, "not the same afterwards");
}

static void *on_thread(void *at)
{
    struct own *own = at;
    own->chance = 0x9e3779b97f4a7c15u * (own->number + 1);
    own->room = malloc(longest + 1);
    if (!own->room) exit(2);
    for (size_t i = 0; i < count; i++) {
        size_t k = (i + own->number * count / THREADS) % count;
        tried(&examples[k], (int)((k + own->number) % CALLS), own);
    }
    free(own->room);
    return NULL;
}

static void on_threads(void)
{
    static struct own owns[THREADS];
    pthread_t ids[THREADS];
    pthread_attr_t large;
    size_t refused = 0, small_bounds = 0;
    pthread_attr_init(&large);
    pthread_attr_setstacksize(&large, 8 << 20);
    for (size_t i = 0; i < THREADS; i++) {
        owns[i].number = i;
        if (pthread_create(&ids[i], &large, on_thread, &owns[i])) exit(2);
    }
    for (size_t i = 0; i < THREADS; i++) {
        pthread_join(ids[i], NULL);
        refused += owns[i].refused;
        small_bounds += owns[i].small_bounds;
    }
    printf("%zu cases, %zu calls under a bound, %zu of them under a small one, %zu refused for memory, %d wrong\n", count,
           count * THREADS, small_bounds, refused, failed);
}

static int is_read(struct part *part)
{
    uint8_t size[4], *at;
    if (fread(size, 1, 4, stdin) != 4) return 0;
    part->n = (size_t)size[0] | (size_t)size[1] << 8 | (size_t)size[2] << 16 | (size_t)size[3] << 24;
    at = malloc(part->n ? part->n : 1);
    if (!at || fread(at, 1, part->n, stdin) != part->n) exit(2);
    part->at = at;
    if (longest < part->n) longest = part->n;
    return 1;
}

int main(void)
{
    struct example e;
    while (is_read(&e.left)) {
        if (!is_read(&e.right)) return 2;
        for (int call = 0; call < CALLS; call++)
            if (!is_read(&e.answers[call]) || !e.answers[call].n) return 2;
        if (!(count & (count - 1))) examples = realloc(examples, (2 * count + 1) * sizeof e);
        if (!examples) return 2;
        examples[count++] = e;
    }
    on_threads();
    return failed ? 1 : 0;
}
